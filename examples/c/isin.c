/* Whether the check digit of an ISIN is right, by the sum over the eleven bytes before it. */
#include <inttypes.h>
#include <stdio.h>
#include "roselhanda.h"

int main(void) {
    static const char *isins[] = {"AT0000831706", "AT0000A02MR0", "AT0000831707", "US0378331005"};
    size_t i;

    for (i = 0; i < sizeof isins / sizeof isins[0]; i++) {
        const uint8_t *isin = (const uint8_t *)isins[i];
        uint64_t sum = roselhanda_isin_sum(isin, 11);
        uint64_t digit = (10 - sum) % 10;
        printf("%s: sum %" PRIu64 ", check digit %" PRIu64 ", %s\n", isins[i], sum, digit,
               isin[11] == '0' + digit ? "right" : "wrong");
    }
    printf("nothing: sum %" PRIu64 "\n", roselhanda_isin_sum(NULL, 0));
    return 0;
}
