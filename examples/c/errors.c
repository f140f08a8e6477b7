/* A report of three records, two of them refused: the error file that goes back to its sender. */
#include <inttypes.h>
#include <stdio.h>
#include "roselhanda.h"

/* Document 01's record R1: its bank, the number that it cancels, its own number. */
#define RECORD(bank, cancels, number) \
    "B;" bank ";I;4711;;;B;20130903;101500;;;;;WBAH;J;" cancels ";;N;S;AT0000831706;XXX;1500;1;EUR;54,7;;;" \
    "K;;;;;;;;;;N;" number "\r\n"

static const char report[] =
    "UNB+UNOA:1+MBONE+ATBWA+20130903:1015+W1++BWAMS'UNH+BWA+BWA:0'\r\n"
    RECORD("98001", "", "A1")
    RECORD("98003", "", "A2")
    RECORD("98001", "A9", "A3")
    "'UNT+3+BWA'UNZ+1+W1'";
static const char reporters[] =
    "98001AAAAATW1XXXMBONE   \0\0\0\0\0\0\0\0"
    "98003CCCCATW1XXXMBTWO   \0\0\0\0\0\0\0\0";
static const char currencies[] = "CHFEURUSD";

/* A text, without the zero behind it, as the two arguments that lend it. */
#define LENT(text) (const uint8_t *)(text), sizeof(text) - 1

static uint8_t ledger[ROSELHANDA_LEDGER_SIZE], answers[3 * ROSELHANDA_ANSWER_SIZE], out[1000];

/* A row of a list of texts: the code, the text, and spaces. */
static uint64_t put_text(char *row, int code, const char *text) {
    return (uint64_t)sprintf(row, "%04d%-76s", code, text);
}

int main(void) {
    char ours[2 * ROSELHANDA_TEXT_ROW_SIZE + 1], members[ROSELHANDA_TEXT_ROW_SIZE + 1];
    uint64_t reply, records, our_length, members_length, written, i;

    our_length = put_text(ours, 24, "Another member reports for this bank");
    our_length += put_text(ours + our_length, 161, "Nothing live to cancel");
    members_length = put_text(members, 161, "unknown cancellation, call the back office");

    reply = roselhanda_file(LENT(report), LENT(reporters), LENT(currencies), ledger, sizeof ledger,
                            answers, sizeof answers, &records);
    printf("the report: reply %" PRIu64 ", records %" PRIu64 "\n", reply, records);

    reply = roselhanda_error_file(LENT(report), answers, sizeof answers, (uint8_t *)members, members_length,
                                  (uint8_t *)ours, our_length, LENT("20130904"), LENT("0800"),
                                  out, sizeof out, &written);
    printf("its error file: reply %" PRIu64 ", bytes %" PRIu64 "\n", reply, written);
    for (i = 0; i < written; i++)
        if (out[i] != '\r')
            putchar(out[i]);
    printf("\n");

    /* No list of ours: nothing is written. */
    written = 99;
    reply = roselhanda_error_file(LENT(report), answers, sizeof answers, (uint8_t *)members, members_length,
                                  NULL, 0, LENT("20130904"), LENT("0800"), out, sizeof out, &written);
    printf("without a text for 0024: reply %" PRIu64 ", written %" PRIu64 "\n", reply, written);
    return 0;
}
