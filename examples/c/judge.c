/* Document 01's record R1 by a call of its own, R1 to R5 as a file, a refused call, R1 judged and booked apart, and
 * empty arguments. */
#include <inttypes.h>
#include <stdio.h>
#include <string.h>
#include "roselhanda.h"

/* One of the five records: its bank, the number that it cancels, own account or client, its number. */
#define RECORD(bank, cancels, account, number) \
    "B;" bank ";I;4711;;;B;20130903;101500;;;;;WBAH;J;" cancels ";;N;S;AT0000831706;XXX;1500;1;EUR;54,7;;;" \
    account ";;;;;;;;;;N;" number

static const char r1[] = RECORD("98001", "", "K", "A1");
static const char file[] =
    "UNB+UNOA:1+MBONE+ATBWA+20130903:1015+W1++BWAMS'UNH+BWA+BWA:0'\r\n"
    RECORD("98001", "", "K", "A1") "\r\n"
    RECORD("98003", "", "K", "A2") "\r\n"
    RECORD("98001", "A1", "K", "A3") "\r\n"
    RECORD("98001", "A1", "K", "A4") "\r\n"
    RECORD("98001", "", "E", "A5") "\r\n"
    "'UNT+3+BWA'UNZ+1+W1'";
static const char reporters[] =
    "98001AAAAATW1XXXMBONE   \0\0\0\0\0\0\0\0"
    "98002BBBBATW1XXXMBONE   \0\0\0\0\0\0\0\0"
    "98003CCCCATW1XXXMBTWO   \0\0\0\0\0\0\0\0";
static const char currencies[] = "CHFEURUSD";

/* A text, without the zero behind it, as the two arguments that lend it. */
#define LENT(text) (const uint8_t *)(text), sizeof(text) - 1

static uint8_t ledger[ROSELHANDA_LEDGER_SIZE], old_ledger[sizeof ledger];
static uint8_t answers[5 * ROSELHANDA_ANSWER_SIZE], old_answers[sizeof answers];
static uint8_t earlier[ROSELHANDA_ANSWER_SIZE];

static void show(const char *name, const uint8_t *answer) {
    printf("%s code %04d status %d", name, answer[8] + 256 * answer[9], answer[11]);
    if (answer[11] == ROSELHANDA_BOOKED)
        printf(", booked in row %d of compartment %d", answer[12] + 256 * answer[13], answer[10]);
    printf("\n");
}

int main(void) {
    static const char *names[] = {"R1", "R2", "R3", "R4", "R5"};
    uint64_t reply, start, length, records, i;

    reply = roselhanda_record(LENT(reporters), LENT(currencies), ledger, sizeof ledger, LENT("MBONE"), LENT(r1),
                              answers, sizeof answers);
    printf("one record: reply %" PRIu64 "\n", reply);
    show("R1", answers);
    start = roselhanda_field(LENT(r1), 20, &length);
    printf("field 20 is %.*s, the booked number %.*s\n", (int)length, r1 + start, ledger[1], (char *)ledger + 2);

    /* Tried in the morning: the ledger is lent to be read. */
    memset(ledger, 0, sizeof ledger);
    reply = roselhanda_judge(LENT(reporters), LENT(currencies), ledger, sizeof ledger, LENT("MBONE"), LENT(r1),
                             earlier, sizeof earlier);
    printf("judged alone: reply %" PRIu64 "\n", reply);
    show("R1 would have", earlier);

    reply = roselhanda_file(LENT(file), LENT(reporters), LENT(currencies), ledger, sizeof ledger,
                            answers, sizeof answers, &records);
    printf("a file: reply %" PRIu64 ", records %" PRIu64 "\n", reply, records);
    for (i = 0; i < records; i++)
        show(names[i], answers + i * ROSELHANDA_ANSWER_SIZE);

    /* A byte too little for five answers: nothing is written. */
    memcpy(old_ledger, ledger, sizeof ledger);
    memcpy(old_answers, answers, sizeof answers);
    records = 99;
    reply = roselhanda_file(LENT(file), LENT(reporters), LENT(currencies), ledger, sizeof ledger,
                            answers, sizeof answers - 1, &records);
    printf("too little room: reply %" PRIu64 ", records %" PRIu64 ", ledger %s, answers %s\n", reply, records,
           memcmp(ledger, old_ledger, sizeof ledger) ? "changed" : "kept",
           memcmp(answers, old_answers, sizeof answers) ? "changed" : "kept");

    /* R1 in the evening: the file has booked its number. The answer to R5 is none to R1. */
    reply = roselhanda_book(LENT(reporters), LENT(currencies), ledger, sizeof ledger, LENT("MBONE"), LENT(r1),
                            earlier, sizeof earlier, answers, sizeof answers);
    printf("booked with the earlier answer: reply %" PRIu64 "\n", reply);
    show("R1", answers);
    reply = roselhanda_book(LENT(reporters), LENT(currencies), ledger, sizeof ledger, LENT("MBONE"), LENT(r1),
                            answers + 4 * ROSELHANDA_ANSWER_SIZE, ROSELHANDA_ANSWER_SIZE, earlier, sizeof earlier);
    printf("with the answer to R5: reply %" PRIu64 "\n", reply);

    /* No reporters, no currencies, a record of no bytes: null pointers. */
    reply = roselhanda_record(NULL, 0, NULL, 0, ledger, sizeof ledger, LENT("MBONE"), NULL, 0, answers, sizeof answers);
    printf("an empty record: reply %" PRIu64 "\n", reply);
    show("it has", answers);
    return 0;
}
