/* The checks and the ledger of document 01, and the error file, the sum over an ISIN, and judging
 * and booking apart of document 02, for C and C++, on x86-64 Linux.
 *
 * Link with target/staticlib/libcapi.a (make lib).
 *
 * Every function takes any bytes, keeps no state, allocates nothing and always returns. It may be
 * called from any thread on buffers of its own; what is only read may be shared.
 *
 * One convention: a function returns 0 where the call is carried out, else the number of its
 * refusal, and a refused call writes nothing; the two that are never refused return what they tell.
 * Counts and lengths are told in lent words, the last arguments, which may not be null. Every other
 * pointer comes with its length, and may be null where that is 0. What is lent for writing may not
 * overlap anything else that is lent.
 *
 * What each function returns and leaves is proved; crates/capi/specs/Exported.antt defines it.
 */
#ifndef ROSELHANDA_H
#define ROSELHANDA_H

#include <stdint.h>

#ifdef __cplusplus
extern "C" {
#endif

/* Bytes of a ledger, of an answer, of a row of texts; most records of a file. */
#define ROSELHANDA_LEDGER_SIZE 32768
#define ROSELHANDA_ANSWER_SIZE 16
#define ROSELHANDA_TEXT_ROW_SIZE 80
#define ROSELHANDA_MOST_RECORDS 1024

/* The refusals. */
#define ROSELHANDA_REFUSED_FILE_LENGTH 1   /* the file has more than 32,768 bytes */
#define ROSELHANDA_REFUSED_REPORTERS 2     /* reporters not as said below */
#define ROSELHANDA_REFUSED_CURRENCIES 3    /* currencies not as said below */
#define ROSELHANDA_REFUSED_LEDGER 4        /* a ledger of another size, or not sound */
#define ROSELHANDA_REFUSED_HEAD 5          /* the file's head is malformed */
#define ROSELHANDA_REFUSED_DATE_OR_TIME 6  /* no such date in 2000 to 2099, or no such time */
#define ROSELHANDA_REFUSED_RECEIVER 7      /* the file is addressed to another receiver */
#define ROSELHANDA_REFUSED_BODY 8          /* the file's body is malformed */
#define ROSELHANDA_REFUSED_TAIL 9          /* the file's tail is malformed */
#define ROSELHANDA_REFUSED_CONTROL_WORD 10 /* head and tail have different control words */
#define ROSELHANDA_REFUSED_RECORD_COUNT 11 /* the file has more than 1,024 records */
#define ROSELHANDA_REFUSED_ANSWER_ROOM 12  /* no room for all answers */
#define ROSELHANDA_REFUSED_SENDER 13       /* the sender is not 1 to 8 capitals or digits */
#define ROSELHANDA_REFUSED_RECORD 14       /* a record over 32,768 bytes, or with CR, LF or ' */
#define ROSELHANDA_REFUSED_ANSWERS 15      /* not 16 bytes a record, or a code that no check has */
#define ROSELHANDA_REFUSED_TEXTS 16        /* a list of texts not as said below */
#define ROSELHANDA_REFUSED_NO_TEXT 17      /* a code of the answers is in neither list of texts */
#define ROSELHANDA_REFUSED_GIVEN_TIME 18   /* the date or time given is not as said below */
#define ROSELHANDA_REFUSED_ROOM 19         /* no room for what is to be written */
#define ROSELHANDA_REFUSED_EARLIER 29      /* an earlier answer not as said below */

/* What became of a record, or would where it is only judged: byte 11 of its answer. */
#define ROSELHANDA_BOOKED 0
#define ROSELHANDA_SENDER_FAILED 1  /* at places 0 to 6 */
#define ROSELHANDA_CONTENT_FAILED 2 /* at places 7 to 60 */
#define ROSELHANDA_BOOKING_FAILED 3 /* at places 61 to 63 */

/* No reporter, no row: byte 10 and bytes 12-13 of an answer. */
#define ROSELHANDA_NO_REPORTER 255
#define ROSELHANDA_NO_ROW 65535

/* What the functions are lent; integers are little-endian:
 *   reporters   0 to 16 rows of 32 bytes: 0-4 bank code and 5-15 SWIFT address, neither of them in
 *               another row; 16-23 mailbox, then spaces; 24-31 zero
 *   currencies  0 to 512 ascending codes of three capitals, without XXX, XXK, XXO and XXZ
 *   ledger      16 compartments of 64 rows of 32 bytes, compartment r for row r of the reporters;
 *               all zero at first, then as the functions leave it. A row: 0 state (0 free, 1 live,
 *               2 cancelled, 3 a cancellation); 1 length of the number; 2-17 number; 18-25 quantity
 *               in ten-thousandths; 26-27 partner row; 28 B or S; 29-31 zero
 *   sender      the mailbox that a record came from
 *   record      39 fields with semicolons between them
 *   answer      16 bytes: 0-7 the set of failed checks, bit k for place k; 8-9 the code at the
 *               lowest failed place, 0 for none; 10 the reporter's row; 11 what became of the
 *               record; 12-13 its new row in the compartment; 14-15 its length
 *   earlier     16 bytes; the set has, at places 0 to 60, the failures of the record by this sender
 *               and these tables. Places 61 to 63 and the other eight bytes may hold anything
 *   texts       any number of rows of 80 bytes: 0-3 code, four digits that no other row of the
 *               list has; 4-79 its text, bytes from 0x20 to 0x7E other than ', then spaces
 *   date, time  YYYYMMDD in 2000 to 2099, HHMM */

/* Judges one record of a sender and books it if no check fails.
 * Writes the answer to the start of answer, and the booking to ledger.
 * Refused by 2, 3, 4, 13, 14, 12, in this order. */
uint64_t roselhanda_record(const uint8_t *reporters, uint64_t reporters_length,
                           const uint8_t *currencies, uint64_t currencies_length,
                           uint8_t *ledger, uint64_t ledger_length,
                           const uint8_t *sender, uint64_t sender_length,
                           const uint8_t *record, uint64_t record_length,
                           uint8_t *answer, uint64_t answer_length);

/* Judges and books the records of a report file in order, as single calls by its sender would.
 * Writes an answer for each from the start of answers, the bookings to ledger, and their count to
 * *records.
 * Refused by 1 to 12, in this order. */
uint64_t roselhanda_file(const uint8_t *file, uint64_t file_length,
                         const uint8_t *reporters, uint64_t reporters_length,
                         const uint8_t *currencies, uint64_t currencies_length,
                         uint8_t *ledger, uint64_t ledger_length,
                         uint8_t *answers, uint64_t answers_length,
                         uint64_t *records);

/* Judges one record of a sender, and books nothing.
 * Writes the answer to the start of answer, the one that roselhanda_record would give on this
 * ledger.
 * Refused by 2, 3, 4, 13, 14, 12, in this order. */
uint64_t roselhanda_judge(const uint8_t *reporters, uint64_t reporters_length,
                          const uint8_t *currencies, uint64_t currencies_length,
                          const uint8_t *ledger, uint64_t ledger_length,
                          const uint8_t *sender, uint64_t sender_length,
                          const uint8_t *record, uint64_t record_length,
                          uint8_t *answer, uint64_t answer_length);

/* Books one record of a sender that was judged earlier, on another ledger maybe: does what
 * roselhanda_record does on this one, for which places 61 to 63 are judged again.
 * Writes the answer to the start of answer, and the booking to ledger.
 * Refused by 2, 3, 4, 13, 14, 29, 12, in this order. */
uint64_t roselhanda_book(const uint8_t *reporters, uint64_t reporters_length,
                         const uint8_t *currencies, uint64_t currencies_length,
                         uint8_t *ledger, uint64_t ledger_length,
                         const uint8_t *sender, uint64_t sender_length,
                         const uint8_t *record, uint64_t record_length,
                         const uint8_t *earlier, uint64_t earlier_length,
                         uint8_t *answer, uint64_t answer_length);

/* Returns where field n, 1 to 39, of a record starts.
 * Writes its length to *length; both are 0 for another n, or for a record without 38 semicolons.
 * Never refused. */
uint64_t roselhanda_field(const uint8_t *record, uint64_t record_length,
                          uint64_t n, uint64_t *length);

/* Makes the error file of a report: its refused records for its sender, each with its code and a
 * text, from member_texts where that holds the code, else from our_texts. Of an answer only the
 * code is read.
 * Writes the file to the start of out, and its length to *written. It may be longer than a report
 * may be; report_length + 5 bytes, and 83 more for each refused record, are always room enough.
 * Refused by 1, 5 to 11, 15 to 19, in this order. */
uint64_t roselhanda_error_file(const uint8_t *report, uint64_t report_length,
                               const uint8_t *answers, uint64_t answers_length,
                               const uint8_t *member_texts, uint64_t member_texts_length,
                               const uint8_t *our_texts, uint64_t our_texts_length,
                               const uint8_t *date, uint64_t date_length,
                               const uint8_t *time, uint64_t time_length,
                               uint8_t *out, uint64_t out_length,
                               uint64_t *written);

/* Returns the last digit of the sum that the check digit of an ISIN is told by: for the eleven bytes
 * before it, the check digit is (10 - sum) % 10. A capital becomes two digits, A 10 to Z 35. All
 * digits are added up; the last one and every second one to its left are doubled first, and where
 * that gives two digits these are added.
 * The text may have any length. Bytes that are neither capitals nor digits are summed too, as
 * crates/identifier/specs/Isin.antt defines it.
 * Never refused. */
uint64_t roselhanda_isin_sum(const uint8_t *text, uint64_t text_length);

#ifdef __cplusplus
}
#endif

#endif
