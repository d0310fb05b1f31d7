/* pay.h: the pay office's operations for programs in C99, and for what can call C.
 *
 * The archive libpay_c.a has them. README.md, "For programs", says how it is made and linked. examples/c has three programs: check.c;
 * close.c, which saves what was written; and make.c, which makes its records from values. docs/FORMAT.md says what a file is, record by record.
 *
 * What goes in. Any bytes and any numbers may be handed in: there is nothing that a caller has to look at first. Each call ends,
 * with an answer or with one numbered refusal.
 *     year, month, day   the process day: 2025, 10, 1; years 2000 to 2099. It is always given; nothing is taken from a clock.
 *     file, draft        the bytes of a whole file or draft, and how many they are. They are read and never changed, and nobody else may
 *                        change them during the call (another thread, or another program in a mapped file).
 *     values             of a record that is to be made: numbers, and texts in ISO 8859-1 as bytes and how many they are, which are read as files are.
 *     out                room for what is written, lent for the call, and how many bytes it has.
 *     answer             sixteen numbers, all of them written by every call.
 *
 * What comes out. The answer's places are named below; a place that does not apply is 0.
 *     accepted   the figures of the file that was checked or written; place PAY_WRITTEN has how many bytes of out are the file.
 *     parted     places PAY_WRITTEN and PAY_WRITTEN_SECOND have how many bytes of the two outputs are the parts.
 *     made       the first PAY_RECORD_BYTES bytes of out are the record, its line feed too; place PAY_WRITTEN has this number.
 *     refused    number, operand, record and field of the first fault. No byte of an output was changed. That an output is too short
 *                is looked at last: whoever is told so has sound inputs.
 * Bytes of an output behind what was written stay as they were. Sums are in hundredths of a krone (80000 is 800.00 kroner).
 * A date is the number year * 10000 + month * 100 + day: 20251101 is 1 November 2025.
 *
 * Memory. An output overlaps nothing else that is handed in, and neither does the answer; inputs may overlap, or be the same.
 * A length of 0 may go with any pointer, NULL too. Any other pointer is to as many bytes as its length says, and answer is to sixteen numbers.
 * A call needs at most PAY_STACK bytes of stack (measured by tests/c, with what the loader needs, and rounded up). It takes no memory
 * from the heap, opens nothing and prints nothing. Of the C library the archive calls memset and its like and nothing else; it is
 * position independent.
 * Nothing is shared between calls, so threads may call at the same time, each with outputs and an answer of its own.
 */
#ifndef PAY_H
#define PAY_H

#include <stdint.h>

#ifdef __cplusplus
extern "C" {
#endif

/* ---- limits */
enum {
    PAY_RECORD_BYTES = 81,       /* a record: 80 characters and a line feed */
    PAY_MOST_RECORDS = 200000,   /* of a file */
    PAY_MOST_ASSIGNMENTS = 500,  /* of a file */
    PAY_MOST_BYTES = 16200000,   /* of a file; an output of this length is never too short */
    PAY_MOST_IN_MESSAGE = 42,    /* records 49 of a transaction, those without a place too */
    PAY_STACK = 32768            /* bytes of stack that a call needs at most */
};

/* ---- the places of an answer */
enum {
    PAY_WHAT = 0,             /* one of the four below */
    PAY_NUMBER = 1,           /* of a refusal: its number, one of those below */
    PAY_OPERAND = 2,          /* of a refusal by pay_join: 1 the first file, 2 the second, 0 both or the joined one; else 0 */
    PAY_RECORD = 3,           /* of a refusal: the record, counted from 1, its bytes beginning at (record - 1) * PAY_RECORD_BYTES; 0 for the whole file, and when making.
                                 It may be one behind the last, where something is missing: compare with the length before you read there */
    PAY_FIELD = 4,            /* of a refusal: the field, counted from 1 as in docs/FORMAT.md; 0 for the whole record */
    PAY_ASSIGNMENTS = 5,      /* accepted: how many assignments */
    PAY_TRANSACTIONS = 6,     /* accepted: how many transactions */
    PAY_RECORDS = 7,          /* accepted: how many records */
    PAY_SUM = 8,              /* accepted: the sum, in hundredths of a krone */
    PAY_FIRST_DATE = 9,       /* accepted: the first date, as 20251101 */
    PAY_WRITTEN = 10,         /* accepted, made: bytes written into out; parted: bytes written into the first output */
    PAY_WRITTEN_SECOND = 15,  /* parted: bytes written into the second output */
    PAY_ANSWER = 16           /* how many numbers an answer has; places 11 to 14 are 0 */
};

/* ---- what an answer is */
enum {
    PAY_REFUSED = 0,
    PAY_ACCEPTED = 1,
    PAY_PARTED = 2,
    PAY_MADE = 3
};

/* ---- the number of a refusal, and what it means */
enum {
    PAY_NO_PROCESS_DAY = 1,         /* the process day is not a date */
    PAY_BAD_LENGTH = 2,             /* the file is empty, or does not consist of whole records of 81 bytes */
    PAY_TOO_MANY_RECORDS = 3,       /* there are more than 200,000 records */
    PAY_NO_LINE_FEED = 4,           /* no line feed stands behind the 80 characters of the record */
    PAY_OUT_OF_ORDER = 5,           /* a record of this type may not stand here */
    PAY_ENDS_EARLY = 6,             /* the file ends too early, a record is missing */
    PAY_BAD_FIXED = 7,              /* a fixed text, code, line or column is wrong */
    PAY_BAD_FORM = 8,               /* the field has the wrong form */
    PAY_NO_DATE = 9,                /* this is not a date */
    PAY_NOT_IN_TIME = 10,           /* the date is too late or too early */
    PAY_BAD_ACCOUNT = 11,           /* the account's last digit is wrong */
    PAY_DISAGREES = 12,             /* service, type or transaction number disagrees with the records before */
    PAY_PAST_LIMIT = 13,            /* an amount or a sum is past its limit, or is 0 for type 16 */
    PAY_BAD_SPECIFICATION = 14,     /* the records 50 before do not add up to the amount of their record 30 */
    PAY_ASSIGNMENT_TWICE = 15,      /* agreement and assignment number stood before */
    PAY_TOO_MANY_ASSIGNMENTS = 16,  /* there are more than 500 assignments */
    PAY_PLACE_TAKEN = 17,           /* this line and column of the message was taken before */
    PAY_BAD_FIGURE = 18,            /* an end record's figure is wrong */
    PAY_OUTPUT_TOO_SHORT = 19,      /* the output is too short */
    PAY_SENDERS_DIFFER = 20,        /* the two files have different senders */
    PAY_NO_BOUNDARY = 21,           /* the file cannot be parted there */
    PAY_TOO_LONG = 22,              /* a value is too long for its field */
    PAY_TOO_MANY_TEXTS = 23         /* the message has more than 42 texts, counting those without a place */
};

/* ---- the operations */

/* Is this file as the clearing house wants it? PAY_ACCEPTED with the file's figures, or PAY_REFUSED. Nothing is written but the answer. */
void pay_check(uint64_t year, uint64_t month, uint64_t day, const uint8_t *file, uint64_t file_length, uint64_t answer[PAY_ANSWER]);

/* Adds the end records 88 and 89 to a draft. PAY_ACCEPTED with the written file's figures, or PAY_REFUSED. A refusal names a record of the draft,
 * but too many records are those of the file to be written.
 * Room needed: PAY_RECORD_BYTES for each record of the draft, for each of its assignments, and for the 89. 2 * draft_length + PAY_RECORD_BYTES is always enough. */
void pay_close(uint64_t year, uint64_t month, uint64_t day, const uint8_t *draft, uint64_t draft_length, uint8_t *out, uint64_t out_length, uint64_t answer[PAY_ANSWER]);

/* Makes one file of two: the first file's record 10, the assignments of both, and a new 89. PAY_ACCEPTED with the written file's figures, or PAY_REFUSED.
 * Too many records, too many assignments and too high a sum with operand 0 are those of the file to be written.
 * Room needed: first_length + second_length - 2 * PAY_RECORD_BYTES. */
void pay_join(uint64_t year, uint64_t month, uint64_t day, const uint8_t *first, uint64_t first_length, const uint8_t *second, uint64_t second_length, uint8_t *out, uint64_t out_length, uint64_t answer[PAY_ANSWER]);

/* Makes two files of one: the first k assignments go to the first output, the others to the second. PAY_PARTED, which has no figures, or PAY_REFUSED.
 * k goes from 1 to one less than the file's assignments; any other is refused with PAY_NO_BOUNDARY.
 * A part has the record 10, its assignments and an 89 of its own. So its length is PAY_RECORD_BYTES * (2 + the records of its assignments),
 * and both lengths together are file_length + 2 * PAY_RECORD_BYTES. Room needed: these lengths; file_length bytes for each are always enough. */
void pay_part(uint64_t year, uint64_t month, uint64_t day, const uint8_t *file, uint64_t file_length, uint64_t k, uint8_t *first, uint64_t first_length, uint8_t *second, uint64_t second_length, uint64_t answer[PAY_ANSWER]);

/* ---- records made from values
 *
 * Each of these puts its values into one record at the start of out: PAY_MADE, or PAY_REFUSED with the field, and with operand and record 0.
 * Room needed: PAY_RECORD_BYTES, always. Records that are made one behind the other are a draft, which pay_close takes.
 * What is not given is filled in: NY, the record type, fixed texts, zeros. A number stands at the right behind zeros. A text stands at the left before blanks,
 * a party and a KID at the right behind blanks. A text is put as it is, its own blanks too, and an empty one leaves its field blank.
 *     service   1 or 4
 *     type      of the transaction, 1 to 66 as docs/FORMAT.md lists them for the service; of a 50 it is 16 or 17
 *     date      DDMMYY as a number: 11125 is 1 November 2025 (in C a number that begins with 0 is another)
 *     amount    in hundredths of a krone
 * Refused is, in this order:
 *     PAY_TOO_LONG           at the first value with more digits or bytes than its field has places, which are told below; no other operation gives it
 *     a rule's own number    at the first field that breaks a rule which looks at the record alone: PAY_BAD_FIXED, where service or type are not listed too,
 *                            PAY_BAD_FORM, PAY_NO_DATE, PAY_BAD_ACCOUNT or PAY_PAST_LIMIT
 *     PAY_OUTPUT_TOO_SHORT   where out has fewer than PAY_RECORD_BYTES
 * What other records or the process day decide is left to pay_close: the order, numbers that count up, what has to agree, dates in time, sums, keys,
 * that no two texts of a message have one place, and that they are at most PAY_MOST_IN_MESSAGE.
 */

/* The start of a file. Places: sender 8, number 7. */
void pay_make10(uint64_t sender, uint64_t number, uint8_t *out, uint64_t out_length, uint64_t answer[PAY_ANSWER]);

/* The start of an assignment. Places: service 2, agreement 9, assignment number 7, account 11. */
void pay_make20(uint64_t service, uint64_t agreement, uint64_t assignment, uint64_t account, uint8_t *out, uint64_t out_length, uint64_t answer[PAY_ANSWER]);

/* A payment or a claim. Places: service 2, type 2, transaction number 7, date 6, party 11, amount 17, KID 25. */
void pay_make30(uint64_t service, uint64_t type, uint64_t number, uint64_t date, const uint8_t *party, uint64_t party_length, uint64_t amount, const uint8_t *kid, uint64_t kid_length, uint8_t *out, uint64_t out_length, uint64_t answer[PAY_ANSWER]);

/* Its references: short name, own reference, reference for the other party. Places: service 2, type 2, transaction number 7, texts 10, 25 and 25. */
void pay_make31(uint64_t service, uint64_t type, uint64_t number, const uint8_t *text6, uint64_t text6_length, const uint8_t *text7, uint64_t text7_length, const uint8_t *text8, uint64_t text8_length, uint8_t *out, uint64_t out_length, uint64_t answer[PAY_ANSWER]);

/* The payee's address. Places: service 2, type 2, transaction number 7, name 30, postal code 4, postal filler 3, area 25; the last four are texts. */
void pay_make40(uint64_t service, uint64_t type, uint64_t number, const uint8_t *name, uint64_t name_length, const uint8_t *postal, uint64_t postal_length, const uint8_t *filler, uint64_t filler_length, const uint8_t *area, uint64_t area_length, uint8_t *out, uint64_t out_length, uint64_t answer[PAY_ANSWER]);

/* The second half of the payee's address. Places: service 2, type 2, transaction number 7, first and second address line 30 each, country code 3; the last three are texts.
 * The country code is blank for type 4. */
void pay_make41(uint64_t service, uint64_t type, uint64_t number, const uint8_t *address1, uint64_t address1_length, const uint8_t *address2, uint64_t address2_length, const uint8_t *country, uint64_t country_length, uint8_t *out, uint64_t out_length, uint64_t answer[PAY_ANSWER]);

/* A piece of a message. Places: service 2, type 2, transaction number 7, line 3, column 1, text 40.
 * Line, 1 to 21, and column, 1 or 2, place the text in the notification. Line 0 or column 0 gives it no place: it clashes with no other, and the notification leaves it out.
 * Line, column and text are fields 6, 7 and 8 in service 4; in any other they are fields 7, 8 and 9, behind the notification code, which is filled in. */
void pay_make49(uint64_t service, uint64_t type, uint64_t number, uint64_t line, uint64_t column, const uint8_t *text, uint64_t text_length, uint8_t *out, uint64_t out_length, uint64_t answer[PAY_ANSWER]);

/* A sub-specification. Places: service 2, type 2, transaction number 7, KID 25, amount 17. */
void pay_make50(uint64_t service, uint64_t type, uint64_t number, const uint8_t *kid, uint64_t kid_length, uint64_t amount, uint8_t *out, uint64_t out_length, uint64_t answer[PAY_ANSWER]);

#ifdef __cplusplus
}
#endif

#endif
