/* make.c: a small till. Makes the records of a draft from values, closes it and saves the file, which is examples/whole.txt. Built as check.c beside it:
 *
 *     reference/archive
 *     cc -std=c99 -Iinclude examples/c/make.c crates/pay_c/out/libpay_c.a -o target/make
 *     target/make made.txt
 *
 * It ends with 0 done, 1 refused, 2 trouble, which is told on standard error.
 */
#include <errno.h>
#include <inttypes.h>
#include <stdio.h>
#include <string.h>

#include "pay.h"

enum { DONE = 0, REFUSED = 1, TROUBLE = 2 };

enum {
    RECORDS = 4,
    DRAFT_LENGTH = RECORDS * PAY_RECORD_BYTES,
    ROOM = 2 * DRAFT_LENGTH + PAY_RECORD_BYTES /* always enough for the closed draft */
};
static uint8_t draft[DRAFT_LENGTH], closed[ROOM];

/* a text in C as bytes, and how many they are */
#define TEXT(text) (const uint8_t *)(text), sizeof(text) - 1

/* 800.00 kroner to the crew on 1 November 2025. Makes the record of this place, counted from 1, at the end of those before it. */
static void make(int record, uint64_t answer[PAY_ANSWER])
{
    uint8_t *out = draft + (record - 1) * PAY_RECORD_BYTES;

    switch (record) {
    case 1: /* sender 12345, its file 110001 */
        pay_make10(12345, 110001, out, PAY_RECORD_BYTES, answer);
        break;
    case 2: /* Direct Remittance: agreement 1, assignment 1, out of this account */
        pay_make20(4, 1, 1, 12345678903, out, PAY_RECORD_BYTES, answer);
        break;
    case 3: /* type 2, transaction 1; the date is 01.11.25; no KID */
        pay_make30(4, 2, 1, 11125, TEXT("12345678903"), 80000, TEXT(""), out, PAY_RECORD_BYTES, answer);
        break;
    default: /* a short name, no references */
        pay_make31(4, 2, 1, TEXT("MAKRELL"), TEXT(""), TEXT(""), out, PAY_RECORD_BYTES, answer);
    }
}

/* Prints a file's figures, or a refusal with this record, and gives the status. */
static int tell(const uint64_t answer[PAY_ANSWER], uint64_t record)
{
    uint64_t date = answer[PAY_FIRST_DATE];

    if (answer[PAY_WHAT] != PAY_ACCEPTED) {
        printf("refused %" PRIu64 " %" PRIu64 " %" PRIu64 "\n", answer[PAY_NUMBER], record, answer[PAY_FIELD]);
        return REFUSED;
    }
    printf("accepted %" PRIu64 " %" PRIu64 " %" PRIu64 " %" PRIu64, answer[PAY_ASSIGNMENTS], answer[PAY_TRANSACTIONS], answer[PAY_RECORDS], answer[PAY_SUM]);
    printf(" %02" PRIu64 "%02" PRIu64 "%02" PRIu64 "\n", date % 100, date / 100 % 100, date / 10000 % 100);
    return DONE;
}

/* Saves so many bytes. Gives DONE, or TROUBLE, which is then told. */
static int save(const char *name, const uint8_t *bytes, uint64_t length)
{
    FILE *out = fopen(name, "wb");
    int whole;

    if (out != NULL) {
        whole = fwrite(bytes, 1, length, out) == length;
        if (fclose(out) == 0 && whole)
            return DONE;
    }
    fprintf(stderr, "trouble with %s: %s\n", name, strerror(errno));
    return TROUBLE;
}

int main(int argc, char **argv)
{
    uint64_t answer[PAY_ANSWER];

    if (argc != 2) {
        fputs("usage: make CLOSED\n", stderr);
        return TROUBLE;
    }
    for (int record = 1; record <= RECORDS; record++) {
        make(record, answer);
        if (answer[PAY_WHAT] != PAY_MADE)
            return tell(answer, (uint64_t)record); /* making itself names no record */
    }

    /* the process day is 1 October 2025 */
    pay_close(2025, 10, 1, draft, DRAFT_LENGTH, closed, ROOM, answer);
    if (answer[PAY_WHAT] == PAY_ACCEPTED && save(argv[1], closed, answer[PAY_WRITTEN]) != DONE)
        return TROUBLE;
    return tell(answer, answer[PAY_RECORD]);
}
