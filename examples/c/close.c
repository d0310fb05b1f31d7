/* close.c: closes a draft that the program made itself, saves the file, and parts it behind its first assignment. Built as check.c beside it:
 *
 *     reference/archive
 *     cc -std=c99 -Iinclude examples/c/close.c crates/pay_c/out/libpay_c.a -o target/close
 *     target/close closed.txt first.txt second.txt
 *
 * It ends with 0 done, 1 refused, 2 trouble, which is told on standard error.
 */
#include <errno.h>
#include <inttypes.h>
#include <stdio.h>
#include <string.h>

#include "pay.h"

enum { DONE = 0, REFUSED = 1, TROUBLE = 2 };

/* Two assignments of one transaction each. The end records 88 and 89 are missing: pay_close adds them. */
static const char draft[] =
    "NY000010000123450110001000080800000000000000000000000000000000000000000000000000\n"
    "NY040020000000001000000112345678903000000000000000000000000000000000000000000000\n"
    "NY04023000000010111251234567890300000000000080000                         000000\n"
    "NY0402310000001MAKRELL                                                     00000\n"
    "NY040020000000001000000212345678903000000000000000000000000000000000000000000000\n"
    "NY04023000000010111251234567890300000000000080000                         000000\n"
    "NY0402310000001MAKRELL                                                     00000\n";

enum {
    DRAFT_LENGTH = sizeof draft - 1,                  /* a text in C ends with a 0, which is none of the draft's bytes */
    ROOM = 2 * DRAFT_LENGTH + PAY_RECORD_BYTES        /* always enough for the closed draft, so for each of its parts too */
};
static uint8_t closed[ROOM], first[ROOM], second[ROOM];

static int refused(const uint64_t answer[PAY_ANSWER])
{
    printf("refused %" PRIu64 " %" PRIu64 " %" PRIu64 "\n", answer[PAY_NUMBER], answer[PAY_RECORD], answer[PAY_FIELD]);
    return REFUSED;
}

/* Saves so many bytes. Gives DONE, or TROUBLE, which is then told. */
static int save(const char *name, const uint8_t *bytes, uint64_t length)
{
    FILE *out = fopen(name, "wb");
    int whole;

    if (out != NULL) {
        whole = fwrite(bytes, 1, length, out) == length;
        if (fclose(out) == 0 && whole)
            return DONE;
    }
    fprintf(stderr, "trouble with %s: %s\n", name, strerror(errno));
    return TROUBLE;
}

int main(int argc, char **argv)
{
    uint64_t answer[PAY_ANSWER], length;

    if (argc != 4) {
        fputs("usage: close CLOSED FIRST SECOND\n", stderr);
        return TROUBLE;
    }

    /* the process day is 1 October 2025 */
    pay_close(2025, 10, 1, (const uint8_t *)draft, DRAFT_LENGTH, closed, ROOM, answer);
    if (answer[PAY_WHAT] != PAY_ACCEPTED)
        return refused(answer);
    length = answer[PAY_WRITTEN]; /* closed has ROOM bytes; these are the file */
    if (save(argv[1], closed, length) != DONE)
        return TROUBLE;
    printf("closed: %" PRIu64 " bytes\n", length);

    pay_part(2025, 10, 1, closed, length, 1, first, ROOM, second, ROOM, answer);
    if (answer[PAY_WHAT] != PAY_PARTED)
        return refused(answer);
    if (save(argv[2], first, answer[PAY_WRITTEN]) != DONE || save(argv[3], second, answer[PAY_WRITTEN_SECOND]) != DONE)
        return TROUBLE;
    printf("parted: %" PRIu64 " and %" PRIu64 " bytes\n", answer[PAY_WRITTEN], answer[PAY_WRITTEN_SECOND]);
    return DONE;
}
