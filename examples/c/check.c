/* check.c: is a file as the clearing house wants it? Prints the first line that `pay check` prints. With any compiler for C99, from the project's root:
 *
 *     reference/archive
 *     cc -std=c99 -Iinclude examples/c/check.c crates/pay_c/out/libpay_c.a -o target/check
 *     target/check 011025 examples/whole.txt
 *
 * It ends with 0 accepted, 1 refused, 2 trouble, which is told on standard error.
 */
#include <errno.h>
#include <inttypes.h>
#include <stdio.h>
#include <stdlib.h>
#include <string.h>

#include "pay.h"

enum { ACCEPTED = 0, REFUSED = 1, TROUBLE = 2 };

/* a file of full size and a record more, which pay_check refuses */
static const size_t most = PAY_MOST_BYTES + PAY_RECORD_BYTES;

struct day {
    uint64_t year, month, day;
};

static uint64_t two_digits(const char *at)
{
    return (uint64_t)(at[0] - '0') * 10 + (uint64_t)(at[1] - '0');
}

/* The day that DDMMYY names. A word of another form gives 0, 0, 0, which pay_check refuses as no date. */
static struct day day_from(const char *word)
{
    struct day day = {0, 0, 0};

    if (strlen(word) == 6 && strspn(word, "0123456789") == 6) {
        day.year = 2000 + two_digits(word + 4);
        day.month = two_digits(word + 2);
        day.day = two_digits(word);
    }
    return day;
}

static int trouble(const char *name, const char *what)
{
    fprintf(stderr, "trouble with %s: %s\n", name, what);
    return TROUBLE;
}

/* Reads a file into bytes, which has room for a byte more than a file may have. Gives 0, or TROUBLE, which is then told. */
static int read_file(const char *name, uint8_t *bytes, size_t *length)
{
    FILE *in = fopen(name, "rb");
    int status = 0;

    if (in == NULL)
        return trouble(name, strerror(errno));
    *length = fread(bytes, 1, most + 1, in);
    if (ferror(in))
        status = trouble(name, strerror(errno));
    else if (*length > most)
        status = trouble(name, "it is too long, a file has at most 200,000 records");
    fclose(in);
    return status;
}

/* Prints the answer to a check: a file's figures, or a refusal. */
static int tell(const uint64_t answer[PAY_ANSWER])
{
    uint64_t date = answer[PAY_FIRST_DATE];

    if (answer[PAY_WHAT] != PAY_ACCEPTED) {
        printf("refused %" PRIu64 " %" PRIu64 " %" PRIu64 "\n", answer[PAY_NUMBER], answer[PAY_RECORD], answer[PAY_FIELD]);
        return REFUSED;
    }
    printf("accepted %" PRIu64 " %" PRIu64 " %" PRIu64 " %" PRIu64, answer[PAY_ASSIGNMENTS], answer[PAY_TRANSACTIONS], answer[PAY_RECORDS], answer[PAY_SUM]);
    printf(" %02" PRIu64 "%02" PRIu64 "%02" PRIu64 "\n", date % 100, date / 100 % 100, date / 10000 % 100);
    return ACCEPTED;
}

int main(int argc, char **argv)
{
    uint64_t answer[PAY_ANSWER];
    struct day day;
    uint8_t *file;
    size_t length;
    int status;

    if (argc != 3) {
        fputs("usage: check DDMMYY FILE\n", stderr);
        return TROUBLE;
    }
    file = malloc(most + 1);
    if (file == NULL)
        return trouble(argv[2], "there is no memory for it");
    status = read_file(argv[2], file, &length);
    if (status == 0) {
        day = day_from(argv[1]);
        pay_check(day.year, day.month, day.day, file, length, answer);
        status = tell(answer);
    }
    free(file);
    if (fflush(stdout) != 0)
        return trouble("standard output", strerror(errno));
    return status;
}
