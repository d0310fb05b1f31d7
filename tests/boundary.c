/* boundary.c: what include/pay.h promises of memory. A length of 0 goes with any pointer; inputs may be the same; every place of the answer is written;
 * the room that is told is enough and a byte less is not; what is told to be written is the file; a refusal changes no byte, and no call one behind what it wrote. */
#include <inttypes.h>
#include <stdint.h>
#include <stdio.h>
#include <string.h>

#include "pay.h"

/* an assignment of one payment, and one of two, so that no two lengths are the same */
#define START "NY000010000123450110001000080800000000000000000000000000000000000000000000000000\n"
#define ONE \
    "NY040020000000001000000112345678903000000000000000000000000000000000000000000000\n" \
    "NY04023000000010111251234567890300000000000080000                         000000\n" \
    "NY0402310000001MAKRELL                                                     00000\n"
#define TWO \
    "NY040020000000001000000212345678903000000000000000000000000000000000000000000000\n" \
    "NY04023000000010111251234567890300000000000080000                         000000\n" \
    "NY0402310000001MAKRELL                                                     00000\n" \
    "NY04023000000020111251234567890300000000000080000                         000000\n" \
    "NY0402310000002MAKRELL                                                     00000\n"
#define ONE_ENDS "NY040088000000010000000400000000000080000011125011125000000000000000000000000000\n"
#define TWO_ENDS "NY040088000000020000000600000000000160000011125011125000000000000000000000000000\n"

static const char draft[] = START ONE TWO;
static const char first[] = START ONE ONE_ENDS "NY000089000000010000000600000000000080000011125000000000000000000000000000000000\n";
static const char second[] = START TWO TWO_ENDS "NY000089000000020000000800000000000160000011125000000000000000000000000000000000\n";
static const char both[] = START ONE ONE_ENDS TWO TWO_ENDS "NY000089000000030000001200000000000240000011125000000000000000000000000000000000\n";

/* a text in C as an input, and how many bytes it has */
#define BYTES(text) (const uint8_t *)(text), sizeof(text) - 1
#define DAY 2025, 10, 1

enum { ROOM = 2048, LONGER = 100, FILLED = 0x5A };

static const uint64_t unwritten = 0xAAAAAAAAAAAAAAAA;
static uint8_t out[ROOM], out_second[ROOM];
static uint64_t answer[PAY_ANSWER];
static int faults, tried;

/* Before a call: no place of the answer and no byte of the outputs is what a call writes. */
static void clear(void)
{
    memset(out, FILLED, ROOM);
    memset(out_second, FILLED, ROOM);
    for (int place = 0; place < PAY_ANSWER; place++)
        answer[place] = unwritten;
}

/* The answer is these numbers, at every place. */
static void answers(const char *what, const uint64_t asked[PAY_ANSWER])
{
    tried++;
    for (int place = 0; place < PAY_ANSWER; place++) {
        if (answer[place] == asked[place])
            continue;
        faults++;
        printf("WRONG %s: place %d is %" PRIu64 ", asked %" PRIu64 "\n", what, place, answer[place], asked[place]);
        return;
    }
}

/* An output has these bytes and behind them what it had before. */
static void holds(const char *what, const uint8_t *output, const uint8_t *bytes, size_t length)
{
    int fits = memcmp(output, bytes, length) == 0;

    for (size_t i = length; i < ROOM; i++)
        fits = fits && output[i] == FILLED;
    tried++;
    if (fits)
        return;
    faults++;
    printf("WRONG %s: an output has other bytes\n", what);
}

/* A refusal, and no byte of the outputs changed. */
static void refuses(const char *what, uint64_t number, uint64_t operand, uint64_t record, uint64_t field)
{
    const uint64_t asked[PAY_ANSWER] = {[PAY_WHAT] = PAY_REFUSED, [PAY_NUMBER] = number, [PAY_OPERAND] = operand, [PAY_RECORD] = record, [PAY_FIELD] = field};

    answers(what, asked);
    holds(what, out, out, 0);
    holds(what, out_second, out_second, 0);
    clear();
}

/* The figures of a file, every payment of 800 kroner, and how many bytes were written. */
static void accepts(const char *what, uint64_t assignments, uint64_t transactions, uint64_t written)
{
    const uint64_t asked[PAY_ANSWER] = {
        [PAY_WHAT] = PAY_ACCEPTED,
        [PAY_ASSIGNMENTS] = assignments,
        [PAY_TRANSACTIONS] = transactions,
        [PAY_RECORDS] = 2 * (assignments + transactions + 1),
        [PAY_SUM] = 80000 * transactions,
        [PAY_FIRST_DATE] = 20251101,
        [PAY_WRITTEN] = written,
    };

    answers(what, asked);
}

static void try_check(void)
{
    pay_check(DAY, BYTES(first), answer);
    accepts("check", 1, 1, 0);
    clear();
    pay_check(DAY, BYTES(draft), answer);
    refuses("check a draft", PAY_OUT_OF_ORDER, 0, 5, 4);
    pay_check(DAY, (const uint8_t *)first, sizeof first - 1 - PAY_RECORD_BYTES, answer);
    refuses("check a file without its last record", PAY_ENDS_EARLY, 0, 6, 0);
    pay_check(0, 0, 0, BYTES(first), answer);
    refuses("check on no day", PAY_NO_PROCESS_DAY, 0, 0, 0);
    pay_check(UINT64_MAX, UINT64_MAX, UINT64_MAX, BYTES(first), answer);
    refuses("check on the largest numbers", PAY_NO_PROCESS_DAY, 0, 0, 0);
}

static void try_close(void)
{
    const uint64_t needed = sizeof draft - 1 + 3 * PAY_RECORD_BYTES;

    pay_close(DAY, BYTES(draft), out, needed, answer);
    accepts("close", 2, 3, needed);
    holds("close", out, BYTES(both));
    clear();
    pay_close(DAY, BYTES(draft), out, needed + LONGER, answer);
    accepts("close with more room", 2, 3, needed);
    holds("close with more room", out, BYTES(both));
    clear();
    pay_close(DAY, BYTES(draft), out, needed - 1, answer);
    refuses("close with too little room", PAY_OUTPUT_TOO_SHORT, 0, 0, 0);
    pay_close(DAY, BYTES(first), out, ROOM, answer);
    refuses("close a file", PAY_OUT_OF_ORDER, 0, 5, 4);
}

static void try_join(void)
{
    const uint64_t needed = sizeof first - 1 + sizeof second - 1 - 2 * PAY_RECORD_BYTES;

    pay_join(DAY, BYTES(first), BYTES(second), out, needed, answer);
    accepts("join", 2, 3, needed);
    holds("join", out, BYTES(both));
    clear();
    pay_join(DAY, BYTES(first), BYTES(second), out, needed + LONGER, answer);
    accepts("join with more room", 2, 3, needed);
    holds("join with more room", out, BYTES(both));
    clear();
    pay_join(DAY, BYTES(first), BYTES(second), out, needed - 1, answer);
    refuses("join with too little room", PAY_OUTPUT_TOO_SHORT, 0, 0, 0);
    pay_join(DAY, BYTES(first), BYTES(first), out, ROOM, answer);
    refuses("join a file with itself", PAY_ASSIGNMENT_TWICE, 2, 2, 6);
}

static void try_part(void)
{
    const uint64_t asked[PAY_ANSWER] = {[PAY_WHAT] = PAY_PARTED, [PAY_WRITTEN] = sizeof first - 1, [PAY_WRITTEN_SECOND] = sizeof second - 1};

    pay_part(DAY, BYTES(both), 1, out, sizeof first - 1, out_second, sizeof second - 1, answer);
    answers("part", asked);
    holds("part", out, BYTES(first));
    holds("part", out_second, BYTES(second));
    clear();
    pay_part(DAY, BYTES(both), 1, out, sizeof both - 1, out_second, sizeof both - 1, answer);
    answers("part with more room", asked);
    holds("part with more room", out, BYTES(first));
    holds("part with more room", out_second, BYTES(second));
    clear();
    pay_part(DAY, BYTES(both), 1, out, sizeof first - 2, out_second, ROOM, answer);
    refuses("part with too little room for the first", PAY_OUTPUT_TOO_SHORT, 0, 0, 0);
    pay_part(DAY, BYTES(both), 1, out, ROOM, out_second, sizeof second - 2, answer);
    refuses("part with too little room for the second", PAY_OUTPUT_TOO_SHORT, 0, 0, 0);
    pay_part(DAY, BYTES(both), UINT64_MAX, out, ROOM, out_second, ROOM, answer);
    refuses("part at the largest number", PAY_NO_BOUNDARY, 0, 0, 0);
}

/* A record was made, and holds these bytes and no others. */
static void makes(const char *what, const char *record)
{
    const uint64_t asked[PAY_ANSWER] = {[PAY_WHAT] = PAY_MADE, [PAY_WRITTEN] = PAY_RECORD_BYTES};

    answers(what, asked);
    holds(what, out, (const uint8_t *)record, PAY_RECORD_BYTES);
    clear();
}

/* Each record type once, in just enough room or more. */
static void try_make(void)
{
    pay_make10(12345, 110001, out, PAY_RECORD_BYTES, answer);
    makes("make a 10", START);
    pay_make20(4, 1, 1, 12345678903, out, PAY_RECORD_BYTES + LONGER, answer);
    makes("make a 20", ONE);
    pay_make30(4, 2, 1, 11125, BYTES("12345678903"), 80000, BYTES(""), out, PAY_RECORD_BYTES, answer);
    makes("make a 30", &ONE[PAY_RECORD_BYTES]);
    pay_make31(4, 2, 1, BYTES("MAKRELL"), BYTES(""), BYTES(""), out, ROOM, answer);
    makes("make a 31", &ONE[2 * PAY_RECORD_BYTES]);
    pay_make40(4, 3, 1, BYTES("KARI"), BYTES("9008"), BYTES(""), BYTES("BODIN"), out, ROOM, answer);
    makes("make a 40", "NY0403400000001KARI                          9008   BODIN                    000\n");
    pay_make41(4, 3, 1, BYTES("HAVNEGADE 7"), BYTES("2. SAL"), BYTES("DK"), out, ROOM, answer);
    makes("make a 41", "NY0403410000001HAVNEGADE 7                   2. SAL                        DK 00\n");
    pay_make49(1, 3, 2, 1, 2, BYTES("IS"), out, ROOM, answer);
    makes("make a 49", "NY010349000000230012IS                                      00000000000000000000\n");
    pay_make49(4, 3, 2, 1, 2, BYTES("IS"), out, ROOM, answer);
    makes("make a 49 of service 04", "NY04034900000020012IS                                      000000000000000000000\n");
    pay_make49(4, 3, 2, 0, 2, BYTES("IS"), out, ROOM, answer);
    makes("make a 49 without a place", "NY04034900000020002IS                                      000000000000000000000\n");
    pay_make50(4, 17, 4, BYTES("12345"), 20000, out, ROOM, answer);
    makes("make a 50", "NY0417500000004                    123450000000000002000000000000000000000000000\n");
}

/* The order of refusals: too long, then the record's own rules, then the room. */
static void try_make_refused(void)
{
    pay_make10(UINT64_MAX, UINT64_MAX, out, 0, answer);
    refuses("make a 10 of the largest numbers", PAY_TOO_LONG, 0, 0, 5);
    pay_make20(5, 1, 1, 12345678903, out, 0, answer);
    refuses("make a 20 of service 05", PAY_BAD_FIXED, 0, 0, 2);
    pay_make30(4, 2, 1, 310225, BYTES("12345678903"), 80000, BYTES(""), out, ROOM, answer);
    refuses("make a 30 on no day", PAY_NO_DATE, 0, 0, 6);
    pay_make31(4, 2, 1, BYTES("MAKRELLFISK"), BYTES("\t"), BYTES(""), out, ROOM, answer);
    refuses("make a 31 with a name of eleven", PAY_TOO_LONG, 0, 0, 6);
    pay_make40(4, 4, 1, BYTES("KARI"), BYTES("9008"), BYTES(""), BYTES(""), out, ROOM, answer);
    refuses("make a 40 of type 04 without an area", PAY_BAD_FORM, 0, 0, 9);
    pay_make41(4, 4, 1, BYTES("HAVNEGADE 7"), BYTES(""), BYTES("DK"), out, ROOM, answer);
    refuses("make a 41 of type 04 with a country", PAY_BAD_FORM, 0, 0, 8);
    pay_make49(1, 3, 2, 22, 0, BYTES("IS"), out, ROOM, answer);
    refuses("make a 49 on line 22", PAY_BAD_FIXED, 0, 0, 7);
    pay_make49(4, 3, 2, 22, 0, BYTES("IS"), out, ROOM, answer);
    refuses("make a 49 of service 04 on line 22", PAY_BAD_FIXED, 0, 0, 6);
    pay_make50(4, 17, 4, BYTES("12345"), 20000, out, PAY_RECORD_BYTES - 1, answer);
    refuses("make a 50 with too little room", PAY_OUTPUT_TOO_SHORT, 0, 0, 0);
}

/* A record of nothing into nothing, by any pointer. */
static void try_make_nothing(uint8_t *any)
{
    pay_make10(1, 1, any, 0, answer);
    refuses("make a 10 into nothing", PAY_OUTPUT_TOO_SHORT, 0, 0, 0);
    pay_make31(4, 2, 1, any, 0, any, 0, any, 0, any, 0, answer);
    refuses("make a 31 of nothing", PAY_OUTPUT_TOO_SHORT, 0, 0, 0);
    pay_make40(4, 3, 1, any, 0, any, 0, any, 0, any, 0, any, 0, answer);
    refuses("make a 40 of nothing", PAY_OUTPUT_TOO_SHORT, 0, 0, 0);
    pay_make41(4, 3, 1, any, 0, any, 0, any, 0, any, 0, answer);
    refuses("make a 41 of nothing", PAY_OUTPUT_TOO_SHORT, 0, 0, 0);
    pay_make30(4, 2, 1, 11125, any, 0, 0, any, 0, out, ROOM, answer);
    refuses("make a 30 to nobody", PAY_BAD_FORM, 0, 0, 7);
    pay_make50(4, 16, 1, any, 0, 0, out, ROOM, answer);
    refuses("make a 50 without a KID", PAY_BAD_FORM, 0, 0, 6);
}

/* Nothing, by any pointer. */
static void try_nothing(uint8_t *any)
{
    pay_check(DAY, any, 0, answer);
    refuses("check nothing", PAY_BAD_LENGTH, 0, 0, 0);
    pay_close(DAY, any, 0, any, 0, answer);
    refuses("close nothing", PAY_BAD_LENGTH, 0, 0, 0);
    pay_close(DAY, BYTES(draft), any, 0, answer);
    refuses("close into nothing", PAY_OUTPUT_TOO_SHORT, 0, 0, 0);
    pay_join(DAY, any, 0, any, 0, any, 0, answer);
    refuses("join nothing", PAY_BAD_LENGTH, 1, 0, 0);
    pay_join(DAY, BYTES(first), any, 0, out, ROOM, answer);
    refuses("join with nothing", PAY_BAD_LENGTH, 2, 0, 0);
    pay_join(DAY, BYTES(first), BYTES(second), any, 0, answer);
    refuses("join into nothing", PAY_OUTPUT_TOO_SHORT, 0, 0, 0);
    pay_part(DAY, any, 0, 1, any, 0, any, 0, answer);
    refuses("part nothing", PAY_BAD_LENGTH, 0, 0, 0);
    pay_part(DAY, BYTES(both), 1, any, 0, any, 0, answer);
    refuses("part into nothing", PAY_OUTPUT_TOO_SHORT, 0, 0, 0);
}

int main(void)
{
    clear();
    try_check();
    try_close();
    try_join();
    try_part();
    try_make();
    try_make_refused();
    try_nothing(NULL);
    try_nothing((uint8_t *)UINTPTR_MAX);
    try_make_nothing(NULL);
    try_make_nothing((uint8_t *)UINTPTR_MAX);
    if (faults == 0)
        printf("      %d answers and outputs are as the header says\n", tried);
    return faults != 0;
}
