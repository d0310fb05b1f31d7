/* stack.c: how much stack each operation takes, those on files with 500 assignments, and the makings together. Each runs in a thread whose stack was painted before; the deepest byte that is
 * no paint any more says how far it went. Fails above PAY_STACK. The deepest operation is the first, with what the loader takes to find memset for it. */
#define _XOPEN_SOURCE 600 /* for pthread_attr_setstack */
#include <pthread.h>
#include <stdint.h>
#include <stdio.h>

#include "pay.h"

enum { PAINT = 0xA5, STACK = 1 << 20, ASSIGNMENTS = PAY_MOST_ASSIGNMENTS, RECORDS = 4 * ASSIGNMENTS + 2, ROOM = RECORDS * PAY_RECORD_BYTES + 1 };

static uint8_t stack[STACK];
static char file[ROOM], half[ROOM], other[ROOM], draft[ROOM];
static uint64_t file_length, half_length, other_length, draft_length;
static uint8_t out[ROOM], out_second[ROOM];
static uint64_t answer[PAY_ANSWER];

/* Puts assignments from a first number to a last, of one transaction each: a file, or without end records a draft. Gives the length. */
static uint64_t put(char *bytes, int from, int to, int ended)
{
    char *at = bytes;
    int count = to - from + 1;

    at += sprintf(at, "NY000010000123450110001%08d%049d\n", 8080, 0);
    for (int each = from; each <= to; each++) {
        at += sprintf(at, "NY040020000000001%07d12345678903%045d\n", each, 0);
        at += sprintf(at, "NY040230000000101112512345678903%017d%25s%06d\n", 100, "", 0);
        at += sprintf(at, "NY0402310000001%-60s%05d\n", "MAKRELL", 0);
        if (ended)
            at += sprintf(at, "NY0400880000000100000004%017d011125011125%027d\n", 100, 0);
    }
    if (ended)
        at += sprintf(at, "NY000089%08d%08d%017d011125%033d\n", count, 4 * count + 2, 100 * count, 0);
    return (uint64_t)(at - bytes);
}

static void run_check(void)
{
    pay_check(2025, 10, 1, (uint8_t *)file, file_length, answer);
}

static void run_close(void)
{
    pay_close(2025, 10, 1, (uint8_t *)draft, draft_length, out, ROOM, answer);
}

static void run_join(void)
{
    pay_join(2025, 10, 1, (uint8_t *)half, half_length, (uint8_t *)other, other_length, out, ROOM, answer);
}

static void run_part(void)
{
    pay_part(2025, 10, 1, (uint8_t *)file, file_length, ASSIGNMENTS / 2, out, ROOM, out_second, ROOM, answer);
}

/* a text in C as bytes, and how many they are */
#define TEXT(text) (const uint8_t *)(text), sizeof(text) - 1

static void run_make(void)
{
    pay_make10(12345, 110001, out, ROOM, answer);
    pay_make20(4, 1, 1, 12345678903, out, ROOM, answer);
    pay_make30(4, 2, 1, 11125, TEXT("12345678903"), 80000, TEXT(""), out, ROOM, answer);
    pay_make31(4, 2, 1, TEXT("MAKRELL"), TEXT("LANDING 441"), TEXT("TORSK UKE 44"), out, ROOM, answer);
    pay_make40(4, 3, 1, TEXT("KARI HANSEN"), TEXT("9008"), TEXT(""), TEXT("BODIN"), out, ROOM, answer);
    pay_make41(4, 3, 1, TEXT("HAVNEGADE 7"), TEXT("2. SAL"), TEXT("DK"), out, ROOM, answer);
    pay_make49(1, 3, 2, 1, 2, TEXT("IS OKTOBER"), out, ROOM, answer);
    pay_make49(4, 3, 2, 1, 2, TEXT("TORSK UKE 44"), out, ROOM, answer);
    pay_make50(4, 16, 4, TEXT("00012345686"), 50000, out, ROOM, answer);
}

static const struct {
    const char *name;
    void (*run)(void);
    uint64_t what;
} operations[] = {
    {"pay_part", run_part, PAY_PARTED},
    {"pay_close", run_close, PAY_ACCEPTED},
    {"pay_join", run_join, PAY_ACCEPTED},
    {"pay_check", run_check, PAY_ACCEPTED},
    {"pay_make10 to pay_make50", run_make, PAY_MADE},
};

static uint64_t depth;

/* In the thread: from here down to the deepest byte that the operation changed. */
static void *work(void *with)
{
    uint8_t here = 0;
    volatile uint8_t *deepest = stack;

    operations[*(const int *)with].run();
    while (*deepest == PAINT)
        deepest++;
    depth = (uint64_t)((uintptr_t)&here - (uintptr_t)deepest);
    return NULL;
}

/* Runs an operation in a thread of its own, on the painted stack. */
static int run(int which)
{
    pthread_attr_t attributes;
    pthread_t thread;

    /* by hand, so that memset is not found before an operation asks for it */
    for (volatile uint8_t *at = stack; at < stack + STACK; at++)
        *at = PAINT;
    return pthread_attr_init(&attributes) == 0 && pthread_attr_setstack(&attributes, stack, STACK) == 0 && pthread_create(&thread, &attributes, work, &which) == 0 && pthread_join(thread, NULL) == 0;
}

static int measure(int which)
{
    const char *fault = NULL;

    if (!run(which))
        fault = "no thread could be started";
    else if (answer[PAY_WHAT] != operations[which].what)
        fault = "it did not do its work";
    else if (depth > PAY_STACK)
        fault = "this is more than PAY_STACK";
    printf("      %s takes %d bytes of stack\n", operations[which].name, (int)depth);
    if (fault != NULL)
        printf("WRONG %s: %s\n", operations[which].name, fault);
    return fault != NULL;
}

int main(void)
{
    int failed = 0;

    file_length = put(file, 1, ASSIGNMENTS, 1);
    half_length = put(half, 1, ASSIGNMENTS / 2, 1);
    other_length = put(other, ASSIGNMENTS / 2 + 1, ASSIGNMENTS, 1);
    draft_length = put(draft, 1, ASSIGNMENTS, 0);
    for (int which = 0; which < 5; which++)
        failed |= measure(which);
    return failed;
}
