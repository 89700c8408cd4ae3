/* The CPU time of allocations, in nanoseconds:
       time N      N allocations, after a thousand that aren't timed

   A list of 256 blocks is made again and again on a heap of 1,024 blocks at pace 10. Each block is handed out to word 0 of the one
   before; the first of a list becomes the root, and the list before it garbage. */
#define _POSIX_C_SOURCE 200809L
#include "machine.h"
#include <stdio.h>
#include <stdlib.h>
#include <time.h>

enum { M = 1024, PACE = 10, ROWS = 256, BEFORE = 1000 };
static struct MACHINE(regs) r;
static uint32_t words[8 * M], colours[M];
static uint8_t bytes[M];
#define LENT words, 8 * (size_t)M, colours, M, bytes, M

/* Ends the program where a call was refused. */
static void accept(uint32_t refusal)
{
    if (refusal != 0) {
        fprintf(stderr, "time: refused by %u\n", (unsigned)refusal);
        exit(1);
    }
}

static void make_lists(uint32_t n)
{
    uint32_t last = 0;
    for (uint32_t i = 0; i < n; i++) {
        struct MACHINE(answer) a = MACHINE(allocate)(&r, LENT, i % ROWS == 0 ? 0 : last, 0);
        accept(a.refusal);
        last = a.value;
    }
}

static long long cpu_time(void)
{
    struct timespec t;
    if (clock_gettime(CLOCK_PROCESS_CPUTIME_ID, &t) != 0)
        abort();
    return 1000000000LL * t.tv_sec + t.tv_nsec;
}

int main(int argc, char **argv)
{
    long long start;
    if (argc != 2) {
        fprintf(stderr, "usage: time N\n");
        return 2;
    }
    accept(MACHINE(format)(&r, LENT, M, PACE).refusal);
    make_lists(BEFORE);
    start = cpu_time();
    make_lists((uint32_t)strtoul(argv[1], NULL, 10));
    printf("%lld\n", cpu_time() - start);
    return fflush(stdout) != 0;
}
