/* Counting the instructions of a call: see steps.h. */
#define _GNU_SOURCE
#include "steps.h"
#include <signal.h>
#include <stdlib.h>
#include <ucontext.h>
#include <x86intrin.h>

enum { TRAP_FLAG = 0x100 };

/* Where the counting is. */
static volatile enum { BEFORE, INSIDE, BEHIND } place;
static volatile uintptr_t first, back;
static volatile uint64_t count;

/* After each instruction. The next one is at RIP; at the function's first one the stack's top is where it will return to. */
static void trapped(int signal, siginfo_t *info, void *context)
{
    greg_t *regs = ((ucontext_t *)context)->uc_mcontext.gregs;
    uintptr_t at = (uintptr_t)regs[REG_RIP];
    (void)signal, (void)info;
    if (place == INSIDE)
        count++;
    if (place == BEFORE && at == first) {
        back = *(uintptr_t *)regs[REG_RSP];
        place = INSIDE;
    } else if (place == INSIDE && at == back) {
        place = BEHIND;
        regs[REG_EFL] &= ~TRAP_FLAG;
    }
}

void steps_begin(uintptr_t function)
{
    struct sigaction action = {.sa_sigaction = trapped, .sa_flags = SA_SIGINFO};
    if (sigaction(SIGTRAP, &action, NULL) != 0)
        abort();
    first = function;
    count = 0;
    place = BEFORE;
    __writeeflags(__readeflags() | TRAP_FLAG);
}

uint64_t steps_end(void)
{
    if (place != BEHIND)
        abort();
    return count;
}
