/* Counting the instructions of a call by the processor's trap after each instruction (the flag TF), in the program itself. It
   works on x86-64 Linux and under the kit's emulator of it, and is slow: up to 25 microseconds an instruction.

   Counted is from the call's first instruction to its return, callees included. An instruction with a rep prefix counts as
   often as it repeats. */
#ifndef STEPS_H
#define STEPS_H

#include <stdint.h>

/* The next call of the function at this address is counted. */
void steps_begin(uintptr_t function);

/* How many instructions it took. */
uint64_t steps_end(void);

#endif
