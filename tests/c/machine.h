/* The machine that sessions.c and cases.c try: its calls are the array `calls`.

   It is the library, unless a file given by `-include` names another with the same calls: it declares them, and defines
   MACHINE(name) and MACHINE_SEEN(r) as perform.h wants them. */
#ifndef MACHINE_H
#define MACHINE_H

#ifndef MACHINE
#include "dergamoyne.h"
#define MACHINE(name) dergamoyne_##name
#define MACHINE_SEEN(r) (r)
#endif

#define PERFORM(name) perform_##name
#define PERFORMED calls
#include "perform.h"

enum { CALLS = sizeof calls / sizeof *calls, REGISTERS = sizeof(struct MACHINE(regs)) / sizeof(uint32_t) };

/* The call of a name, NULL where there is none. */
static inline const struct call *call_named(const char *name)
{
    for (size_t i = 0; i < CALLS; i++)
        if (strcmp(calls[i].name, name) == 0)
            return &calls[i];
    return NULL;
}

#endif
