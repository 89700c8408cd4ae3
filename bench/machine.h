/* The machine whose calls are counted: the library, or with -DPLAIN the plain one. Programs that know it by these two names can
   be compiled for either:
       MACHINE(name)     the name of a call or of a struct: MACHINE(read), struct MACHINE(regs), ..
       MACHINE_SEEN(r)   how the record r goes to a call that only looks: by value, or by a pointer */
#ifndef BENCH_MACHINE_H
#define BENCH_MACHINE_H

#ifdef PLAIN
#include "plain.h"
#define MACHINE(name) plain_##name
#define MACHINE_SEEN(r) (&(r))
#else
#include "dergamoyne.h"
#define MACHINE(name) dergamoyne_##name
#define MACHINE_SEEN(r) (r)
#endif

#endif
