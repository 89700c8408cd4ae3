/* Document 01's listing from C++: it prints the lines that the program listing prints. */
#include "dergamoyne.h"
#include <cstdio>

enum { M = 3 };
static uint32_t words[8 * M], colours[M];
static uint8_t bytes[M];
static dergamoyne_regs regs;

#define LENT words, 8 * M, colours, M, bytes, M

static void line(dergamoyne_answer a) { std::printf("%u %u %u\n", a.refusal, a.value, a.units); }
static void line(dergamoyne_read_answer a) { std::printf("%u %u %u\n", a.refusal, a.value, a.reference); }

int main()
{
    line(dergamoyne_format(&regs, LENT, M, 1));
    line(dergamoyne_allocate(&regs, LENT, 0, 0));
    line(dergamoyne_allocate(&regs, LENT, 2, 0));
    line(dergamoyne_work(&regs, LENT, 3));
    line(dergamoyne_read(regs, LENT, 2, 0));
    line(dergamoyne_store_reference(&regs, LENT, 2, 0, 0));
    line(dergamoyne_work(&regs, LENT, 4));
    line(dergamoyne_read(regs, LENT, 3, 0));
    line(dergamoyne_audit(regs, LENT));
}
