/* What must not compile where a warning is an error: answers that are ignored. Compiled once for each of the numbers below. */
#include "dergamoyne_heap.h"

int main(void)
{
    struct dergamoyne_heap h;
    dergamoyne_heap_none(&h);
#if IGNORED == 1
    dergamoyne_heap_work(&h, 1);
#elif IGNORED == 2
    dergamoyne_heap_export(&h, 0, 0, 0, 0, 0, 0);
#elif IGNORED == 3
    dergamoyne_allocate(&h.regs, h.words, 0, h.colours, 0, h.bytes, 0, 0, 0);
#elif IGNORED == 4
    dergamoyne_look(h.regs, h.words, 0, h.colours, 0, h.bytes, 0, 2);
#elif IGNORED == 5
    dergamoyne_heap_store_field_number(&h, 2, 0, 1);
#elif IGNORED == 6
    dergamoyne_allocate_chain(&h.regs, h.words, 0, h.colours, 0, h.bytes, 0, 0, 0, 1);
#elif IGNORED == 7
    dergamoyne_heap_export_objects(&h, 0, 1, 0, 0, 0, 0, 0);
#elif IGNORED == 8
    dergamoyne_heap_save(&h, h.bytes, 0);
#elif IGNORED == 9
    dergamoyne_load(&h.regs, h.words, 0, h.colours, 0, h.bytes, 0, h.bytes, 0);
#elif IGNORED == 10
    dergamoyne_heap_why(&h, 2, 0, 0, 0);
#elif IGNORED == 11
    dergamoyne_why(h.regs, h.words, 0, h.colours, 0, h.bytes, 0, h.words, 0, h.words, 0, h.words, 0, 2);
#endif
    return 0;
}
