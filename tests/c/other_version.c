/* A header of another version than the library: opening a heap is refused. */
#include "dergamoyne.h"
#undef DERGAMOYNE_VERSION
#define DERGAMOYNE_VERSION 999u
#include "dergamoyne_heap.h"

int main(void)
{
    struct dergamoyne_heap h;
    return dergamoyne_heap_open(&h, 4, 1) != DERGAMOYNE_OTHER_VERSION;
}
