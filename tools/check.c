/* The command check. */
#include "ask.h"
#include "commands.h"
#include "fault.h"

enum status check_image(const struct image *image, const struct dergamoyne_heap *heap)
{
    char fault[FAULT_ROOM];
    enum status closed;
    if (heap == NULL) {
        fault_find(image, fault);
        printf("%s: not accepted: %s\n", image->name, fault);
    } else {
        printf("%s: accepted: %u blocks, %u of them free; %s in cycle %u\n", image->name, (unsigned)dergamoyne_heap_blocks(heap),
               (unsigned)dergamoyne_heap_free_blocks(heap), phase_text(heap), (unsigned)dergamoyne_heap_cycles(heap));
    }
    closed = output_close(stdout, NULL);
    return closed != STATUS_YES ? closed : heap == NULL ? STATUS_NO : STATUS_YES;
}
