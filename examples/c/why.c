/* Why is this block still here? A list of three rows hangs in word 0 of the root, and word 1 of the root names its second row, a
   place that the report's author forgot. The list is let go, and half of it stays; Why shows by what. Then the forgotten reference
   goes too, and the collector frees the rest. Where something is refused that should not be, the program says so and stops.

   examples/c/expected_why has what it must print, worked out by hand from documents 01 and 02. The comments below have the steps:
   the pace is 1, so each new block does one unit of the collector's work. */
#include "dergamoyne_heap.h"
#include <stdio.h>

enum { BLOCKS = 6, PACE = 1, LIST = 0, FORGOTTEN = 1, LINK = 0 };

/* Prints the reason, and where there is a path, each word on it, from the root on. */
static enum dergamoyne_refusal ask(const struct dergamoyne_heap *h, uint32_t block)
{
    static uint32_t path[DERGAMOYNE_WHY_ROWS(BLOCKS)][2];
    struct dergamoyne_why why;
    enum dergamoyne_refusal r = dergamoyne_heap_why(h, block, path, DERGAMOYNE_WHY_ROWS(BLOCKS), &why);
    if (r != DERGAMOYNE_DONE)
        return r;
    printf("block %u is %s: %s\n", (unsigned)block, dergamoyne_state_text(why.state), dergamoyne_why_text(why.reason));
    for (uint32_t i = 0; i < why.pairs; i++)
        printf("    by word %u of block %u\n", (unsigned)path[i][1], (unsigned)path[i][0]);
    return DERGAMOYNE_DONE;
}

/* The same of the blocks from the first to the last. */
static enum dergamoyne_refusal ask_all(const struct dergamoyne_heap *h, const char *when, uint32_t first, uint32_t last)
{
    enum dergamoyne_refusal r = DERGAMOYNE_DONE;
    printf("%s\n", when);
    for (uint32_t block = first; block <= last && r == DERGAMOYNE_DONE; block++)
        r = ask(h, block);
    return r;
}

/* The root is block 2, the rows are 3, 4 and 5. Of the four units the first begins a cycle, the second finds nothing grey, the third
   and fourth sweep the blocks 2 and 3, which were black and become white. The position is 4, and the blocks 4 and 5 are black. */
static enum dergamoyne_refusal build(struct dergamoyne_heap *h)
{
    uint32_t root = 0, first = 0, second = 0, third = 0;
    enum dergamoyne_refusal r = dergamoyne_heap_new_root(h, &root);
    if (r == DERGAMOYNE_DONE)
        r = dergamoyne_heap_new_row(h, root, LIST, LINK, &first);
    if (r == DERGAMOYNE_DONE)
        r = dergamoyne_heap_new_row(h, first, LINK, LINK, &second);
    if (r == DERGAMOYNE_DONE)
        r = dergamoyne_heap_new_row(h, second, LINK, LINK, &third);
    if (r == DERGAMOYNE_DONE)
        r = dergamoyne_heap_store_reference(h, root, FORGOTTEN, second);
    return r;
}

/* All that the root's words name is let go, one word after the other; then the collector works. The path to block 5 has two pairs:
   that by words 0, 0, 0 would have three. */
static enum dergamoyne_refusal run(struct dergamoyne_heap *h)
{
    enum dergamoyne_refusal r = build(h);
    if (r == DERGAMOYNE_DONE)
        r = ask_all(h, "The list is built.", 2, 6);
    if (r == DERGAMOYNE_DONE)
        r = dergamoyne_heap_store_null(h, 2, LIST);
    if (r == DERGAMOYNE_DONE)
        r = ask_all(h, "The list is let go.", 3, 5);
    if (r == DERGAMOYNE_DONE)
        r = dergamoyne_heap_store_null(h, 2, FORGOTTEN);
    if (r == DERGAMOYNE_DONE)
        r = ask_all(h, "The forgotten word is null.", 3, 5);
    /* Two units end the sweep, since block 5 is the last that was handed out; three begin a cycle, mark the root and turn to the
       sweep: position 2. */
    if (r == DERGAMOYNE_DONE)
        r = dergamoyne_heap_work(h, 2 + 3);
    if (r == DERGAMOYNE_DONE)
        r = ask_all(h, "The next cycle has marked what can be reached.", 3, 5);
    /* And four sweep the blocks 2 to 5. */
    if (r == DERGAMOYNE_DONE)
        r = dergamoyne_heap_work(h, 4);
    if (r == DERGAMOYNE_DONE)
        r = ask_all(h, "It has swept.", 2, 5);
    return r;
}

int main(void)
{
    struct dergamoyne_heap heap;
    enum dergamoyne_refusal r = dergamoyne_heap_open(&heap, BLOCKS, PACE);
    if (r == DERGAMOYNE_DONE)
        r = run(&heap);
    dergamoyne_heap_close(&heap);
    if (r != DERGAMOYNE_DONE)
        printf("refused: %s\n", dergamoyne_refusal_text(r));
    return r != DERGAMOYNE_DONE || fflush(stdout) != 0;
}
