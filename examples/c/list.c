/* The smallest whole use of the library: a heap of four blocks, a list of three rows on it, read back and exported; then each
   refusal, provoked on purpose; then the list is let go, and its blocks come back. Where something is refused that should not
   be, the program says so and stops.

   examples/c/expected has what it must print, worked out by hand from document 01. The comments below have the steps: the pace
   is 1, so each new block does one unit of the collector's work. */
#include "dergamoyne_heap.h"
#include <stdio.h>

enum { BLOCKS = 4, PACE = 1, LINK = 0, NUMBER = 1, ROWS = 3 };

/* A new row, behind the block *last or as the first, with its number. *last is then the new row; where the row is refused it
   stays, so the list keeps its end. */
static enum dergamoyne_refusal add_row(struct dergamoyne_heap *h, uint32_t *last, uint32_t number)
{
    enum dergamoyne_refusal r;
    if (dergamoyne_heap_root(h) == 0)
        r = dergamoyne_heap_first_row(h, LINK, last);
    else
        r = dergamoyne_heap_new_row(h, *last, LINK, LINK, last);
    if (r != DERGAMOYNE_DONE)
        return r;
    return dergamoyne_heap_store_number(h, *last, NUMBER, number);
}

/* The first unit begins a cycle (marking), the second finds nothing grey (sweeping, position 2), the third sweeps block 2,
   which is black and becomes white. The rows are the blocks 2, 3 and 4, the free blocks in rising order. */
static enum dergamoyne_refusal build(struct dergamoyne_heap *h)
{
    enum dergamoyne_refusal r = DERGAMOYNE_DONE;
    uint32_t last = 0;
    for (uint32_t n = 1; n <= ROWS && r == DERGAMOYNE_DONE; n++)
        r = add_row(h, &last, 10 * n);
    return r;
}

/* The rows one by one, from the root on. */
static enum dergamoyne_refusal read_back(const struct dergamoyne_heap *h)
{
    uint32_t number = 0, block = dergamoyne_heap_root(h);
    while (block != 0) {
        enum dergamoyne_refusal r = dergamoyne_heap_read_number(h, block, NUMBER, &number);
        if (r != DERGAMOYNE_DONE)
            return r;
        printf("block %u: %u\n", (unsigned)block, (unsigned)number);
        r = dergamoyne_heap_read_reference(h, block, LINK, &block);
        if (r != DERGAMOYNE_DONE)
            return r;
    }
    return DERGAMOYNE_DONE;
}

/* The rows at once: all of them, or the reason why not. */
static void export_rows(const struct dergamoyne_heap *h, uint32_t start)
{
    uint32_t out[BLOCKS][8], rows = 0;
    struct dergamoyne_export_answer details;
    enum dergamoyne_reason why = dergamoyne_heap_export(h, start, LINK, out, BLOCKS, &rows, &details);
    if (why != DERGAMOYNE_COMPLETE) {
        printf("export: NOT complete after %u rows: %s", (unsigned)details.rows, dergamoyne_reason_text(why));
        printf(" (%s)\n", dergamoyne_refusal_text(details.refusal));
        return;
    }
    printf("export: complete, rows: %u\n", (unsigned)rows);
    for (uint32_t n = 0; n < rows; n++)
        printf("row %u: next %u, number %u\n", (unsigned)n, (unsigned)out[n][LINK], (unsigned)out[n][NUMBER]);
}

static void show(enum dergamoyne_refusal r)
{
    printf("%u: %s\n", (unsigned)r, dergamoyne_refusal_text(r));
}

/* Each refusal of the calls once, in the order of its number. For 1, 2 and 8 the example writes where only the library should. */
static void refusals(struct dergamoyne_heap *h)
{
    struct dergamoyne_heap wrong = *h;
    uint32_t colour = h->colours[0], block = 0, value = 0;
    int reference;
    wrong.words_length = 4 * h->words_length; /* bytes, for elements */
    show(dergamoyne_heap_check(&wrong));
    wrong = *h;
    wrong.regs.phase = 3;
    show(dergamoyne_heap_check(&wrong));
    show(dergamoyne_heap_new_block(h, 0, 0, &block)); /* no holder */
    show(dergamoyne_heap_set_root(h, BLOCKS + 2));
    show(dergamoyne_heap_read(h, 5, 0, &value, &reference)); /* block 5 is free still */
    show(dergamoyne_heap_store_reference(h, 2, 2, 5));
    /* Block 5 is taken, while the sweep passes block 3; then none is left, while it passes block 4: that unit stands. */
    show(dergamoyne_heap_new_block(h, 2, 2, &block));
    show(dergamoyne_heap_new_block(h, 2, 3, &block));
    h->colours[0] = 4294967293u;
    show(dergamoyne_heap_check(h));
    h->colours[0] = colour;
    show(dergamoyne_heap_work(h, 65536));
    show(dergamoyne_heap_check(h));
}

/* Without a root everything is garbage. One unit ends the sweep (block 5, black, becomes white); one begins a cycle, one finds
   nothing to mark, and four sweep the blocks 2 to 5, which are white, and free them: seven, and the rest of the units begin
   another cycle. */
static enum dergamoyne_refusal let_go(struct dergamoyne_heap *h)
{
    enum dergamoyne_refusal r = dergamoyne_heap_clear_root(h);
    if (r == DERGAMOYNE_DONE)
        r = dergamoyne_heap_collect(h);
    printf("free blocks: %u of %u\n", (unsigned)dergamoyne_heap_free_blocks(h), (unsigned)dergamoyne_heap_blocks(h));
    export_rows(h, 2);
    return r;
}

static enum dergamoyne_refusal run(struct dergamoyne_heap *h)
{
    enum dergamoyne_refusal r = build(h);
    if (r == DERGAMOYNE_DONE)
        r = read_back(h);
    if (r != DERGAMOYNE_DONE)
        return r;
    export_rows(h, dergamoyne_heap_root(h));
    refusals(h);
    return let_go(h);
}

int main(void)
{
    struct dergamoyne_heap heap;
    enum dergamoyne_refusal r = dergamoyne_heap_open(&heap, BLOCKS, PACE);
    if (r == DERGAMOYNE_DONE)
        r = run(&heap);
    dergamoyne_heap_close(&heap);
    if (r != DERGAMOYNE_DONE)
        printf("stopped: %s\n", dergamoyne_refusal_text(r));
    return r != DERGAMOYNE_DONE;
}
