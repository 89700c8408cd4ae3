/* Objects longer than a block: a list of three rows with 20 fields each, on a heap of twelve blocks. Each row takes three blocks.
   The rows are read back, field by field and then all at once by an export; three refusals are provoked on purpose; the middle row
   is let go, and its blocks serve a new object. Where something is refused that should not be, the program says so and stops.

   examples/c/expected_objects has what it must print, worked out by hand from documents 01 and 02. The comments below have the
   steps: the pace is 1, so a new object of n blocks does n units of the collector's work. */
#include "dergamoyne_heap.h"
#include <stdio.h>

enum { BLOCKS = 12, PACE = 1, ROWS = 3, FIELDS = 20, NEXT = 0 };

/* Column c of row n, c from 1 to 19, holds 100n + c. */
static enum dergamoyne_refusal fill(struct dergamoyne_heap *h, uint32_t row, uint32_t n)
{
    enum dergamoyne_refusal r = DERGAMOYNE_DONE;
    for (uint32_t c = 1; c < FIELDS && r == DERGAMOYNE_DONE; c++)
        r = dergamoyne_heap_store_field_number(h, row, c, 100 * n + c);
    return r;
}

/* A unit begins a cycle, one finds nothing grey (sweeping, position 2), then the sweep passes a block with each unit. It stands at
   3, 6 and 9 when the rows are taken, which are the blocks 2 3 4, 5 6 7 and 8 9 10, the free blocks in rising order. */
static enum dergamoyne_refusal build(struct dergamoyne_heap *h, uint32_t *rows)
{
    uint32_t blocks = dergamoyne_object_blocks(FIELDS);
    enum dergamoyne_refusal r = dergamoyne_heap_first_row_object(h, blocks, NEXT, &rows[0]);
    for (uint32_t n = 1; n < ROWS && r == DERGAMOYNE_DONE; n++)
        r = dergamoyne_heap_new_row_object(h, rows[n - 1], NEXT, blocks, NEXT, &rows[n]);
    for (uint32_t n = 0; n < ROWS && r == DERGAMOYNE_DONE; n++)
        r = fill(h, rows[n], n + 1);
    return r;
}

/* The blocks of an object, by the references in their words 7. */
static enum dergamoyne_refusal show_blocks(const struct dergamoyne_heap *h, uint32_t object)
{
    enum dergamoyne_refusal r = DERGAMOYNE_DONE;
    printf("object %u, blocks", (unsigned)object);
    while (object != 0 && r == DERGAMOYNE_DONE) {
        printf(" %u", (unsigned)object);
        r = dergamoyne_heap_read_reference(h, object, DERGAMOYNE_BLOCK_FIELDS, &object);
    }
    printf("\n");
    return r;
}

/* The first and the last column of a row, and the sum of all. */
static enum dergamoyne_refusal show_row(const struct dergamoyne_heap *h, uint32_t row)
{
    uint32_t first = 0, value = 0, sum = 0;
    enum dergamoyne_refusal r = dergamoyne_heap_read_field_number(h, row, 1, &first);
    for (uint32_t c = 1; c < FIELDS && r == DERGAMOYNE_DONE; c++) {
        r = dergamoyne_heap_read_field_number(h, row, c, &value);
        sum += value;
    }
    if (r == DERGAMOYNE_DONE)
        printf("row %u: %u to %u, sum %u\n", (unsigned)row, (unsigned)first, (unsigned)value, (unsigned)sum);
    return r;
}

/* The rows one by one, from the root on. */
static enum dergamoyne_refusal show_rows(const struct dergamoyne_heap *h)
{
    uint32_t row = dergamoyne_heap_root(h);
    enum dergamoyne_refusal r = DERGAMOYNE_DONE;
    while (row != 0 && r == DERGAMOYNE_DONE) {
        r = show_row(h, row);
        if (r == DERGAMOYNE_DONE)
            r = dergamoyne_heap_read_field_reference(h, row, NEXT, &row);
    }
    return r;
}

/* The list at once, into a buffer for so many rows: 20 words a row, the first of which links it to the next. Only a complete export
   gives a number of rows. */
static void show_export(const struct dergamoyne_heap *h, size_t room)
{
    uint32_t out[ROWS * FIELDS], rows = 0;
    enum dergamoyne_reason why = dergamoyne_heap_export_objects(h, dergamoyne_heap_root(h), FIELDS, NEXT, out, room, &rows, NULL);
    if (why != DERGAMOYNE_COMPLETE) {
        printf("export to %u rows: not complete: %s\n", (unsigned)room, dergamoyne_reason_text(why));
        return;
    }
    printf("export to %u rows: complete, rows: %u;", (unsigned)room, (unsigned)rows);
    for (uint32_t n = 0; n < rows; n++)
        printf(" %u to %u", (unsigned)out[FIELDS * n + 1], (unsigned)out[FIELDS * n + FIELDS - 1]);
    printf("\n");
}

static void show_refusal(enum dergamoyne_refusal r)
{
    printf("%u: %s\n", (unsigned)r, dergamoyne_refusal_text(r));
}

/* Three blocks hold 21 fields, so 20 is the last; an object has 256 blocks at most; and three blocks are free where four are asked
   for. The four units of that call stand: the sweep passes 9 to 12. */
static void refusals(struct dergamoyne_heap *h, uint32_t row)
{
    uint32_t value = 0, object = 0;
    show_refusal(dergamoyne_heap_read_field_number(h, row, 20, &value));
    show_refusal(dergamoyne_heap_read_field_number(h, row, 21, &value));
    show_refusal(dergamoyne_heap_new_object(h, row, 20, 257, &object));
    show_refusal(dergamoyne_heap_new_object(h, row, 20, 4, &object));
}

/* The first row goes on with the third. The second is then out of reach: the sweep ends, a cycle marks the other six blocks and
   frees 5, 6 and 7 in this order, each to the front of the free list, which is then 7 6 5 11 12 13. The new object's blocks are the
   first four of it, chained in this order. */
static enum dergamoyne_refusal let_go(struct dergamoyne_heap *h, const uint32_t *rows)
{
    uint32_t object = 0;
    enum dergamoyne_refusal r = dergamoyne_heap_store_field_reference(h, rows[0], NEXT, rows[2]);
    if (r == DERGAMOYNE_DONE)
        r = dergamoyne_heap_collect(h);
    printf("free blocks: %u of %u\n", (unsigned)dergamoyne_heap_free_blocks(h), (unsigned)dergamoyne_heap_blocks(h));
    if (r == DERGAMOYNE_DONE)
        r = dergamoyne_heap_new_object(h, rows[2], 20, 4, &object);
    if (r == DERGAMOYNE_DONE)
        r = show_blocks(h, object);
    if (r == DERGAMOYNE_DONE)
        r = show_rows(h);
    show_export(h, ROWS);
    printf("free blocks: %u of %u\n", (unsigned)dergamoyne_heap_free_blocks(h), (unsigned)dergamoyne_heap_blocks(h));
    return r;
}

static enum dergamoyne_refusal run(struct dergamoyne_heap *h)
{
    uint32_t rows[ROWS] = {0};
    enum dergamoyne_refusal r = build(h, rows);
    for (uint32_t n = 0; n < ROWS && r == DERGAMOYNE_DONE; n++)
        r = show_blocks(h, rows[n]);
    if (r == DERGAMOYNE_DONE)
        r = show_rows(h);
    if (r != DERGAMOYNE_DONE)
        return r;
    show_export(h, ROWS);
    show_export(h, ROWS - 1);
    refusals(h, rows[2]);
    r = let_go(h, rows);
    return r == DERGAMOYNE_DONE ? dergamoyne_heap_check(h) : r;
}

int main(void)
{
    struct dergamoyne_heap heap;
    enum dergamoyne_refusal r = dergamoyne_heap_open(&heap, BLOCKS, PACE);
    if (r == DERGAMOYNE_DONE)
        r = run(&heap);
    dergamoyne_heap_close(&heap);
    if (r != DERGAMOYNE_DONE)
        printf("stopped: %s\n", dergamoyne_refusal_text(r));
    return r != DERGAMOYNE_DONE;
}
