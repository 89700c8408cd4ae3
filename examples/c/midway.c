/* Saves a heap in the middle of a cycle, with everything in it that a look into a heap shows. The root has two lists of 20 rows:
   today's by its word 0, yesterday's by its word 1. Its word 2 names the row that was used last. Yesterday's list is let go, but the row
   used last is one of its rows, and so its second half stays: a reference that the author forgot.

       midway FILE    writes the image to FILE

   README.md looks into the image with dergamoyne-heap; examples/c/run midway writes it to target/c/midway.image. */
#include "dergamoyne_heap.h"
#include <stdio.h>

enum { BLOCKS = 64, PACE = 1, TODAY = 0, YESTERDAY = 1, LAST_USED = 2, LINK = 0, NUMBER = 1, ROWS = 20, USED = 11, CUT = 15, STOP = 14 };

static uint8_t image[DERGAMOYNE_IMAGE_BYTES(BLOCKS)];

/* The rows of a list, from its first on. */
struct list {
    uint32_t row[ROWS + 1];
    uint32_t count;
};

/* A new row with this number behind the last one, or where there is none in this word of the root. */
static enum dergamoyne_refusal add(struct dergamoyne_heap *h, struct list *l, uint32_t word, uint32_t number)
{
    uint32_t root = dergamoyne_heap_root(h), *row = &l->row[l->count];
    enum dergamoyne_refusal r =
        l->count == 0 ? dergamoyne_heap_new_row(h, root, word, LINK, row) : dergamoyne_heap_new_row(h, row[-1], LINK, LINK, row);
    if (r == DERGAMOYNE_DONE)
        r = dergamoyne_heap_store_number(h, *row, NUMBER, number);
    l->count++;
    return r;
}

/* The root is block 2. Today's rows are the blocks 3, 5, .. 41, yesterday's the blocks 4, 6, .. 42. */
static enum dergamoyne_refusal build(struct dergamoyne_heap *h, struct list *today, struct list *yesterday)
{
    uint32_t root;
    enum dergamoyne_refusal r = dergamoyne_heap_new_root(h, &root);
    for (uint32_t n = 0; n < ROWS && r == DERGAMOYNE_DONE; n++) {
        r = add(h, today, TODAY, 100 + n);
        if (r == DERGAMOYNE_DONE)
            r = add(h, yesterday, YESTERDAY, 200 + n);
    }
    return r;
}

/* Yesterday's list is let go; its eleventh row, block 24, is the one used last. */
static enum dergamoyne_refusal let_go(struct dergamoyne_heap *h, const struct list *yesterday)
{
    uint32_t root = dergamoyne_heap_root(h);
    enum dergamoyne_refusal r = dergamoyne_heap_store_reference(h, root, LAST_USED, yesterday->row[USED - 1]);
    return r == DERGAMOYNE_DONE ? dergamoyne_heap_store_null(h, root, YESTERDAY) : r;
}

/* The running cycle is ended. Then a whole one begins, marks, and sweeps the blocks before 14: of yesterday's first half the blocks 4 to
   12 are free, and 14 to 22 are doomed. */
static enum dergamoyne_refusal collect_half(struct dergamoyne_heap *h)
{
    enum dergamoyne_refusal r = DERGAMOYNE_DONE;
    while (r == DERGAMOYNE_DONE && dergamoyne_heap_phase(h) != DERGAMOYNE_IDLE)
        r = dergamoyne_heap_work(h, 1);
    while (r == DERGAMOYNE_DONE && h->regs.position != STOP)
        r = dergamoyne_heap_work(h, 1);
    return r;
}

/* A row more for today, for which a unit is done: block 14 is free, and the row is that block again. Then today's list is cut behind its
   fifteenth row, block 31: what comes after is out of reach, but this cycle keeps it. */
static enum dergamoyne_refusal go_on(struct dergamoyne_heap *h, struct list *today)
{
    enum dergamoyne_refusal r = add(h, today, TODAY, 100 + ROWS);
    return r == DERGAMOYNE_DONE ? dergamoyne_heap_store_null(h, today->row[CUT - 1], LINK) : r;
}

static int write_file(const char *name, size_t length)
{
    FILE *file = fopen(name, "wb");
    int whole = file != NULL && fwrite(image, 1, length, file) == length;
    return file != NULL && fclose(file) == 0 && whole;
}

static enum dergamoyne_refusal run(struct dergamoyne_heap *h)
{
    struct list today = {{0}, 0}, yesterday = {{0}, 0};
    enum dergamoyne_refusal r = build(h, &today, &yesterday);
    if (r == DERGAMOYNE_DONE)
        r = let_go(h, &yesterday);
    if (r == DERGAMOYNE_DONE)
        r = collect_half(h);
    if (r == DERGAMOYNE_DONE)
        r = go_on(h, &today);
    return r == DERGAMOYNE_DONE ? dergamoyne_heap_save(h, image, sizeof image) : r;
}

int main(int argc, char **argv)
{
    struct dergamoyne_heap heap;
    enum dergamoyne_refusal r;
    if (argc != 2) {
        printf("usage: midway FILE\n");
        return 2;
    }
    r = dergamoyne_heap_open(&heap, BLOCKS, PACE);
    if (r == DERGAMOYNE_DONE)
        r = run(&heap);
    dergamoyne_heap_close(&heap);
    if (r != DERGAMOYNE_DONE)
        printf("stopped: %s\n", dergamoyne_refusal_text(r));
    else if (!write_file(argv[1], sizeof image))
        printf("the file was not written\n");
    else
        return printf("saved: %u bytes\n", (unsigned)sizeof image) < 0;
    return 1;
}
