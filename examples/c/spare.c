/* A running heap goes from one process to another: the first builds a list of three rows and saves the heap in the middle of a
   cycle, the second loads it, adds two rows, lets the collector end that cycle, and exports the list.

       spare save FILE    the first
       spare load FILE    the second

   examples/c/run spare runs one after the other. examples/c/expected_spare has what they must print, worked out by hand from
   document 01. The comments below have the steps: the pace is 1, so each new row does one unit of the collector's work. */
#include "dergamoyne_heap.h"
#include <stdio.h>

enum { BLOCKS = 6, PACE = 1, LINK = 0, NUMBER = 1, ROWS = 3, MORE = 2 };

/* A byte more than the image has, so that a longer file is seen. */
static uint8_t image[DERGAMOYNE_IMAGE_BYTES(BLOCKS) + 1];

static const char *phase_name(const struct dergamoyne_heap *h)
{
    static const char *const names[] = {"idle", "marking", "sweeping"};
    return names[dergamoyne_heap_phase(h)];
}

static void show(const char *what, const struct dergamoyne_heap *h)
{
    printf("%s: %u bytes, %s in cycle %u, free blocks: %u of %u\n", what, (unsigned)dergamoyne_heap_image_bytes(h), phase_name(h),
           (unsigned)dergamoyne_heap_cycles(h), (unsigned)dergamoyne_heap_free_blocks(h), (unsigned)dergamoyne_heap_blocks(h));
}

/* ---- files: 1 where all of it was written, the bytes read ---- */

static int write_file(const char *name, size_t length)
{
    FILE *file = fopen(name, "wb");
    int whole = file != NULL && fwrite(image, 1, length, file) == length;
    return file != NULL && fclose(file) == 0 && whole;
}

static size_t read_file(const char *name)
{
    FILE *file = fopen(name, "rb");
    size_t length = file == NULL ? 0 : fread(image, 1, sizeof image, file);
    if (file != NULL)
        fclose(file);
    return length;
}

/* ---- the list ---- */

/* So many rows behind the block `last`, or from the root on where that is 0. Their numbers go on from `first` by tens. */
static enum dergamoyne_refusal add_rows(struct dergamoyne_heap *h, uint32_t last, uint32_t first, uint32_t count)
{
    enum dergamoyne_refusal r = DERGAMOYNE_DONE;
    for (uint32_t n = 0; n < count && r == DERGAMOYNE_DONE; n++) {
        r = last == 0 ? dergamoyne_heap_first_row(h, LINK, &last) : dergamoyne_heap_new_row(h, last, LINK, LINK, &last);
        if (r == DERGAMOYNE_DONE)
            r = dergamoyne_heap_store_number(h, last, NUMBER, first + 10 * n);
    }
    return r;
}

/* The last row, from the root on. */
static enum dergamoyne_refusal last_row(const struct dergamoyne_heap *h, uint32_t *last)
{
    enum dergamoyne_refusal r = DERGAMOYNE_DONE;
    for (uint32_t next = dergamoyne_heap_root(h); next != 0 && r == DERGAMOYNE_DONE;) {
        *last = next;
        r = dergamoyne_heap_read_reference(h, *last, LINK, &next);
    }
    return r;
}

static void export_rows(const struct dergamoyne_heap *h)
{
    uint32_t out[BLOCKS][8], rows = 0;
    enum dergamoyne_reason why = dergamoyne_heap_export(h, dergamoyne_heap_root(h), LINK, out, BLOCKS, &rows, NULL);
    printf("export: %s, rows: %u\n", dergamoyne_reason_text(why), (unsigned)rows);
    for (uint32_t n = 0; n < rows; n++)
        printf("row %u: next %u, number %u\n", (unsigned)n, (unsigned)out[n][LINK], (unsigned)out[n][NUMBER]);
}

/* ---- the two processes ---- */

/* The rows are the blocks 2, 3, 4. Their units: a cycle begins, the turn to the sweep, block 2 is swept. Four more: the blocks 3 and
   4 are swept, the last ones that were handed out; the second cycle begins with the root grey, and the root is marked. So block 3 is
   grey and block 4 still white. */
static enum dergamoyne_refusal save(struct dergamoyne_heap *h, const char *name)
{
    enum dergamoyne_refusal r = dergamoyne_heap_open(h, BLOCKS, PACE);
    if (r == DERGAMOYNE_DONE)
        r = add_rows(h, 0, 10, ROWS);
    if (r == DERGAMOYNE_DONE)
        r = dergamoyne_heap_work(h, 4);
    if (r == DERGAMOYNE_DONE)
        r = dergamoyne_heap_save(h, image, sizeof image);
    if (r != DERGAMOYNE_DONE)
        return r;
    show("saved", h);
    if (!write_file(name, dergamoyne_heap_image_bytes(h)))
        printf("the file was not written\n");
    return r;
}

/* An image with its first byte, the count of registers, changed is none. */
static void refuse(size_t length)
{
    struct dergamoyne_heap none;
    image[0] ^= 1;
    printf("damaged: %s\n", dergamoyne_refusal_text(dergamoyne_heap_open_image(&none, image, length)));
    image[0] ^= 1;
}

/* The new rows are the blocks 5 and 6, both black. Their units mark block 3, which greys block 4, and then block 4, whose row 5 is
   black already. Of the six units after that one turns to the sweep and five sweep the blocks 2 to 6: the cycle has ended. */
static enum dergamoyne_refusal go_on(struct dergamoyne_heap *h)
{
    uint32_t last = 0;
    enum dergamoyne_refusal r = last_row(h, &last);
    if (r == DERGAMOYNE_DONE)
        r = add_rows(h, last, 10 * ROWS + 10, MORE);
    if (r == DERGAMOYNE_DONE)
        r = dergamoyne_heap_work(h, 6);
    if (r == DERGAMOYNE_DONE) {
        show("gone on", h);
        export_rows(h);
    }
    return r;
}

static enum dergamoyne_refusal load(struct dergamoyne_heap *h, const char *name)
{
    size_t length = read_file(name);
    enum dergamoyne_refusal r;
    refuse(length);
    r = dergamoyne_heap_open_image(h, image, length);
    if (r != DERGAMOYNE_DONE)
        return r;
    show("loaded", h);
    return go_on(h);
}

int main(int argc, char **argv)
{
    struct dergamoyne_heap heap;
    enum dergamoyne_refusal r;
    if (argc != 3) {
        printf("usage: spare save|load FILE\n");
        return 2;
    }
    dergamoyne_heap_none(&heap);
    r = strcmp(argv[1], "save") == 0 ? save(&heap, argv[2]) : load(&heap, argv[2]);
    dergamoyne_heap_close(&heap);
    if (r != DERGAMOYNE_DONE)
        printf("stopped: %s\n", dergamoyne_refusal_text(r));
    return r != DERGAMOYNE_DONE;
}
