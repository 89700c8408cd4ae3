/* include/dergamoyne_heap.h, from C and from C++: what each function returns, what it writes and what it leaves alone. It prints a
   line for each thing that is otherwise, and exits with 1. */
#include "dergamoyne_heap.h"
#include <stdio.h>

enum { LINK = 0, NUMBER = 1, GARBAGE = 7 };

static const uint32_t UNTOUCHED = 7777;
static int bad;

static void expect(int holds, const char *what)
{
    if (!holds) {
        printf("wrong: %s\n", what);
        bad = 1;
    }
}

/* ---- opening ---- */

static void opening(void)
{
    struct dergamoyne_heap h;
    expect(dergamoyne_heap_open(&h, 0, 1) == DERGAMOYNE_DOES_NOT_FIT, "no blocks");
    expect(dergamoyne_heap_open(&h, 16385, 1) == DERGAMOYNE_DOES_NOT_FIT, "too many blocks");
    expect(dergamoyne_heap_open(&h, 1, 65536) == DERGAMOYNE_DOES_NOT_FIT, "too great a pace");
    expect(dergamoyne_heap_check(&h) == DERGAMOYNE_DOES_NOT_FIT, "a heap that was not opened");
    expect(dergamoyne_heap_work(&h, 1) == DERGAMOYNE_DOES_NOT_FIT, "work on a heap that was not opened");
    dergamoyne_heap_close(&h);
    expect(dergamoyne_heap_open(&h, 16384, 65535) == DERGAMOYNE_DONE, "the largest heap");
    expect(dergamoyne_heap_check(&h) == DERGAMOYNE_DONE, "it is well-formed");
    expect(dergamoyne_heap_free_blocks(&h) == 16384 && dergamoyne_heap_allocated_blocks(&h) == 0, "its blocks");
    dergamoyne_heap_close(&h);
    expect(dergamoyne_heap_work(&h, 1) == DERGAMOYNE_DOES_NOT_FIT, "work on a heap that was closed");
    dergamoyne_heap_close(&h);
}

static void lending(void)
{
    struct dergamoyne_heap h;
    uint32_t words[16], colours[2], block = UNTOUCHED;
    uint8_t bytes[2];
    expect(dergamoyne_heap_lend(&h, 2, 1, words, sizeof words, colours, 2, bytes, 2) == DERGAMOYNE_DOES_NOT_FIT, "bytes for words");
    expect(dergamoyne_heap_new_root(&h, &block) == DERGAMOYNE_DOES_NOT_FIT && block == UNTOUCHED, "nothing is lent then");
    expect(dergamoyne_heap_lend(&h, 2, 1, words, 16, colours, 2, bytes, 2) == DERGAMOYNE_DONE, "a heap on the stack");
    expect(dergamoyne_heap_new_root(&h, &block) == DERGAMOYNE_DONE && block == 2, "a root on it");
    expect(dergamoyne_heap_check(&h) == DERGAMOYNE_DONE, "it is well-formed");
    dergamoyne_heap_close(&h);
}

/* A heap saved and loaded elsewhere goes on where it was; a damaged one is refused. */
static void resuming(void)
{
    struct dergamoyne_heap h, other;
    uint32_t first = 0, second = 0, words[16], colours[2];
    uint8_t bytes[2];
    expect(dergamoyne_heap_open(&h, 2, 1) == DERGAMOYNE_DONE && dergamoyne_heap_new_root(&h, &first) == DERGAMOYNE_DONE, "a heap");
    memcpy(words, h.words, sizeof words);
    memcpy(colours, h.colours, sizeof colours);
    memcpy(bytes, h.bytes, sizeof bytes);
    expect(dergamoyne_heap_resume(&other, h.regs, words, 16, colours, 2, bytes, 2) == DERGAMOYNE_DONE, "it is resumed");
    expect(dergamoyne_heap_new_block(&other, first, 0, &second) == DERGAMOYNE_DONE && second == 3, "it goes on");
    expect(dergamoyne_heap_resume(&other, h.regs, words, 16, colours, 2, bytes, 2) == DERGAMOYNE_DAMAGE, "an older record");
    expect(dergamoyne_heap_resume(&other, h.regs, words, 64, colours, 2, bytes, 2) == DERGAMOYNE_DOES_NOT_FIT, "a length in bytes");
    expect(dergamoyne_heap_work(&other, 1) == DERGAMOYNE_DOES_NOT_FIT, "there is no heap then");
    dergamoyne_heap_close(&other);
    dergamoyne_heap_close(&h);
}

/* ---- what must not be taken for something else ---- */

static void zeroes(struct dergamoyne_heap *h, uint32_t root)
{
    uint32_t block = UNTOUCHED;
    struct dergamoyne_regs before = h->regs;
    expect(dergamoyne_heap_new_block(h, 0, 0, &block) == DERGAMOYNE_NO_SUCH_WORD, "no holder");
    expect(dergamoyne_heap_new_row(h, 0, 0, LINK, &block) == DERGAMOYNE_NO_SUCH_WORD, "no holder of a row");
    expect(dergamoyne_heap_new_row(h, root, 0, 8, &block) == DERGAMOYNE_NO_SUCH_WORD, "no link word");
    expect(dergamoyne_heap_first_row(h, 8, &block) == DERGAMOYNE_NO_SUCH_WORD, "no link word of a first row");
    expect(dergamoyne_heap_store_reference(h, root, 1, 0) == DERGAMOYNE_NO_SUCH_TARGET, "no target");
    expect(dergamoyne_heap_set_root(h, 0) == DERGAMOYNE_NO_SUCH_TARGET, "no root");
    expect(block == UNTOUCHED, "a refusal leaves the block alone");
    expect(memcmp(&before, &h->regs, sizeof before) == 0, "and the record");
}

static void words(struct dergamoyne_heap *h, uint32_t root)
{
    uint32_t value = UNTOUCHED, second = 0;
    int reference = 7777;
    const uint32_t *eight = NULL;
    expect(dergamoyne_heap_read(h, root, 8, &value, &reference) == DERGAMOYNE_NO_SUCH_WORD, "no such word");
    expect(value == UNTOUCHED && reference == 7777, "a refused read leaves both alone");
    expect(dergamoyne_heap_store_number(h, root, 1, 42) == DERGAMOYNE_DONE, "a number");
    expect(dergamoyne_heap_read_reference(h, root, 1, &value) == DERGAMOYNE_NOT_A_REFERENCE && value == UNTOUCHED, "no reference");
    expect(dergamoyne_heap_read_number(h, root, 1, &value) == DERGAMOYNE_DONE && value == 42, "the number");
    expect(dergamoyne_heap_new_block(h, root, 2, &second) == DERGAMOYNE_DONE && second == 3, "a block");
    expect(dergamoyne_heap_read(h, root, 2, &value, &reference) == DERGAMOYNE_DONE, "its reference");
    expect(value == 3 && reference == 1, "its reference");
    expect(dergamoyne_heap_read_number(h, root, 2, &value) == DERGAMOYNE_NOT_A_NUMBER, "no number");
    expect(dergamoyne_heap_look(h, 1, &eight) == DERGAMOYNE_NO_SUCH_WORD && eight == NULL, "a refused look");
    expect(dergamoyne_heap_look(h, root, &eight) == DERGAMOYNE_DONE && eight[1] == 42 && eight[2] == 3, "a look");
    expect(dergamoyne_heap_store_null(h, root, 2) == DERGAMOYNE_DONE, "the null reference");
    expect(dergamoyne_heap_read_reference(h, root, 2, &value) == DERGAMOYNE_DONE && value == 0, "it is read");
    expect(dergamoyne_heap_collect(h) == DERGAMOYNE_DONE && dergamoyne_heap_free_blocks(h) == 3, "what nobody holds is freed");
    expect(dergamoyne_heap_store_reference(h, root, 2, second) == DERGAMOYNE_TARGET_GONE, "a target that is free");
    expect(dergamoyne_heap_read_number(h, second, 1, &value) == DERGAMOYNE_BLOCK_GONE, "a block that is free");
}

static void checks(struct dergamoyne_heap *h)
{
    struct dergamoyne_heap wrong = *h;
    uint32_t colour = h->colours[0];
    wrong.bytes_length = 8;
    expect(dergamoyne_heap_check(&wrong) == DERGAMOYNE_DOES_NOT_FIT, "a length that doesn't fit");
    wrong = *h;
    wrong.regs.root = 77;
    expect(dergamoyne_heap_check(&wrong) == DERGAMOYNE_REGISTERS, "a register that is wrong");
    h->colours[0] = 4294967293u;
    expect(dergamoyne_heap_check(h) == DERGAMOYNE_DAMAGE, "contents that are wrong");
    h->colours[0] = colour;
    expect(dergamoyne_heap_check(h) == DERGAMOYNE_DONE, "a heap that is well-formed");
}

static void small_heap(void)
{
    struct dergamoyne_heap h;
    uint32_t root = 0;
    expect(dergamoyne_heap_open(&h, 4, 1) == DERGAMOYNE_DONE, "a heap");
    expect(dergamoyne_heap_new_root(&h, &root) == DERGAMOYNE_DONE && root == 2 && dergamoyne_heap_root(&h) == 2, "a root");
    expect(dergamoyne_heap_phase(&h) == DERGAMOYNE_MARKING && dergamoyne_heap_cycles(&h) == 1, "a cycle was begun");
    zeroes(&h, root);
    words(&h, root);
    checks(&h);
    expect(dergamoyne_heap_clear_root(&h) == DERGAMOYNE_DONE && dergamoyne_heap_root(&h) == 0, "no root");
    expect(dergamoyne_heap_collect(&h) == DERGAMOYNE_DONE && dergamoyne_heap_free_blocks(&h) == 4, "all is free");
    dergamoyne_heap_close(&h);
}

/* ---- objects ---- */

/* What must not be taken for something else. The heap has three blocks left. */
static void object_refusals(struct dergamoyne_heap *h, uint32_t row)
{
    uint32_t object = UNTOUCHED;
    struct dergamoyne_regs before = h->regs;
    expect(dergamoyne_heap_new_object(h, 0, 0, 2, &object) == DERGAMOYNE_NO_SUCH_WORD, "no holder of an object");
    expect(dergamoyne_heap_new_object(h, 0, 7, 2, &object) == DERGAMOYNE_NO_SUCH_WORD, "no holder, a later field");
    expect(dergamoyne_heap_new_object(h, row, 21, 2, &object) == DERGAMOYNE_NO_SUCH_WORD, "no such field of the holder");
    expect(dergamoyne_heap_new_object(h, row, 1792, 2, &object) == DERGAMOYNE_NO_SUCH_WORD, "no such field at all");
    expect(dergamoyne_heap_new_object(h, row, 0, 0, &object) == DERGAMOYNE_NO_SUCH_WORD, "no blocks");
    expect(dergamoyne_heap_new_object(h, row, 0, 257, &object) == DERGAMOYNE_NO_SUCH_WORD, "too many blocks");
    expect(dergamoyne_heap_new_root_object(h, 257, &object) == DERGAMOYNE_NO_SUCH_WORD, "too many blocks for the root");
    expect(dergamoyne_heap_new_row_object(h, row, 0, 2, 14, &object) == DERGAMOYNE_NO_SUCH_WORD, "no such link field");
    expect(dergamoyne_heap_new_row_object(h, 0, 0, 2, 0, &object) == DERGAMOYNE_NO_SUCH_WORD, "no holder of a row");
    expect(dergamoyne_heap_first_row_object(h, 2, 14, &object) == DERGAMOYNE_NO_SUCH_WORD, "no such link field of a first row");
    expect(dergamoyne_heap_store_field_reference(h, row, 3, 0) == DERGAMOYNE_NO_SUCH_TARGET, "no target of a field");
    expect(memcmp(&before, &h->regs, sizeof before) == 0, "none of these changes the record");
    expect(dergamoyne_heap_new_object(h, row, 0, 4, &object) == DERGAMOYNE_NO_FREE_BLOCK, "too few blocks are free");
    expect(object == UNTOUCHED, "a refusal leaves the object alone");
}

static void fields(struct dergamoyne_heap *h, uint32_t row)
{
    uint32_t value = UNTOUCHED;
    int reference = 7777;
    for (uint32_t k = 0; k < 21; k++)
        expect(dergamoyne_heap_read_field(h, row, k, &value, &reference) == DERGAMOYNE_DONE && value == 0 && reference == (k == 20),
               "a fresh field: the link, 20, is the null reference, the others are the number 0");
    value = UNTOUCHED;
    expect(dergamoyne_heap_read_field(h, row, 21, &value, &reference) == DERGAMOYNE_NO_SUCH_WORD && value == UNTOUCHED, "no field 21");
    for (uint32_t k = 0; k < 20; k++)
        expect(dergamoyne_heap_store_field_number(h, row, k, 100 + k) == DERGAMOYNE_DONE, "a number");
    for (uint32_t k = 0; k < 20; k++)
        expect(dergamoyne_heap_read_field_number(h, row, k, &value) == DERGAMOYNE_DONE && value == 100 + k, "the number");
    expect(dergamoyne_heap_read_field_reference(h, row, 20, &value) == DERGAMOYNE_DONE && value == 0, "the link");
    expect(dergamoyne_heap_read_field_number(h, row, 20, &value) == DERGAMOYNE_NOT_A_NUMBER, "no number");
    expect(dergamoyne_heap_read_field_reference(h, row, 19, &value) == DERGAMOYNE_NOT_A_REFERENCE, "no reference");
    expect(dergamoyne_heap_read_number(h, row + 2, 5, &value) == DERGAMOYNE_DONE && value == 119, "field 19 is word 5 of the third block");
    expect(dergamoyne_heap_store_field_reference(h, row, 6, row) == DERGAMOYNE_DONE, "a reference");
    expect(dergamoyne_heap_read_field_reference(h, row, 6, &value) == DERGAMOYNE_DONE && value == row, "the reference");
    expect(dergamoyne_heap_store_field_null(h, row, 6) == DERGAMOYNE_DONE, "the null reference");
    expect(dergamoyne_heap_read_field_reference(h, row, 6, &value) == DERGAMOYNE_DONE && value == 0, "it is read");
}

/* A heap of six blocks: a row of 21 fields, of which field 20 is the link, and then a second row. */
static void objects(void)
{
    struct dergamoyne_heap h;
    uint32_t row = 0, second = 0, value = 0;
    expect(dergamoyne_heap_open(&h, 6, 1) == DERGAMOYNE_DONE, "a heap");
    expect(dergamoyne_object_blocks(0) == 1 && dergamoyne_object_blocks(7) == 1 && dergamoyne_object_blocks(8) == 2, "blocks");
    expect(dergamoyne_object_blocks(20) == 3 && dergamoyne_object_blocks(1792) == 256, "blocks of an object");
    expect(dergamoyne_heap_first_row_object(&h, 3, 20, &row) == DERGAMOYNE_DONE && row == 2, "a row of three blocks");
    expect(dergamoyne_heap_root(&h) == 2 && dergamoyne_heap_free_blocks(&h) == 3, "it is the root");
    fields(&h, row);
    object_refusals(&h, row);
    expect(dergamoyne_heap_new_row_object(&h, row, 20, 3, 20, &second) == DERGAMOYNE_DONE && second == 5, "the next row");
    expect(dergamoyne_heap_read_field_reference(&h, row, 20, &value) == DERGAMOYNE_DONE && value == 5, "it is held by the link");
    expect(dergamoyne_heap_read_field_number(&h, row, 19, &value) == DERGAMOYNE_DONE && value == 119, "the first row is as it was");
    expect(dergamoyne_heap_check(&h) == DERGAMOYNE_DONE, "it is well-formed");
    expect(dergamoyne_heap_store_field_null(&h, row, 20) == DERGAMOYNE_DONE, "the second row is let go");
    expect(dergamoyne_heap_collect(&h) == DERGAMOYNE_DONE && dergamoyne_heap_free_blocks(&h) == 3, "its three blocks are freed");
    expect(dergamoyne_heap_read_field_number(&h, second, 0, &value) == DERGAMOYNE_BLOCK_GONE, "it is gone");
    expect(dergamoyne_heap_store_field_reference(&h, row, 0, second) == DERGAMOYNE_TARGET_GONE, "it can't be a target");
    dergamoyne_heap_close(&h);
}

/* The longest object: each of its 1,792 fields is its own. */
static void longest(void)
{
    struct dergamoyne_heap h;
    uint32_t object = 0, second = UNTOUCHED, value = UNTOUCHED;
    expect(dergamoyne_heap_open(&h, 300, 1) == DERGAMOYNE_DONE, "a heap");
    expect(dergamoyne_heap_new_root_object(&h, DERGAMOYNE_OBJECT_BLOCKS, &object) == DERGAMOYNE_DONE, "256 blocks");
    for (uint32_t k = 0; k < DERGAMOYNE_OBJECT_FIELDS; k++)
        expect(dergamoyne_heap_store_field_number(&h, object, k, k + 1) == DERGAMOYNE_DONE, "a field of 1,792");
    for (uint32_t k = 0; k < DERGAMOYNE_OBJECT_FIELDS; k++)
        expect(dergamoyne_heap_read_field_number(&h, object, k, &value) == DERGAMOYNE_DONE && value == k + 1, "its number");
    expect(dergamoyne_heap_read_field_number(&h, object, DERGAMOYNE_OBJECT_FIELDS, &value) == DERGAMOYNE_NO_SUCH_WORD, "no more");
    expect(dergamoyne_heap_new_object(&h, object, 1791, 45, &second) == DERGAMOYNE_NO_FREE_BLOCK && second == UNTOUCHED, "45 of 44");
    expect(dergamoyne_heap_new_object(&h, object, 1791, 44, &second) == DERGAMOYNE_DONE && second == 258, "44, held by the last field");
    expect(dergamoyne_heap_read_field_reference(&h, object, 1791, &value) == DERGAMOYNE_DONE && value == 258, "its reference");
    expect(dergamoyne_heap_check(&h) == DERGAMOYNE_DONE && dergamoyne_heap_free_blocks(&h) == 0, "it is well-formed and full");
    dergamoyne_heap_close(&h);
}

/* ---- lists ---- */

/* Exports the list from the root on: a number of rows and the reason; what isn't complete leaves the number alone. */
static void exports(const struct dergamoyne_heap *h, size_t room, uint32_t expected, enum dergamoyne_reason why, const char *what)
{
    static uint32_t out[2000][8];
    struct dergamoyne_export_answer details;
    uint32_t rows = UNTOUCHED;
    expect(dergamoyne_heap_export(h, dergamoyne_heap_root(h), LINK, out, room, &rows, &details) == why, what);
    expect(details.rows == expected, what);
    expect(rows == (why == DERGAMOYNE_COMPLETE ? expected : UNTOUCHED), what);
    for (uint32_t n = 0; n < expected; n++)
        expect(out[n][NUMBER] == n, what);
}

/* A list of so many rows with two blocks of garbage after each, on a heap of m blocks at pace u. Stops at a refusal. Answers how
   many rows were added. */
static uint32_t add_rows(struct dergamoyne_heap *h, uint32_t rows, enum dergamoyne_refusal *r)
{
    uint32_t last = 0, garbage = 0, n;
    for (n = 0; n < rows; n++) {
        *r = n == 0 ? dergamoyne_heap_first_row(h, LINK, &last) : dergamoyne_heap_new_row(h, last, LINK, LINK, &last);
        if (*r != DERGAMOYNE_DONE)
            return n;
        *r = dergamoyne_heap_store_number(h, last, NUMBER, n);
        for (int i = 0; i < 2 && *r == DERGAMOYNE_DONE; i++)
            *r = dergamoyne_heap_new_block(h, dergamoyne_heap_root(h), GARBAGE, &garbage);
        if (*r != DERGAMOYNE_DONE)
            return n + 1;
    }
    return n;
}

/* On a heap that is too small for its garbage, the loop stops with a refusal, and the rows added before it are all there. */
static void undersized(void)
{
    struct dergamoyne_heap h;
    enum dergamoyne_refusal r;
    uint32_t rows;
    expect(dergamoyne_heap_open(&h, 1100, 2) == DERGAMOYNE_DONE, "an undersized heap");
    rows = add_rows(&h, 1000, &r);
    expect(r == DERGAMOYNE_NO_FREE_BLOCK && rows < 1000, "it is refused by 7");
    exports(&h, 2000, rows, DERGAMOYNE_COMPLETE, "the rows added before");
    expect(dergamoyne_heap_check(&h) == DERGAMOYNE_DONE, "it is well-formed");
    dergamoyne_heap_close(&h);
}

static void enough(void)
{
    struct dergamoyne_heap h;
    enum dergamoyne_refusal r;
    expect(dergamoyne_heap_open(&h, 1500, 20) == DERGAMOYNE_DONE, "a heap that is large enough");
    expect(add_rows(&h, 1000, &r) == 1000 && r == DERGAMOYNE_DONE, "all rows are added");
    exports(&h, 2000, 1000, DERGAMOYNE_COMPLETE, "all rows");
    exports(&h, 1000, 1000, DERGAMOYNE_COMPLETE, "just room");
    exports(&h, 999, 999, DERGAMOYNE_NO_ROOM, "no room");
    exports(&h, 0, 0, DERGAMOYNE_NO_ROOM, "no room at all");
    exports(&h, 2000, 1000, DERGAMOYNE_COMPLETE, "all rows, once more");
    dergamoyne_heap_close(&h);
}

/* ---- lists of objects ---- */

enum { FIELDS = 14, LAST = 13, ROWS = 3 };

/* Three rows of 14 fields, two blocks each, linked by the last field; field k of row n holds 100n + k. */
static void add_object_rows(struct dergamoyne_heap *h)
{
    uint32_t row = 0;
    for (uint32_t n = 0; n < ROWS; n++) {
        enum dergamoyne_refusal r = n == 0 ? dergamoyne_heap_first_row_object(h, dergamoyne_object_blocks(FIELDS), LAST, &row)
                                           : dergamoyne_heap_new_row_object(h, row, LAST, dergamoyne_object_blocks(FIELDS), LAST, &row);
        expect(r == DERGAMOYNE_DONE && row == 2 + 2 * n, "a row of two blocks");
        for (uint32_t k = 0; k < LAST; k++)
            expect(dergamoyne_heap_store_field_number(h, row, k, 100 * n + k) == DERGAMOYNE_DONE, "a field of it");
    }
}

/* Exports that list with these numbers, and sees what it answers and that nothing behind the rows is written. */
static void export_rows(const struct dergamoyne_heap *h, uint32_t fields, uint32_t link, size_t room, uint32_t expected,
                        enum dergamoyne_reason why, uint32_t refusal, const char *what)
{
    uint32_t out[FIELDS * (ROWS + 1)], rows = UNTOUCHED;
    struct dergamoyne_export_answer details;
    for (size_t i = 0; i < sizeof out / sizeof *out; i++)
        out[i] = UNTOUCHED;
    expect(dergamoyne_heap_export_objects(h, dergamoyne_heap_root(h), fields, link, out, room, &rows, &details) == why, what);
    expect(details.rows == expected && details.refusal == refusal, what);
    expect(rows == (why == DERGAMOYNE_COMPLETE ? expected : UNTOUCHED), what);
    for (uint32_t n = 0; n < expected; n++)
        for (uint32_t k = 0; k < LAST; k++)
            expect(out[FIELDS * n + k] == 100 * n + k, what);
    for (size_t i = FIELDS * expected; i < sizeof out / sizeof *out; i++)
        expect(out[i] == UNTOUCHED, what);
}

static void object_rows(void)
{
    struct dergamoyne_heap h;
    expect(dergamoyne_heap_open(&h, 8, 1) == DERGAMOYNE_DONE, "a heap for three rows");
    export_rows(&h, FIELDS, LAST, ROWS, 0, DERGAMOYNE_COMPLETE, 0, "no row yet");
    add_object_rows(&h);
    export_rows(&h, FIELDS, LAST, ROWS + 1, ROWS, DERGAMOYNE_COMPLETE, 0, "three rows");
    export_rows(&h, FIELDS, LAST, ROWS, ROWS, DERGAMOYNE_COMPLETE, 0, "just room for three rows");
    export_rows(&h, FIELDS, LAST, ROWS - 1, ROWS - 1, DERGAMOYNE_NO_ROOM, 0, "no room for the third");
    export_rows(&h, FIELDS, LAST, 0, 0, DERGAMOYNE_NO_ROOM, 0, "no room for a row");
    export_rows(&h, FIELDS, FIELDS, ROWS, 0, DERGAMOYNE_REFUSED, DERGAMOYNE_NO_SUCH_WORD, "a link that is no field of the row");
    export_rows(&h, 0, 0, ROWS, 0, DERGAMOYNE_REFUSED, DERGAMOYNE_NO_SUCH_WORD, "no fields");
    export_rows(&h, 4294967295u, 0, ROWS, 0, DERGAMOYNE_REFUSED, DERGAMOYNE_NO_SUCH_WORD, "too many fields");
    export_rows(&h, FIELDS + 1, LAST, ROWS, 0, DERGAMOYNE_REFUSED, DERGAMOYNE_NO_SUCH_WORD, "a field that the rows don't have");
    export_rows(&h, FIELDS, 0, ROWS, 0, DERGAMOYNE_NO_REFERENCE, 0, "another link");
    expect(dergamoyne_heap_store_null(&h, 4, DERGAMOYNE_BLOCK_FIELDS) == DERGAMOYNE_DONE, "the second row cut after its first block");
    export_rows(&h, FIELDS, LAST, ROWS, 1, DERGAMOYNE_REFUSED, DERGAMOYNE_NO_SUCH_WORD, "a row that stops midway");
    dergamoyne_heap_close(&h);
}

/* ---- what a block is ---- */

static void is(const struct dergamoyne_heap *h, uint32_t block, enum dergamoyne_block_state expected, const char *what)
{
    enum dergamoyne_block_state state = DERGAMOYNE_STATE_OUTSIDE;
    expect(dergamoyne_heap_state(h, block, &state) == DERGAMOYNE_DONE && state == expected, what);
}

/* A root 2 that names 3, through one cycle: 3 is let go before it. */
static void states(void)
{
    struct dergamoyne_heap h;
    enum dergamoyne_block_state state = DERGAMOYNE_STATE_OUTSIDE;
    uint32_t root = 0, second = 0, colour;
    expect(dergamoyne_heap_open(&h, 3, 1) == DERGAMOYNE_DONE, "a heap of three blocks");
    is(&h, 2, DERGAMOYNE_STATE_FREE, "a fresh heap");
    expect(dergamoyne_heap_new_root(&h, &root) == DERGAMOYNE_DONE, "a root");
    is(&h, root, DERGAMOYNE_STATE_BLACK, "a new block while marking");
    expect(dergamoyne_heap_new_block(&h, root, 0, &second) == DERGAMOYNE_DONE, "a block");
    expect(dergamoyne_heap_work(&h, 2) == DERGAMOYNE_DONE, "the sweep");
    is(&h, root, DERGAMOYNE_STATE_LIVE_WHITE, "a block that was swept");
    expect(dergamoyne_heap_work(&h, 1) == DERGAMOYNE_DONE, "the next cycle's start");
    is(&h, root, DERGAMOYNE_STATE_GREY, "the root then");
    expect(dergamoyne_heap_store_null(&h, root, 0) == DERGAMOYNE_DONE && dergamoyne_heap_work(&h, 2) == DERGAMOYNE_DONE, "let go");
    is(&h, second, DERGAMOYNE_STATE_DOOMED, "a block that is about to be freed");
    is(&h, 4, DERGAMOYNE_STATE_FREE, "a block that was never taken");
    is(&h, 0, DERGAMOYNE_STATE_OUTSIDE, "no block");
    is(&h, 5, DERGAMOYNE_STATE_OUTSIDE, "the number after the last block");
    is(&h, 4294967295u, DERGAMOYNE_STATE_OUTSIDE, "the largest number");
    colour = h.colours[0];
    h.colours[0] = 4294967293u;
    is(&h, root, DERGAMOYNE_STATE_OUTSIDE, "a colour that can't be");
    h.colours[0] = colour;
    dergamoyne_heap_close(&h);
    state = DERGAMOYNE_STATE_GREY;
    expect(dergamoyne_heap_state(&h, 2, &state) == DERGAMOYNE_DOES_NOT_FIT && state == DERGAMOYNE_STATE_GREY, "a refused state");
}

/* ---- why a block is here ---- */

enum { WHY_BLOCKS = 4, WHY_ROWS = DERGAMOYNE_WHY_ROWS(WHY_BLOCKS) };

/* All rows from `first` on are those that nothing wrote to, or zeroes. */
static int rows_are(uint32_t (*path)[2], size_t first, size_t rows, uint32_t value)
{
    for (size_t i = first; i < rows; i++)
        if (path[i][0] != value || path[i][1] != value)
            return 0;
    return 1;
}

static void fill_rows(uint32_t (*path)[2], size_t rows)
{
    for (size_t i = 0; i < rows; i++)
        path[i][0] = path[i][1] = UNTOUCHED;
}

/* The reason, the pairs and the state are these, and all rows past the path are 0: with as many rows as are needed, and with more. */
static void told(const struct dergamoyne_heap *h, uint32_t block, enum dergamoyne_why_reason reason, uint32_t pairs,
                 enum dergamoyne_block_state state, uint32_t (*path)[2], const char *what)
{
    for (size_t rows = WHY_ROWS + 3; rows >= WHY_ROWS; rows--) {
        struct dergamoyne_why why;
        fill_rows(path, WHY_ROWS + 3);
        expect(dergamoyne_heap_why(h, block, path, rows, &why) == DERGAMOYNE_DONE && why.reason == reason && why.pairs == pairs &&
                   why.state == state,
               what);
        expect(rows_are(path, pairs, rows, 0) && rows_are(path, rows, WHY_ROWS + 3, UNTOUCHED), "what it leaves behind the path");
    }
}

/* It is refused, and writes nothing. */
static void not_told(const struct dergamoyne_heap *h, uint32_t block, size_t rows, enum dergamoyne_refusal refusal, const char *what)
{
    uint32_t path[WHY_ROWS][2];
    struct dergamoyne_why why;
    fill_rows(path, WHY_ROWS);
    why.reason = DERGAMOYNE_WHY_KEPT, why.pairs = UNTOUCHED, why.state = DERGAMOYNE_STATE_GREY;
    expect(dergamoyne_heap_why(h, block, path, rows, &why) == refusal, what);
    expect(why.reason == DERGAMOYNE_WHY_KEPT && why.pairs == UNTOUCHED && why.state == DERGAMOYNE_STATE_GREY, "a refusal tells nothing");
    expect(rows_are(path, 0, WHY_ROWS, UNTOUCHED), "a refusal writes nothing");
}

/* The root 2 names 3 by word 3 and by word 5, and 3 names 4 by word 0; 5 is free. The three units begin a cycle, turn to the sweep
   and whiten the root. Then 3 is let go, and a whole cycle more is done but for its sweep. */
static void whys(void)
{
    struct dergamoyne_heap h;
    struct dergamoyne_why why;
    uint32_t path[WHY_ROWS + 3][2], root = 0, second = 0, third = 0;
    expect(dergamoyne_heap_open(&h, WHY_BLOCKS, 1) == DERGAMOYNE_DONE && dergamoyne_heap_new_root(&h, &root) == DERGAMOYNE_DONE &&
               dergamoyne_heap_new_block(&h, root, 5, &second) == DERGAMOYNE_DONE &&
               dergamoyne_heap_new_block(&h, second, 0, &third) == DERGAMOYNE_DONE &&
               dergamoyne_heap_store_reference(&h, root, 3, second) == DERGAMOYNE_DONE,
           "three blocks");
    told(&h, root, DERGAMOYNE_WHY_REACHABLE, 0, DERGAMOYNE_STATE_LIVE_WHITE, path, "why the root is here");
    told(&h, third, DERGAMOYNE_WHY_REACHABLE, 2, DERGAMOYNE_STATE_BLACK, path, "why the third block is here");
    expect(path[0][0] == root && path[0][1] == 3 && path[1][0] == second && path[1][1] == 0, "its path");
    told(&h, 5, DERGAMOYNE_WHY_FREE, 0, DERGAMOYNE_STATE_FREE, path, "why a free block is here");
    not_told(&h, third, WHY_ROWS - 1, DERGAMOYNE_OTHER_LENGTH, "a row too few");
    not_told(&h, third, WHY_BLOCKS, DERGAMOYNE_OTHER_LENGTH, "no rows to work in");
    not_told(&h, 0, WHY_ROWS, DERGAMOYNE_NO_SUCH_WORD, "why of block 0");
    not_told(&h, 6, 0, DERGAMOYNE_NO_SUCH_WORD, "no block before too few rows");
    expect(dergamoyne_heap_why(&h, third, NULL, 0, &why) == DERGAMOYNE_OTHER_LENGTH, "no rows at all");
    expect(dergamoyne_heap_store_null(&h, root, 3) == DERGAMOYNE_DONE && dergamoyne_heap_store_null(&h, root, 5) == DERGAMOYNE_DONE,
           "let go");
    told(&h, third, DERGAMOYNE_WHY_KEPT, 0, DERGAMOYNE_STATE_BLACK, path, "why it is kept");
    expect(dergamoyne_heap_work(&h, 2 + 3) == DERGAMOYNE_DONE, "the next cycle, up to its sweep");
    told(&h, third, DERGAMOYNE_WHY_DOOMED, 0, DERGAMOYNE_STATE_DOOMED, path, "why it is doomed");
    h.regs.phase = 3;
    not_told(&h, 0, 0, DERGAMOYNE_NOT_WELL_FORMED, "why on a record that is not legal");
    h.regs.phase = 2;
    h.bytes[3] = 1;
    not_told(&h, 2, WHY_ROWS, DERGAMOYNE_NOT_WELL_FORMED, "why on a damaged heap");
    dergamoyne_heap_close(&h);
    not_told(&h, 2, WHY_ROWS, DERGAMOYNE_DOES_NOT_FIT, "why on a heap that was closed");
}

/* The longest path there can be: a list of all blocks of the largest heap. */
static void longest_path(void)
{
    enum { ALL = DERGAMOYNE_MOST_BLOCKS };
    static uint32_t path[DERGAMOYNE_WHY_ROWS(ALL)][2];
    struct dergamoyne_heap h;
    struct dergamoyne_why why;
    uint32_t last = 0, i = 1;
    expect(dergamoyne_heap_open(&h, ALL, 1) == DERGAMOYNE_DONE && dergamoyne_heap_first_row(&h, LINK, &last) == DERGAMOYNE_DONE, "a row");
    while (i < ALL && dergamoyne_heap_new_row(&h, last, LINK, LINK, &last) == DERGAMOYNE_DONE)
        i++;
    expect(dergamoyne_heap_why(&h, last, path, DERGAMOYNE_WHY_ROWS(ALL), &why) == DERGAMOYNE_DONE &&
               why.reason == DERGAMOYNE_WHY_REACHABLE && why.pairs == ALL - 1,
           "why the last of all blocks is here");
    for (i = 0; i < ALL - 1; i++)
        expect(path[i][0] == i + 2 && path[i][1] == LINK, "the path to it");
    expect(rows_are(path, ALL - 1, DERGAMOYNE_WHY_ROWS(ALL), 0), "what is behind that path");
    dergamoyne_heap_close(&h);
}

/* ---- images ---- */

/* A heap of three blocks while marking: the root 2 is black and names 3, which is grey. */
static void running(struct dergamoyne_heap *h)
{
    uint32_t root = 0, second = 0;
    expect(dergamoyne_heap_open(h, 3, 1) == DERGAMOYNE_DONE && dergamoyne_heap_new_root(h, &root) == DERGAMOYNE_DONE &&
               dergamoyne_heap_new_block(h, root, 0, &second) == DERGAMOYNE_DONE &&
               dergamoyne_heap_store_number(h, second, 7, 42) == DERGAMOYNE_DONE && dergamoyne_heap_work(h, 4) == DERGAMOYNE_DONE,
           "a running heap");
    expect(dergamoyne_heap_phase(h) == DERGAMOYNE_MARKING && h->regs.grey == second && h->regs.mark == second, "it is marking");
}

static int same(const struct dergamoyne_heap *g, const struct dergamoyne_heap *h)
{
    return memcmp(&g->regs, &h->regs, sizeof g->regs) == 0 && memcmp(g->words, h->words, 4 * h->words_length) == 0 &&
           memcmp(g->colours, h->colours, 4 * h->colours_length) == 0 && memcmp(g->bytes, h->bytes, h->bytes_length) == 0;
}

static void images(void)
{
    enum { LENGTH = 56 + 37 * 3, EARLIER = LENGTH - 4 };
    static uint32_t words[24], colours[3];
    static uint8_t bytes[3];
    struct dergamoyne_heap h, spare, other;
    uint8_t image[LENGTH + 2];
    running(&h);
    memset(image, 7, sizeof image);
    expect(dergamoyne_heap_image_bytes(&h) == LENGTH && DERGAMOYNE_IMAGE_BYTES(3) == LENGTH, "the length of an image");
    expect(dergamoyne_heap_save(&h, image, LENGTH - 1) == DERGAMOYNE_OTHER_LENGTH && image[0] == 7, "too short an output");
    expect(dergamoyne_heap_save(&h, image, sizeof image) == DERGAMOYNE_DONE, "save");
    expect(image[0] == 10 && image[4] == 3 && image[40] == 3 && image[LENGTH] == 7 && image[LENGTH + 1] == 7, "the image and what is past it");
    expect(dergamoyne_heap_open_image(&spare, image, LENGTH) == DERGAMOYNE_DONE && same(&spare, &h), "open");
    expect(dergamoyne_heap_check(&spare) == DERGAMOYNE_DONE, "what was opened is well-formed");
    expect(dergamoyne_heap_work(&spare, 9) == DERGAMOYNE_DONE && dergamoyne_heap_work(&h, 9) == DERGAMOYNE_DONE && same(&spare, &h),
           "both go on alike");
    expect(dergamoyne_heap_load(&spare, image, LENGTH) == DERGAMOYNE_DONE && !same(&spare, &h), "back to what was saved");
    expect(dergamoyne_heap_load(&spare, image, LENGTH + 1) == DERGAMOYNE_NOT_WELL_FORMED, "a byte after the image");
    expect(dergamoyne_heap_lend_image(&other, image, LENGTH, words, 24, colours, 3, bytes, 3) == DERGAMOYNE_DONE, "in own memory");
    expect(same(&other, &spare) && other.memory == NULL, "the same heap there");
    expect(dergamoyne_heap_lend_image(&other, image, LENGTH, words, 23, colours, 3, bytes, 3) == DERGAMOYNE_OTHER_LENGTH, "other lengths");
    expect(dergamoyne_heap_save(&other, image, sizeof image) == DERGAMOYNE_DOES_NOT_FIT, "save of no heap");
    for (size_t length = 0; length < sizeof image; length++)
        expect(length == LENGTH || length == EARLIER || dergamoyne_heap_open_image(&other, image, length) == DERGAMOYNE_NOT_WELL_FORMED, "another length");
    expect(dergamoyne_heap_open_image(&other, image, EARLIER) == DERGAMOYNE_NOT_WELL_FORMED, "ten registers in the length of nine");
    h.colours[0] = 5;
    expect(dergamoyne_heap_save(&h, image, sizeof image) == DERGAMOYNE_NOT_WELL_FORMED, "save of a damaged heap");
    dergamoyne_heap_close(&h);
    dergamoyne_heap_close(&spare);
}

/* The image that a version before 0.7.0 wrote of the same heap has nine registers, so it is four bytes shorter. It is read with the
   mark at the last block. */
static void earlier_images(void)
{
    enum { LENGTH = 56 + 37 * 3, EARLIER = 52 + 37 * 3, BEHIND_NINE = 40, BEHIND_TEN = 44 };
    struct dergamoyne_heap h, spare;
    uint8_t image[LENGTH], earlier[EARLIER], again[LENGTH];
    running(&h);
    expect(DERGAMOYNE_EARLIER_IMAGE_BYTES(3) == EARLIER, "the length of an earlier image");
    expect(dergamoyne_heap_save(&h, image, LENGTH) == DERGAMOYNE_DONE, "save");
    memcpy(earlier, image, BEHIND_NINE);
    memcpy(earlier + BEHIND_NINE, image + BEHIND_TEN, LENGTH - BEHIND_TEN);
    earlier[0] = 9;
    expect(dergamoyne_heap_open_image(&spare, earlier, EARLIER) == DERGAMOYNE_DONE && spare.regs.mark == 4, "an earlier image");
    spare.regs.mark = h.regs.mark;
    expect(same(&spare, &h), "all but the mark is the same");
    expect(dergamoyne_heap_load(&spare, earlier, EARLIER) == DERGAMOYNE_DONE && spare.regs.mark == 4, "an earlier image, loaded");
    expect(dergamoyne_heap_save(&spare, again, LENGTH) == DERGAMOYNE_DONE && again[0] == 10 && again[40] == 4, "written with ten");
    for (size_t length = 0; length < EARLIER; length++)
        expect(dergamoyne_heap_load(&spare, earlier, length) == DERGAMOYNE_NOT_WELL_FORMED, "an earlier image that is cut");
    earlier[0] = 8;
    expect(dergamoyne_heap_load(&spare, earlier, EARLIER) == DERGAMOYNE_NOT_WELL_FORMED, "eight registers");
    dergamoyne_heap_close(&h);
    dergamoyne_heap_close(&spare);
}

/* ---- a small report on a large heap ---- */

/* Of the largest heap ten blocks are ever in use: a cycle marks ten, and sweeps ten. */
static void small_report(void)
{
    struct dergamoyne_heap h;
    uint32_t last = 0, cycles;
    expect(dergamoyne_heap_open(&h, DERGAMOYNE_MOST_BLOCKS, 1) == DERGAMOYNE_DONE && h.regs.mark == 1, "the largest heap");
    expect(dergamoyne_heap_first_row(&h, LINK, &last) == DERGAMOYNE_DONE, "a row");
    for (uint32_t i = 1; i < 10; i++)
        expect(dergamoyne_heap_new_row(&h, last, LINK, LINK, &last) == DERGAMOYNE_DONE, "a row");
    expect(h.regs.mark == 11 && last == 11, "the mark is the last block handed out");
    while (dergamoyne_heap_phase(&h) != DERGAMOYNE_IDLE)
        expect(dergamoyne_heap_work(&h, 1) == DERGAMOYNE_DONE, "to the cycle's end");
    cycles = dergamoyne_heap_cycles(&h);
    expect(dergamoyne_heap_work(&h, 2 + 10 + 10) == DERGAMOYNE_DONE && dergamoyne_heap_phase(&h) == DERGAMOYNE_IDLE &&
               dergamoyne_heap_cycles(&h) == cycles + 1,
           "a whole cycle");
    expect(dergamoyne_heap_clear_root(&h) == DERGAMOYNE_DONE && dergamoyne_heap_collect(&h) == DERGAMOYNE_DONE &&
               dergamoyne_heap_free_blocks(&h) == DERGAMOYNE_MOST_BLOCKS,
           "all is collected");
    expect(dergamoyne_heap_cycles(&h) - cycles < 9 && h.regs.mark == 11, "by a few short cycles");
    h.regs.mark = 0;
    expect(dergamoyne_heap_work(&h, 1) == DERGAMOYNE_REGISTERS && dergamoyne_heap_collect(&h) == DERGAMOYNE_REGISTERS, "no mark");
    h.regs.mark = DERGAMOYNE_MOST_BLOCKS + 2;
    expect(dergamoyne_heap_collect(&h) == DERGAMOYNE_REGISTERS && dergamoyne_heap_check(&h) == DERGAMOYNE_REGISTERS, "too high a mark");
    h.regs.mark = 11;
    expect(dergamoyne_heap_check(&h) == DERGAMOYNE_DONE, "as it was");
    dergamoyne_heap_close(&h);
}

/* The largest heap, as Format makes it, and one of a block more. */
enum { MOST = DERGAMOYNE_MOST_BLOCKS, ONE_MORE };

static void put_four(uint8_t **at, uint32_t n)
{
    for (unsigned shift = 0; shift < 32; shift += 8)
        *(*at)++ = (uint8_t)(n >> shift);
}

/* The image of m free blocks in rising order, at pace 1, none of them ever handed out. The last number is the count of colours. */
static void put_fresh(uint8_t *at, uint32_t m)
{
    const uint32_t registers[] = {10, m, 1, 0, 1, 2, m, 0, 0, 0, 1, m};
    for (size_t i = 0; i < sizeof registers / sizeof *registers; i++)
        put_four(&at, registers[i]);
    for (uint32_t i = 0; i < m; i++)
        put_four(&at, 4294967294u);
    put_four(&at, m);
    memset(at, 0, m);
    at += m;
    put_four(&at, 8 * m);
    for (uint32_t i = 0; i < 8 * m; i++)
        put_four(&at, i % 8 == 0 && i / 8 < m - 1 ? i / 8 + 3 : 0);
}

static void largest_images(void)
{
    static uint8_t image[DERGAMOYNE_IMAGE_BYTES(ONE_MORE)], written[DERGAMOYNE_IMAGE_BYTES(MOST)], bytes[ONE_MORE];
    static uint32_t words[8 * ONE_MORE], colours[ONE_MORE];
    static struct dergamoyne_regs regs;
    struct dergamoyne_heap h;
    put_fresh(image, MOST);
    expect(dergamoyne_heap_open_image(&h, image, DERGAMOYNE_IMAGE_BYTES(MOST)) == DERGAMOYNE_DONE, "the largest image");
    expect(dergamoyne_heap_save(&h, written, sizeof written) == DERGAMOYNE_DONE && memcmp(image, written, sizeof written) == 0,
           "it is what the largest heap is saved as");
    dergamoyne_heap_close(&h);
    put_fresh(image, ONE_MORE);
    expect(dergamoyne_load(&regs, words, 8 * (size_t)ONE_MORE, colours, ONE_MORE, bytes, ONE_MORE, image, sizeof image).refusal == 10,
           "an image of too many blocks");
    expect(dergamoyne_heap_open_image(&h, image, sizeof image) == DERGAMOYNE_NOT_WELL_FORMED, "the same by the layer");
}

/* ---- texts and versions ---- */

static void texts(void)
{
    static const uint32_t refusals[] = {0, 1, 2, 3, 4, 5, 6, 7, 8, 9, 10, 13};
    for (size_t n = 0; n < sizeof refusals / sizeof *refusals; n++)
        for (size_t m = 0; m < n; m++)
            expect(strcmp(dergamoyne_refusal_text(refusals[n]), dergamoyne_refusal_text(refusals[m])) != 0,
                   "a refusal has a text of its own");
    for (uint32_t n = 1; n < 5; n++)
        expect(strcmp(dergamoyne_reason_text(n), dergamoyne_reason_text(n - 1)) != 0, "a reason has a text of its own");
    for (uint32_t n = 1; n < 7; n++)
        expect(strcmp(dergamoyne_state_text(n), dergamoyne_state_text(n - 1)) != 0, "a state has a text of its own");
    expect(strcmp(dergamoyne_refusal_text(98), dergamoyne_refusal_text(99)) == 0, "an unknown refusal");
    for (uint32_t n = 1; n < 5; n++)
        expect(strcmp(dergamoyne_why_text(n), dergamoyne_why_text(n - 1)) != 0, "a reason why has a text of its own");
    expect(strcmp(dergamoyne_state_text(0), dergamoyne_state_text(7)) == 0, "an unknown state");
    expect(strcmp(dergamoyne_why_text(0), dergamoyne_why_text(5)) == 0, "an unknown reason why");
}

static void versions(void)
{
    char text[40];
    unsigned n = DERGAMOYNE_VERSION;
    snprintf(text, sizeof text, "%u.%u.%u", n / 1000000, n / 1000 % 1000, n % 1000);
    expect(strcmp(text, DERGAMOYNE_VERSION_TEXT) == 0, "the version in text");
    expect(dergamoyne_version() == DERGAMOYNE_VERSION, "the library's version");
    expect(dergamoyne_record_size() == sizeof(struct dergamoyne_regs), "the record's size");
}

int main(void)
{
    opening();
    lending();
    resuming();
    small_heap();
    objects();
    longest();
    undersized();
    enough();
    object_rows();
    states();
    whys();
    longest_path();
    images();
    earlier_images();
    small_report();
    largest_images();
    texts();
    versions();
    return bad;
}
