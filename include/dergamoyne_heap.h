/* Dergamoyne in one struct: the calls of dergamoyne.h on a heap that keeps its record and its buffers together. This layer is hard
   to misuse. It is for C99 and C++. Everything in it is static inline, and its only state is the struct. MIT licence, see LICENSE.

       struct dergamoyne_heap heap;
       uint32_t first, second, number;
       if (dergamoyne_heap_open(&heap, 1000, 10)                       1,000 blocks, 10 units of collection in each allocation
           || dergamoyne_heap_new_root(&heap, &first)                  a block, held by the root
           || dergamoyne_heap_new_block(&heap, first, 0, &second)      a block, held by word 0 of the first
           || dergamoyne_heap_store_number(&heap, second, 1, 42)
           || dergamoyne_heap_read_number(&heap, second, 1, &number))
           return 1;                                                   one of them was refused
       dergamoyne_heap_close(&heap);

   dergamoyne.h explains the terms (block, word, reference, root, unit), what is promised, and what you have to ensure.
   examples/c/list.c is a program that uses most of this, examples/c/objects.c one with objects longer than a block,
   examples/c/spare.c one that goes on in another process, and examples/c/why.c one that asks why blocks are still here.

   HOW IT GUARDS AGAINST MISTAKES

   - A function that can be refused returns the refusal, or 0 (DERGAMOYNE_DONE). The compiler warns if you ignore it. Results go
     to out parameters, which a refusal leaves alone.
   - A 0 can't be mistaken for a block. A new root and a new block, a reference and the null reference, setting the root and
     clearing it each have their own function. A holder 0 is refused by 3, a target 0 by 4.
   - An object is held by a field of another, so its holder's links stay as they are.
   - An export that is not complete gives no number of rows.
   - Why takes one buffer for the path and for its work. If there is no path, the number of pairs is 0.
   - Opening a heap tests that this header and the library have the same version. */
#ifndef DERGAMOYNE_HEAP_H
#define DERGAMOYNE_HEAP_H

#include "dergamoyne.h"
#include <stdlib.h>
#include <string.h>

/* A heap: its record, its buffers with their lengths, and the memory that it owns, or NULL if the memory was lent. You may read the
   registers in regs, for example regs.mark, by which docs/SIZING.md tells how large a heap has to be; all else leave to the functions
   below. Don't use a copy of the struct beside the original: both records would be about the same buffers. */
struct dergamoyne_heap {
    struct dergamoyne_regs regs;
    uint32_t *words, *colours;
    uint8_t *bytes;
    size_t words_length, colours_length, bytes_length;
    void *memory;
};

/* What the collector is doing. */
enum dergamoyne_phase { DERGAMOYNE_IDLE = 0, DERGAMOYNE_MARKING = 1, DERGAMOYNE_SWEEPING = 2 };

#define DERGAMOYNE_REFUSABLE DERGAMOYNE_MUST_USE static inline enum dergamoyne_refusal
#define DERGAMOYNE_LENT h->words, h->words_length, h->colours, h->colours_length, h->bytes, h->bytes_length


/* IN WORDS: what a refusal means, an export's reason, the state of a block, and why a block is still here. */

static inline const char *dergamoyne_refusal_text(uint32_t refusal)
{
    switch (refusal) {
    case DERGAMOYNE_DONE:
        return "done";
    case DERGAMOYNE_DOES_NOT_FIT:
        return "the number of blocks, the pace or the length of a buffer does not fit";
    case DERGAMOYNE_REGISTERS:
        return "the register record is not legal";
    case DERGAMOYNE_NO_SUCH_WORD:
        return "there is no such block, word or field";
    case DERGAMOYNE_NO_SUCH_TARGET:
        return "there is no such target";
    case DERGAMOYNE_BLOCK_GONE:
        return "the block is free or about to be freed";
    case DERGAMOYNE_TARGET_GONE:
        return "the target is free or about to be freed";
    case DERGAMOYNE_NO_FREE_BLOCK:
        return "too few blocks are free";
    case DERGAMOYNE_DAMAGE:
        return "the heap is damaged";
    case DERGAMOYNE_TOO_MANY_UNITS:
        return "too many units for one call";
    case DERGAMOYNE_NOT_WELL_FORMED:
        return "the heap is not well-formed, or the bytes are not the image of a heap that is";
    case DERGAMOYNE_OTHER_LENGTH:
        return "a buffer is too short, or the buffers are not of the image's lengths";
    case DERGAMOYNE_NOT_A_NUMBER:
        return "the word holds a reference";
    case DERGAMOYNE_NOT_A_REFERENCE:
        return "the word holds a number";
    case DERGAMOYNE_NO_MEMORY:
        return "there is no memory for the heap";
    case DERGAMOYNE_OTHER_VERSION:
        return "the library is of another version than the header";
    default:
        return "a refusal that this version does not know";
    }
}

static inline const char *dergamoyne_reason_text(uint32_t reason)
{
    switch (reason) {
    case DERGAMOYNE_COMPLETE:
        return "complete";
    case DERGAMOYNE_CIRCLE:
        return "the list runs in a circle";
    case DERGAMOYNE_NO_ROOM:
        return "the next row does not fit the buffer";
    case DERGAMOYNE_REFUSED:
        return "the next row can't be read";
    case DERGAMOYNE_NO_REFERENCE:
        return "the link of the next row is a number";
    default:
        return "a reason that this version does not know";
    }
}

static inline const char *dergamoyne_state_text(uint32_t state)
{
    switch (state) {
    case DERGAMOYNE_STATE_LIVE_WHITE:
        return "live white";
    case DERGAMOYNE_STATE_DOOMED:
        return "doomed";
    case DERGAMOYNE_STATE_GREY:
        return "grey";
    case DERGAMOYNE_STATE_BLACK:
        return "black";
    case DERGAMOYNE_STATE_FREE:
        return "free";
    case DERGAMOYNE_STATE_OUTSIDE:
        return "outside the layout";
    default:
        return "a state that this version does not know";
    }
}

static inline const char *dergamoyne_why_text(uint32_t reason)
{
    switch (reason) {
    case DERGAMOYNE_WHY_FREE:
        return "it is not in use";
    case DERGAMOYNE_WHY_DOOMED:
        return "nothing leads to it, and the sweep is about to free it";
    case DERGAMOYNE_WHY_REACHABLE:
        return "references lead to it from the root";
    case DERGAMOYNE_WHY_KEPT:
        return "nothing leads to it, but the collector has not found that out yet";
    default:
        return "a reason that this version does not know";
    }
}


/* OPENING AND CLOSING */

/* Makes *h no heap: every call on it is refused by 1. Its pointers are not null, because the library doesn't accept null. */
static inline void dergamoyne_heap_none(struct dergamoyne_heap *h)
{
    memset(h, 0, sizeof *h);
    h->words = h->colours = &h->regs.blocks;
    h->bytes = (uint8_t *)&h->regs;
}

/* Refused by 101 unless this header and the library have the same version. */
DERGAMOYNE_REFUSABLE dergamoyne_heap_version_(void)
{
    if (dergamoyne_version() != DERGAMOYNE_VERSION || dergamoyne_record_size() != sizeof(struct dergamoyne_regs))
        return DERGAMOYNE_OTHER_VERSION;
    return DERGAMOYNE_DONE;
}

/* Makes *h the heap with this record, in these buffers. */
static inline void dergamoyne_heap_place_(struct dergamoyne_heap *h, struct dergamoyne_regs regs, uint32_t *words,
                                          size_t words_length, uint32_t *colours, size_t colours_length, uint8_t *bytes,
                                          size_t bytes_length)
{
    h->regs = regs;
    h->words = words, h->words_length = words_length;
    h->colours = colours, h->colours_length = colours_length;
    h->bytes = bytes, h->bytes_length = bytes_length;
}

/* Opens a heap in your own memory, with all blocks free. The lengths count elements: 8 * blocks, blocks and blocks. The memory must
   stay there as long as the heap is used. Refusals: 1, 101. */
DERGAMOYNE_REFUSABLE dergamoyne_heap_lend(struct dergamoyne_heap *h, uint32_t blocks, uint32_t pace, uint32_t *words,
                                          size_t words_length, uint32_t *colours, size_t colours_length, uint8_t *bytes,
                                          size_t bytes_length)
{
    struct dergamoyne_regs regs;
    struct dergamoyne_answer a;
    dergamoyne_heap_none(h);
    memset(&regs, 0, sizeof regs);
    if (dergamoyne_heap_version_() != DERGAMOYNE_DONE)
        return DERGAMOYNE_OTHER_VERSION;
    a = dergamoyne_format(&regs, words, words_length, colours, colours_length, bytes, bytes_length, blocks, pace);
    if (a.refusal == DERGAMOYNE_DONE)
        dergamoyne_heap_place_(h, regs, words, words_length, colours, colours_length, bytes, bytes_length);
    return (enum dergamoyne_refusal)a.refusal;
}

/* Opens a heap of 1 to 16,384 blocks that owns its memory, 37 bytes a block. The pace is 0 to 65,535. Close the heap when you are
   done. If opening is refused, there is nothing to close. Refusals: 1, 100, 101. */
DERGAMOYNE_REFUSABLE dergamoyne_heap_open(struct dergamoyne_heap *h, uint32_t blocks, uint32_t pace)
{
    enum dergamoyne_refusal refusal;
    uint32_t *memory;
    dergamoyne_heap_none(h);
    if (blocks == 0 || blocks > DERGAMOYNE_MOST_BLOCKS || pace > DERGAMOYNE_MOST_PACE)
        return DERGAMOYNE_DOES_NOT_FIT;
    memory = (uint32_t *)calloc(blocks, 37);
    if (memory == NULL)
        return DERGAMOYNE_NO_MEMORY;
    refusal = dergamoyne_heap_lend(h, blocks, pace, memory, 8 * (size_t)blocks, memory + 8 * (size_t)blocks, blocks,
                                   (uint8_t *)(memory + 9 * (size_t)blocks), blocks);
    if (refusal != DERGAMOYNE_DONE)
        free(memory);
    else
        h->memory = memory;
    return refusal;
}

/* Frees the memory that the heap owns. */
static inline void dergamoyne_heap_close(struct dergamoyne_heap *h)
{
    free(h->memory);
    dergamoyne_heap_none(h);
}


/* NEW BLOCKS. Each of these first does the collector's units. Refusals: 1, 2, 3; 8, 5, 7. With 7 nothing that the root reaches is
   lost; see docs/TROUBLE.md. */

/* Allocate with these numbers. Unless it is refused, the block goes to *block. */
DERGAMOYNE_REFUSABLE dergamoyne_heap_allocate_(struct dergamoyne_heap *h, uint32_t holder, uint32_t word, uint32_t *block)
{
    struct dergamoyne_answer a = dergamoyne_allocate(&h->regs, DERGAMOYNE_LENT, holder, word);
    if (a.refusal == DERGAMOYNE_DONE)
        *block = a.value;
    return (enum dergamoyne_refusal)a.refusal;
}

/* A new block, which becomes the root. Blocks that only the old root reached are let go. */
DERGAMOYNE_REFUSABLE dergamoyne_heap_new_root(struct dergamoyne_heap *h, uint32_t *block)
{
    return dergamoyne_heap_allocate_(h, 0, 0, block);
}

/* A new block, held by a reference in word `word` of the block `holder`. */
DERGAMOYNE_REFUSABLE dergamoyne_heap_new_block(struct dergamoyne_heap *h, uint32_t holder, uint32_t word, uint32_t *block)
{
    return holder == 0 ? DERGAMOYNE_NO_SUCH_WORD : dergamoyne_heap_allocate_(h, holder, word, block);
}


/* WORDS. Refusals: 1, 2, 3, 8, 5; with a target also 4 and 6. */

/* The value of a word, and whether it is a reference: 1 or 0. */
DERGAMOYNE_REFUSABLE dergamoyne_heap_read(const struct dergamoyne_heap *h, uint32_t block, uint32_t word, uint32_t *value,
                                          int *reference)
{
    struct dergamoyne_read_answer a = dergamoyne_read(h->regs, DERGAMOYNE_LENT, block, word);
    if (a.refusal == DERGAMOYNE_DONE) {
        *value = a.value;
        *reference = (int)a.reference;
    }
    return (enum dergamoyne_refusal)a.refusal;
}

/* The number in a word. Refused by 102 if the word holds a reference. */
DERGAMOYNE_REFUSABLE dergamoyne_heap_read_number(const struct dergamoyne_heap *h, uint32_t block, uint32_t word,
                                                 uint32_t *number)
{
    struct dergamoyne_read_answer a = dergamoyne_read(h->regs, DERGAMOYNE_LENT, block, word);
    if (a.refusal != DERGAMOYNE_DONE)
        return (enum dergamoyne_refusal)a.refusal;
    if (a.reference)
        return DERGAMOYNE_NOT_A_NUMBER;
    *number = a.value;
    return DERGAMOYNE_DONE;
}

/* The block that the reference in a word names, 0 for the null reference. Refused by 103 if the word holds a number. */
DERGAMOYNE_REFUSABLE dergamoyne_heap_read_reference(const struct dergamoyne_heap *h, uint32_t block, uint32_t word,
                                                    uint32_t *target)
{
    struct dergamoyne_read_answer a = dergamoyne_read(h->regs, DERGAMOYNE_LENT, block, word);
    if (a.refusal != DERGAMOYNE_DONE)
        return (enum dergamoyne_refusal)a.refusal;
    if (!a.reference)
        return DERGAMOYNE_NOT_A_REFERENCE;
    *target = a.value;
    return DERGAMOYNE_DONE;
}

/* A pointer to the eight words of a block. You may read them, but not write to them, until the next call that changes the heap. */
DERGAMOYNE_REFUSABLE dergamoyne_heap_look(const struct dergamoyne_heap *h, uint32_t block, const uint32_t **words)
{
    struct dergamoyne_look_answer a = dergamoyne_look(h->regs, DERGAMOYNE_LENT, block);
    if (a.refusal == DERGAMOYNE_DONE)
        *words = h->words + a.at;
    return (enum dergamoyne_refusal)a.refusal;
}

/* The word becomes the number. */
DERGAMOYNE_REFUSABLE dergamoyne_heap_store_number(struct dergamoyne_heap *h, uint32_t block, uint32_t word, uint32_t number)
{
    return (enum dergamoyne_refusal)dergamoyne_store_number(&h->regs, DERGAMOYNE_LENT, block, word, number).refusal;
}

/* The word becomes a reference to the block `target`. */
DERGAMOYNE_REFUSABLE dergamoyne_heap_store_reference(struct dergamoyne_heap *h, uint32_t block, uint32_t word, uint32_t target)
{
    if (target == 0)
        return DERGAMOYNE_NO_SUCH_TARGET;
    return (enum dergamoyne_refusal)dergamoyne_store_reference(&h->regs, DERGAMOYNE_LENT, block, word, target).refusal;
}

/* The word becomes the null reference, which ends a list. */
DERGAMOYNE_REFUSABLE dergamoyne_heap_store_null(struct dergamoyne_heap *h, uint32_t block, uint32_t word)
{
    return (enum dergamoyne_refusal)dergamoyne_store_reference(&h->regs, DERGAMOYNE_LENT, block, word, 0).refusal;
}

/* The block `target` becomes the root. Blocks that only the old root reached are let go. */
DERGAMOYNE_REFUSABLE dergamoyne_heap_set_root(struct dergamoyne_heap *h, uint32_t target)
{
    if (target == 0)
        return DERGAMOYNE_NO_SUCH_TARGET;
    return (enum dergamoyne_refusal)dergamoyne_set_root(&h->regs, DERGAMOYNE_LENT, target).refusal;
}

/* There is no root any more, so every block is let go. */
DERGAMOYNE_REFUSABLE dergamoyne_heap_clear_root(struct dergamoyne_heap *h)
{
    return (enum dergamoyne_refusal)dergamoyne_set_root(&h->regs, DERGAMOYNE_LENT, 0).refusal;
}


/* OBJECTS, of 1 to 256 blocks. An object goes by the number of its first block; one of n blocks has the fields 0 to 7n - 1. Every
   field of a new object is the number 0. Refusals of a new object: 1, 2, 3; 8, 5, 7. Of a field: 1, 2, 3, 8, 5; of a target
   besides 4, 6. 3 also says that the object has no such field. */

/* How many blocks an object of so many fields takes: 7 fields a block, and one block at least. */
static inline uint32_t dergamoyne_object_blocks(uint32_t fields)
{
    return fields == 0 ? 1 : (fields - 1) / DERGAMOYNE_BLOCK_FIELDS + 1;
}

/* Allocate chain with these numbers; the object goes to *object where it isn't refused. */
DERGAMOYNE_REFUSABLE dergamoyne_heap_allocate_chain_(struct dergamoyne_heap *h, uint32_t holder, uint32_t word, uint32_t blocks,
                                                     uint32_t *object)
{
    struct dergamoyne_answer a = dergamoyne_allocate_chain(&h->regs, DERGAMOYNE_LENT, holder, word, blocks);
    if (a.refusal == DERGAMOYNE_DONE)
        *object = a.value;
    return (enum dergamoyne_refusal)a.refusal;
}

/* The block of an object that has the field. Its cost goes with the blocks up to it. */
DERGAMOYNE_REFUSABLE dergamoyne_heap_block_of_field_(const struct dergamoyne_heap *h, uint32_t object, uint32_t field,
                                                     uint32_t *block)
{
    uint32_t at = object;
    if (field >= DERGAMOYNE_OBJECT_FIELDS)
        return DERGAMOYNE_NO_SUCH_WORD;
    for (; field >= DERGAMOYNE_BLOCK_FIELDS; field -= DERGAMOYNE_BLOCK_FIELDS) {
        struct dergamoyne_read_answer a = dergamoyne_read(h->regs, DERGAMOYNE_LENT, at, DERGAMOYNE_BLOCK_FIELDS);
        if (a.refusal != DERGAMOYNE_DONE)
            return (enum dergamoyne_refusal)a.refusal;
        if (!a.reference || a.value == 0)
            return DERGAMOYNE_NO_SUCH_WORD;
        at = a.value;
    }
    *block = at;
    return DERGAMOYNE_DONE;
}

/* A new object that is the root. What only the old root reached is let go. */
DERGAMOYNE_REFUSABLE dergamoyne_heap_new_root_object(struct dergamoyne_heap *h, uint32_t blocks, uint32_t *object)
{
    return dergamoyne_heap_allocate_chain_(h, 0, 0, blocks, object);
}

/* A new object, held by field `field` of the object `holder`. A single block serves as holder too, with its words 0 to 6. */
DERGAMOYNE_REFUSABLE dergamoyne_heap_new_object(struct dergamoyne_heap *h, uint32_t holder, uint32_t field, uint32_t blocks,
                                                uint32_t *object)
{
    enum dergamoyne_refusal refusal = DERGAMOYNE_NO_SUCH_WORD;
    uint32_t block = 0;
    if (holder != 0)
        refusal = dergamoyne_heap_block_of_field_(h, holder, field, &block);
    if (refusal == DERGAMOYNE_DONE)
        refusal = dergamoyne_heap_allocate_chain_(h, block, field % DERGAMOYNE_BLOCK_FIELDS, blocks, object);
    return refusal;
}

/* The value of a field, and whether it is a reference: 1 or 0. */
DERGAMOYNE_REFUSABLE dergamoyne_heap_read_field(const struct dergamoyne_heap *h, uint32_t object, uint32_t field,
                                                uint32_t *value, int *reference)
{
    struct dergamoyne_read_answer a = dergamoyne_read_field(h->regs, DERGAMOYNE_LENT, object, field);
    if (a.refusal == DERGAMOYNE_DONE) {
        *value = a.value;
        *reference = (int)a.reference;
    }
    return (enum dergamoyne_refusal)a.refusal;
}

/* A number. Refused by 102 where the field holds a reference. */
DERGAMOYNE_REFUSABLE dergamoyne_heap_read_field_number(const struct dergamoyne_heap *h, uint32_t object, uint32_t field,
                                                       uint32_t *number)
{
    struct dergamoyne_read_answer a = dergamoyne_read_field(h->regs, DERGAMOYNE_LENT, object, field);
    if (a.refusal != DERGAMOYNE_DONE)
        return (enum dergamoyne_refusal)a.refusal;
    if (a.reference)
        return DERGAMOYNE_NOT_A_NUMBER;
    *number = a.value;
    return DERGAMOYNE_DONE;
}

/* What a reference names, 0 for the null reference. Refused by 103 where the field holds a number. */
DERGAMOYNE_REFUSABLE dergamoyne_heap_read_field_reference(const struct dergamoyne_heap *h, uint32_t object, uint32_t field,
                                                          uint32_t *target)
{
    struct dergamoyne_read_answer a = dergamoyne_read_field(h->regs, DERGAMOYNE_LENT, object, field);
    if (a.refusal != DERGAMOYNE_DONE)
        return (enum dergamoyne_refusal)a.refusal;
    if (!a.reference)
        return DERGAMOYNE_NOT_A_REFERENCE;
    *target = a.value;
    return DERGAMOYNE_DONE;
}

DERGAMOYNE_REFUSABLE dergamoyne_heap_store_field_number(struct dergamoyne_heap *h, uint32_t object, uint32_t field,
                                                        uint32_t number)
{
    return (enum dergamoyne_refusal)dergamoyne_store_field_number(&h->regs, DERGAMOYNE_LENT, object, field, number).refusal;
}

/* The field becomes a reference to the block or object `target`. */
DERGAMOYNE_REFUSABLE dergamoyne_heap_store_field_reference(struct dergamoyne_heap *h, uint32_t object, uint32_t field,
                                                           uint32_t target)
{
    if (target == 0)
        return DERGAMOYNE_NO_SUCH_TARGET;
    return (enum dergamoyne_refusal)dergamoyne_store_field_reference(&h->regs, DERGAMOYNE_LENT, object, field, target).refusal;
}

/* The field becomes the null reference. */
DERGAMOYNE_REFUSABLE dergamoyne_heap_store_field_null(struct dergamoyne_heap *h, uint32_t object, uint32_t field)
{
    return (enum dergamoyne_refusal)dergamoyne_store_field_reference(&h->regs, DERGAMOYNE_LENT, object, field, 0).refusal;
}


/* LISTS. In a list each block names the next in the same word, `link`. The null reference ends the list. */

/* A new block, which becomes the root. Its word `link` is the null reference, so it is a list of one row. */
DERGAMOYNE_REFUSABLE dergamoyne_heap_first_row(struct dergamoyne_heap *h, uint32_t link, uint32_t *row)
{
    enum dergamoyne_refusal refusal = DERGAMOYNE_NO_SUCH_WORD;
    uint32_t block = 0;
    if (link < DERGAMOYNE_BLOCK_WORDS)
        refusal = dergamoyne_heap_new_root(h, &block);
    if (refusal == DERGAMOYNE_DONE)
        refusal = dergamoyne_heap_store_null(h, block, link);
    if (refusal == DERGAMOYNE_DONE)
        *row = block;
    return refusal;
}

/* The same, but held by word `word` of the block `holder`. With a list's last row as the holder and its link as the word, the new
   block is the list's next row. */
DERGAMOYNE_REFUSABLE dergamoyne_heap_new_row(struct dergamoyne_heap *h, uint32_t holder, uint32_t word, uint32_t link,
                                             uint32_t *row)
{
    enum dergamoyne_refusal refusal = DERGAMOYNE_NO_SUCH_WORD;
    uint32_t block = 0;
    if (link < DERGAMOYNE_BLOCK_WORDS)
        refusal = dergamoyne_heap_new_block(h, holder, word, &block);
    if (refusal == DERGAMOYNE_DONE)
        refusal = dergamoyne_heap_store_null(h, block, link);
    if (refusal == DERGAMOYNE_DONE)
        *row = block;
    return refusal;
}

/* The same with an object of so many blocks for a row, whose field `link` is the null reference: as the root. */
DERGAMOYNE_REFUSABLE dergamoyne_heap_first_row_object(struct dergamoyne_heap *h, uint32_t blocks, uint32_t link, uint32_t *row)
{
    enum dergamoyne_refusal refusal = DERGAMOYNE_NO_SUCH_WORD;
    uint32_t object = 0;
    if (link / DERGAMOYNE_BLOCK_FIELDS < blocks)
        refusal = dergamoyne_heap_new_root_object(h, blocks, &object);
    if (refusal == DERGAMOYNE_DONE)
        refusal = dergamoyne_heap_store_field_null(h, object, link);
    if (refusal == DERGAMOYNE_DONE)
        *row = object;
    return refusal;
}

/* The same, held by field `field` of the object `holder`: with the last row and its link field it is the list's next row. */
DERGAMOYNE_REFUSABLE dergamoyne_heap_new_row_object(struct dergamoyne_heap *h, uint32_t holder, uint32_t field, uint32_t blocks,
                                                    uint32_t link, uint32_t *row)
{
    enum dergamoyne_refusal refusal = DERGAMOYNE_NO_SUCH_WORD;
    uint32_t object = 0;
    if (link / DERGAMOYNE_BLOCK_FIELDS < blocks)
        refusal = dergamoyne_heap_new_object(h, holder, field, blocks, &object);
    if (refusal == DERGAMOYNE_DONE)
        refusal = dergamoyne_heap_store_field_null(h, object, link);
    if (refusal == DERGAMOYNE_DONE)
        *row = object;
    return refusal;
}

/* What an export answered: *rows is the number of its rows if it is complete and else stays alone; *details is the whole answer,
   unless `details` is NULL. */
DERGAMOYNE_MUST_USE static inline enum dergamoyne_reason
dergamoyne_heap_exported_(struct dergamoyne_export_answer a, uint32_t *rows, struct dergamoyne_export_answer *details)
{
    if (details != NULL)
        *details = a;
    if (a.reason == DERGAMOYNE_COMPLETE)
        *rows = a.rows;
    return (enum dergamoyne_reason)a.reason;
}

/* Writes the list that starts at the block `start` to `out`, which has room for `room` rows. Start 0 is the empty list. Returns
   DERGAMOYNE_COMPLETE if the list is complete; then *rows is the number of its rows. Otherwise it returns the reason and leaves
   *rows alone. Unless `details` is NULL, *details then has the number of rows that were written before it stopped and, with
   DERGAMOYNE_REFUSED, Read's refusal. */
DERGAMOYNE_MUST_USE static inline enum dergamoyne_reason
dergamoyne_heap_export(const struct dergamoyne_heap *h, uint32_t start, uint32_t link, uint32_t (*out)[DERGAMOYNE_BLOCK_WORDS],
                       size_t room, uint32_t *rows, struct dergamoyne_export_answer *details)
{
    uint32_t none = 0;
    uint32_t *words = room == 0 ? &none : &out[0][0];
    struct dergamoyne_export_answer a =
        dergamoyne_export(h->regs, DERGAMOYNE_LENT, words, DERGAMOYNE_BLOCK_WORDS * room, start, link);
    return dergamoyne_heap_exported_(a, rows, details);
}

/* The same for a list whose rows are objects: the fields 0 to `fields` - 1 of each, 1 to 1,792 of them, linked by field `link`, which
   is one of these. `out` has room for `room` rows, so for room * fields words; row n, counted from 0, begins at out[n * fields]. With
   numbers out of range it returns DERGAMOYNE_REFUSED, and the refusal in *details is 3. */
DERGAMOYNE_MUST_USE static inline enum dergamoyne_reason
dergamoyne_heap_export_objects(const struct dergamoyne_heap *h, uint32_t start, uint32_t fields, uint32_t link, uint32_t *out,
                               size_t room, uint32_t *rows, struct dergamoyne_export_answer *details)
{
    uint32_t none = 0;
    uint32_t *words = room == 0 ? &none : out;
    size_t most = room <= DERGAMOYNE_MOST_BLOCKS ? room : (size_t)DERGAMOYNE_MOST_BLOCKS; /* so that the product fits */
    struct dergamoyne_export_answer a =
        dergamoyne_export_objects(h->regs, DERGAMOYNE_LENT, words, most * fields, start, fields, link);
    return dergamoyne_heap_exported_(a, rows, details);
}


/* THE COLLECTOR */

/* Does this many units, at most 65,535. Refusals: 1, 2, 9; 8. */
DERGAMOYNE_REFUSABLE dergamoyne_heap_work(struct dergamoyne_heap *h, uint32_t units)
{
    return (enum dergamoyne_refusal)dergamoyne_work(&h->regs, DERGAMOYNE_LENT, units).refusal;
}

/* Frees everything that can't be reached: it finishes the running cycle and then does a whole one. The cost grows with the number
   of blocks that were ever in use (regs.mark). Refusals: 1, 2; 8. */
DERGAMOYNE_REFUSABLE dergamoyne_heap_collect(struct dergamoyne_heap *h)
{
    uint32_t cycle = h->regs.mark <= DERGAMOYNE_MOST_BLOCKS + 1 ? 2 * h->regs.mark : 0; /* the most units a cycle takes */
    enum dergamoyne_refusal refusal = dergamoyne_heap_work(h, cycle);
    return refusal == DERGAMOYNE_DONE ? dergamoyne_heap_work(h, cycle) : refusal;
}


/* THE STATE OF THE HEAP, AND OF A BLOCK */

static inline uint32_t dergamoyne_heap_blocks(const struct dergamoyne_heap *h)
{
    return h->regs.blocks;
}

static inline uint32_t dergamoyne_heap_free_blocks(const struct dergamoyne_heap *h)
{
    return h->regs.count;
}

/* The blocks that can be reached, and the garbage that is not freed yet. */
static inline uint32_t dergamoyne_heap_allocated_blocks(const struct dergamoyne_heap *h)
{
    return h->regs.blocks - h->regs.count;
}

/* 0 if there is none. */
static inline uint32_t dergamoyne_heap_root(const struct dergamoyne_heap *h)
{
    return h->regs.root;
}

static inline enum dergamoyne_phase dergamoyne_heap_phase(const struct dergamoyne_heap *h)
{
    return (enum dergamoyne_phase)h->regs.phase;
}

/* How many cycles of the collector have begun; after 4,294,967,295 comes 0. */
static inline uint32_t dergamoyne_heap_cycles(const struct dergamoyne_heap *h)
{
    return h->regs.cycle;
}

/* What a number is: live white, doomed, grey, black, free, or outside the layout, as every number is that is no block. It is for
   listings and for finding mistakes. Don't use it to keep a block: only a reference does that. Refusals: 1, 2. */
DERGAMOYNE_REFUSABLE dergamoyne_heap_state(const struct dergamoyne_heap *h, uint32_t block, enum dergamoyne_block_state *state)
{
    struct dergamoyne_answer a = dergamoyne_state(h->regs, DERGAMOYNE_LENT, block);
    if (a.refusal == DERGAMOYNE_DONE)
        *state = (enum dergamoyne_block_state)a.value;
    return (enum dergamoyne_refusal)a.refusal;
}

/* Why a block is still here: the reason; how many pairs the path has, 0 where there is none; and the state of the block, whatever
   the reason is. */
struct dergamoyne_why {
    enum dergamoyne_why_reason reason;
    uint32_t pairs;
    enum dergamoyne_block_state state;
};

/* The rows that dergamoyne_heap_why needs on a heap of m blocks: m for the path, and as many to work in. */
#define DERGAMOYNE_WHY_ROWS(m) (2 * (size_t)(m))

/* Tells why a block is still here; dergamoyne.h says what each reason means and what to do. `path` has `rows` rows, at least
   DERGAMOYNE_WHY_ROWS(blocks). What they contain before doesn't matter. Afterwards path[0] to path[why->pairs - 1] are the path from
   the root to the block, path[i][0] a block and path[i][1] the word in it that names the next; all other rows are 0. The root itself
   is reachable with no pairs. The cost grows with the number of blocks. It is for finding out why memory doesn't shrink, not for
   every call. Refusals: 1; 10 for a heap that dergamoyne_heap_check turns down; 3 for the block; 13 for too few rows. A refusal
   writes nothing, and leaves *why alone. */
DERGAMOYNE_REFUSABLE dergamoyne_heap_why(const struct dergamoyne_heap *h, uint32_t block, uint32_t (*path)[2], size_t rows,
                                         struct dergamoyne_why *why)
{
    uint32_t none = 0;
    uint32_t *numbers = rows == 0 ? &none : &path[0][0];
    size_t pairs = rows < h->regs.blocks ? rows : h->regs.blocks, rest = rows - pairs;
    uint32_t *queue = numbers + 2 * pairs;
    struct dergamoyne_why_answer a =
        dergamoyne_why(h->regs, DERGAMOYNE_LENT, numbers, 2 * pairs, queue, rest, queue + rest, rest, block);
    if (a.refusal == DERGAMOYNE_DONE) {
        why->reason = (enum dergamoyne_why_reason)a.reason;
        why->pairs = a.pairs;
        why->state = (enum dergamoyne_block_state)dergamoyne_state(h->regs, DERGAMOYNE_LENT, block).value;
    }
    return (enum dergamoyne_refusal)a.refusal;
}

/* Tests the whole heap. The cost grows with the number of blocks. Returns 0 if the heap is well-formed; 1 if the number of blocks,
   the pace or a length doesn't fit (often a length in bytes instead of elements); 2 if a register is wrong; 8 if the contents of
   the buffers are wrong, or the record and the buffers don't belong together. */
DERGAMOYNE_MUST_USE static inline enum dergamoyne_refusal
dergamoyne_check(struct dergamoyne_regs regs, const uint32_t *words, size_t words_length, const uint32_t *colours,
                 size_t colours_length, const uint8_t *bytes, size_t bytes_length)
{
    struct dergamoyne_read_answer a;
    if (dergamoyne_audit(regs, words, words_length, colours, colours_length, bytes, bytes_length).value == 1)
        return DERGAMOYNE_DONE;
    a = dergamoyne_read(regs, words, words_length, colours, colours_length, bytes, bytes_length, 2, 0);
    if (a.refusal == DERGAMOYNE_DOES_NOT_FIT || a.refusal == DERGAMOYNE_REGISTERS)
        return (enum dergamoyne_refusal)a.refusal;
    return DERGAMOYNE_DAMAGE;
}

DERGAMOYNE_REFUSABLE dergamoyne_heap_check(const struct dergamoyne_heap *h)
{
    return dergamoyne_check(h->regs, DERGAMOYNE_LENT);
}

/* Goes on with a heap whose record and buffers you kept yourself. `regs` is its record, and the buffers, in your own memory, have
   its contents. The heap is tested first, as by dergamoyne_check. Refusals: 1, 2, 8, 101. */
DERGAMOYNE_REFUSABLE dergamoyne_heap_resume(struct dergamoyne_heap *h, struct dergamoyne_regs regs, uint32_t *words,
                                            size_t words_length, uint32_t *colours, size_t colours_length, uint8_t *bytes,
                                            size_t bytes_length)
{
    enum dergamoyne_refusal refusal = dergamoyne_heap_version_();
    dergamoyne_heap_none(h);
    if (refusal == DERGAMOYNE_DONE)
        refusal = dergamoyne_check(regs, words, words_length, colours, colours_length, bytes, bytes_length);
    if (refusal == DERGAMOYNE_DONE)
        dergamoyne_heap_place_(h, regs, words, words_length, colours, colours_length, bytes, bytes_length);
    return refusal;
}


/* IMAGES: a heap as one string of bytes, for a file or another machine. docs/IMAGE.md has the format; examples/c/spare.c uses it. */

/* The length of the heap's image, in bytes. */
static inline size_t dergamoyne_heap_image_bytes(const struct dergamoyne_heap *h)
{
    return DERGAMOYNE_IMAGE_BYTES(h->regs.blocks);
}

/* Writes the heap's image to the front of `out`. Refusals: 1, 10, 13; then nothing is written. */
DERGAMOYNE_REFUSABLE dergamoyne_heap_save(const struct dergamoyne_heap *h, uint8_t *out, size_t out_length)
{
    return (enum dergamoyne_refusal)dergamoyne_save(h->regs, DERGAMOYNE_LENT, out, out_length).refusal;
}

/* An open heap becomes that of the image, which has as many blocks. What was there is gone. Refusals: 10, 13; then the heap is as it
   was. */
DERGAMOYNE_REFUSABLE dergamoyne_heap_load(struct dergamoyne_heap *h, const uint8_t *image, size_t image_length)
{
    return (enum dergamoyne_refusal)dergamoyne_load(&h->regs, DERGAMOYNE_LENT, image, image_length).refusal;
}

/* Opens the heap of an image in your own memory, as dergamoyne_heap_lend does. Refusals: 10, 13, 101. */
DERGAMOYNE_REFUSABLE dergamoyne_heap_lend_image(struct dergamoyne_heap *h, const uint8_t *image, size_t image_length,
                                                uint32_t *words, size_t words_length, uint32_t *colours, size_t colours_length,
                                                uint8_t *bytes, size_t bytes_length)
{
    struct dergamoyne_regs regs;
    struct dergamoyne_answer a;
    dergamoyne_heap_none(h);
    memset(&regs, 0, sizeof regs);
    if (dergamoyne_heap_version_() != DERGAMOYNE_DONE)
        return DERGAMOYNE_OTHER_VERSION;
    a = dergamoyne_load(&regs, words, words_length, colours, colours_length, bytes, bytes_length, image, image_length);
    if (a.refusal == DERGAMOYNE_DONE)
        dergamoyne_heap_place_(h, regs, words, words_length, colours, colours_length, bytes, bytes_length);
    return (enum dergamoyne_refusal)a.refusal;
}

/* How many blocks the heap of an image has, by its length, also where an earlier version wrote it; 0 if no image is so long. */
static inline size_t dergamoyne_image_blocks_(size_t image_length)
{
    size_t blocks = image_length < DERGAMOYNE_EARLIER_IMAGE_BYTES(1) ? 0 : (image_length - DERGAMOYNE_EARLIER_IMAGE_BYTES(0)) / 37;
    if (image_length != DERGAMOYNE_IMAGE_BYTES(blocks) && image_length != DERGAMOYNE_EARLIER_IMAGE_BYTES(blocks))
        return 0;
    return blocks <= DERGAMOYNE_MOST_BLOCKS ? blocks : 0;
}

/* Opens the heap of an image; it owns its memory, as after dergamoyne_heap_open. The length tells how many blocks it has. Refusals:
   10, 100, 101; then there is nothing to close. */
DERGAMOYNE_REFUSABLE dergamoyne_heap_open_image(struct dergamoyne_heap *h, const uint8_t *image, size_t image_length)
{
    size_t blocks = dergamoyne_image_blocks_(image_length);
    enum dergamoyne_refusal refusal;
    uint32_t *memory;
    dergamoyne_heap_none(h);
    if (blocks == 0)
        return DERGAMOYNE_NOT_WELL_FORMED;
    memory = (uint32_t *)calloc(blocks, 37);
    if (memory == NULL)
        return DERGAMOYNE_NO_MEMORY;
    refusal = dergamoyne_heap_lend_image(h, image, image_length, memory, 8 * blocks, memory + 8 * blocks, blocks,
                                         (uint8_t *)(memory + 9 * blocks), blocks);
    if (refusal != DERGAMOYNE_DONE)
        free(memory);
    else
        h->memory = memory;
    return refusal;
}

#undef DERGAMOYNE_REFUSABLE
#undef DERGAMOYNE_LENT

#endif
