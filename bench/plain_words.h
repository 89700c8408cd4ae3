/* Blocks that a call may use, the way from a block of an object to the next, and a reference put into a word: what the plain
   machine's calls on blocks, on fields and on rows share. */
#ifndef PLAIN_WORDS_H
#define PLAIN_WORDS_H

#include "plain_layout.h"

/* 8 for a colour outside the layout, `gone` for a block that is free or doomed, else 0. */
static inline uint32_t standing(const struct plain_regs *r, const uint32_t *colours, uint32_t b, uint32_t gone)
{
    uint32_t word = colours[b - 2];
    if (word == FREE)
        return gone;
    if (word == WHITE)
        return r->phase == SWEEPING && b >= r->position ? gone : 0;
    return word == BLACK || is_grey(r->blocks, word) ? 0 : 8;
}

/* Words 0 to 6 of an object's block hold fields, word 7 is the reference to the next one. */
enum { LINK = 7, FIELDS = 7, MOST_FIELDS = 1792 };

/* From the block *b of an object to the next. 3 where word 7 is null or no reference, 8 where it names no block, else 0. */
static inline uint32_t follow(const struct plain_regs *r, const uint32_t *words, const uint8_t *bytes, uint32_t *b)
{
    uint32_t next = words[8 * (size_t)(*b - 2) + LINK];
    if (!(bytes[*b - 2] >> LINK) || next == 0)
        return 3;
    if (!is_block(r->blocks, next))
        return 8;
    *b = next;
    return 0;
}

static inline struct plain_answer answered(uint32_t refusal, uint32_t value, uint32_t units)
{
    return (struct plain_answer){refusal, value, units};
}

/* Puts a block at the front of the grey list. */
static inline void grey(struct plain_regs *r, uint32_t *colours, uint32_t b)
{
    colours[b - 2] = r->grey;
    r->grey = b;
}

/* While marking, a white target is greyed. */
static inline void barrier(struct plain_regs *r, uint32_t *colours, uint32_t t)
{
    if (r->phase == MARKING && t != 0 && colours[t - 2] == WHITE)
        grey(r, colours, t);
}

/* The word becomes a reference to t. */
static inline void put_reference(uint32_t *words, uint8_t *bytes, uint32_t b, uint32_t w, uint32_t t)
{
    words[8 * (size_t)(b - 2) + w] = t;
    bytes[b - 2] |= 1u << w;
}

#endif
