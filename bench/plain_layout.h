/* What a number and a colour word mean on a heap of m blocks, the refusals 1 and 2, and what State tells: what the plain machine's
   calls and its audit share. */
#ifndef PLAIN_LAYOUT_H
#define PLAIN_LAYOUT_H

#include "plain.h"
#include <stdbool.h>

enum { IDLE, MARKING, SWEEPING };
static const uint32_t WHITE = 0, BLACK = 4294967295u, FREE = 4294967294u;

/* 2 to m + 1. */
static inline bool is_block(uint32_t m, uint32_t b)
{
    return b >= 2 && b <= m + 1;
}

/* 0 or a block. */
static inline bool is_block_or_none(uint32_t m, uint32_t b)
{
    return b == 0 || is_block(m, b);
}

/* The mark of a heap whose blocks were never handed out. */
enum { NONE_HANDED_OUT = 1 };

/* A colour word that is 1 or a block. */
static inline bool is_grey(uint32_t m, uint32_t word)
{
    return word >= 1 && word <= m + 1;
}

/* A colour word of the layout. */
static inline bool is_legal(uint32_t m, uint32_t word)
{
    return word == WHITE || word >= FREE || is_grey(m, word);
}

/* A colour word of the layout that isn't free. */
static inline bool is_allocated(uint32_t m, uint32_t word)
{
    return word != FREE && is_legal(m, word);
}

/* Whether M, U and the lengths fit. */
static inline bool fits(uint32_t m, uint32_t u, size_t words_length, size_t colours_length, size_t bytes_length)
{
    return m >= 1 && m <= 16384 && u <= 65535 && words_length == 8 * (size_t)m && colours_length == m && bytes_length == m;
}

/* Whether the registers are legal. */
static inline bool legal(const struct plain_regs *r)
{
    uint32_t m = r->blocks;
    return r->phase <= SWEEPING && (r->grey == 1 || (r->phase == MARKING && is_block(m, r->grey))) &&
           is_block_or_none(m, r->free) && is_block_or_none(m, r->root) && r->count <= m && r->mark >= 1 && r->mark <= m + 1 &&
           (r->phase == SWEEPING ? r->position >= 2 && r->position <= r->mark : r->position == 0);
}

/* 1, 2 or 0. */
static inline uint32_t entry(const struct plain_regs *r, size_t words_length, size_t colours_length, size_t bytes_length)
{
    if (!fits(r->blocks, r->pace, words_length, colours_length, bytes_length))
        return 1;
    return legal(r) ? 0 : 2;
}

/* The numbers by which State tells what a number is, and Why the colour of a block. */
enum { TOLD_LIVE_WHITE = 1, TOLD_DOOMED, TOLD_GREY, TOLD_BLACK, TOLD_FREE, TOLD_OUTSIDE };

static inline uint32_t told(const struct plain_regs *r, const uint32_t *colours, uint32_t b)
{
    if (!is_block(r->blocks, b))
        return TOLD_OUTSIDE;
    uint32_t word = colours[b - 2];
    if (word == WHITE)
        return r->phase == SWEEPING && b >= r->position ? TOLD_DOOMED : TOLD_LIVE_WHITE;
    if (word == BLACK)
        return TOLD_BLACK;
    if (word == FREE)
        return TOLD_FREE;
    return is_grey(r->blocks, word) ? TOLD_GREY : TOLD_OUTSIDE;
}

/* What the audit finds out, for Save too. */
bool plain_is_well_formed(const struct plain_regs *r, PLAIN_SEEN);

#endif
