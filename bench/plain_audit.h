/* Whether a heap is well-formed, clause by clause, wherever it lies. Before this is included, define
       struct source                where the heap lies
       colour_at(s, b)              the colour word of the block b there
       word_at(s, b, w)             its word w
       byte_at(s, b)                its reference byte
   It has no guard: it is for a file of its own. */
#include "plain_layout.h"

/* Whether a white block is doomed. */
static bool doomed(const struct plain_regs *r, uint32_t word, uint32_t b)
{
    return r->phase == SWEEPING && b >= r->position && word == WHITE;
}

/* 0, or an allocated block that isn't doomed. */
static bool may_be_named(const struct plain_regs *r, const struct source *s, uint32_t b)
{
    if (b == 0)
        return true;
    return is_block(r->blocks, b) && is_allocated(r->blocks, colour_at(s, b)) && !doomed(r, colour_at(s, b), b);
}

/* Whether each reference of an allocated block may be named, and while marking a black block names no white one. */
static bool references_pass(const struct plain_regs *r, const struct source *s, uint32_t b, uint32_t rest, bool no_white)
{
    for (; rest != 0; rest &= rest - 1) {
        uint32_t t = word_at(s, b, (uint32_t)__builtin_ctz(rest));
        if (!may_be_named(r, s, t))
            return false;
        if (no_white && t != 0 && colour_at(s, t) == WHITE)
            return false;
    }
    return true;
}

/* Whether a free block is laid out as one, its link apart. */
static bool is_clear(const struct source *s, uint32_t b)
{
    return byte_at(s, b) == 0 && !(word_at(s, b, 1) | word_at(s, b, 2) | word_at(s, b, 3) | word_at(s, b, 4) | word_at(s, b, 5) |
                                   word_at(s, b, 6) | word_at(s, b, 7));
}

/* Whether a colour word may stand on the block b in this phase. */
static bool colour_passes(const struct plain_regs *r, uint32_t word, uint32_t b)
{
    if (word == BLACK)
        return r->phase == MARKING || (r->phase == SWEEPING && b >= r->position);
    if (is_grey(r->blocks, word))
        return r->phase == MARKING;
    return word == WHITE;
}

/* Whether the block b is as it must be, by itself. */
static bool block_passes(const struct plain_regs *r, const struct source *s, uint32_t b)
{
    uint32_t word = colour_at(s, b);
    if (word == FREE)
        return is_clear(s, b);
    if (b > r->mark || !colour_passes(r, word, b))
        return false;
    if (doomed(r, word, b))
        return true;
    return references_pass(r, s, b, byte_at(s, b), r->phase == MARKING && word == BLACK);
}

/* Whether the grey list has n blocks, all grey, and ends. */
static bool grey_list_passes(const struct plain_regs *r, const struct source *s, uint32_t n)
{
    uint32_t b = r->grey;
    for (; n > 0; n--) {
        if (!is_block(r->blocks, b) || !is_grey(r->blocks, colour_at(s, b)))
            return false;
        b = colour_at(s, b);
    }
    return b == 1;
}

/* Whether the free list has n blocks, all free, and ends, and the free count is n. */
static bool free_list_passes(const struct plain_regs *r, const struct source *s, uint32_t n)
{
    uint32_t b = r->free;
    if (n != r->count)
        return false;
    for (; n > 0; n--) {
        if (!is_block(r->blocks, b) || colour_at(s, b) != FREE)
            return false;
        b = word_at(s, b, 0);
    }
    return b == 0;
}

/* Whether the root may be named, and isn't white while marking. */
static bool root_passes(const struct plain_regs *r, const struct source *s)
{
    if (!may_be_named(r, s, r->root))
        return false;
    return !(r->phase == MARKING && r->root != 0 && colour_at(s, r->root) == WHITE);
}

/* Whether every clause holds, where M, U, the lengths and the registers do. A list that ends after as many blocks as there are of
   its colour has them all: a block met twice would be met again and again, and the list would not end. */
static bool contents_pass(const struct plain_regs *r, const struct source *s)
{
    uint32_t greys = 0, frees = 0;
    for (uint32_t b = 2; b <= r->blocks + 1; b++) {
        if (!block_passes(r, s, b))
            return false;
        greys += is_grey(r->blocks, colour_at(s, b));
        frees += colour_at(s, b) == FREE;
    }
    return grey_list_passes(r, s, greys) && free_list_passes(r, s, frees) && root_passes(r, s);
}
