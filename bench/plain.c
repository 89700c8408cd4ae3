/* The block machine of document 01 in plain C, every test in: its calls, the audit and the export apart; and the allocation of
   chained objects. See plain.h. */
#include "plain_words.h"
#include <string.h>

/* ---- refusals ---- */

/* The refusal of a call that reads or writes a number at word w of the block b: 1, 2, 3, 8, 5 or 0. */
static uint32_t word_refusal(const struct plain_regs *r, size_t words_length, const uint32_t *colours, size_t colours_length,
                             size_t bytes_length, uint32_t b, uint32_t w)
{
    uint32_t e = entry(r, words_length, colours_length, bytes_length);
    if (e)
        return e;
    if (!is_block(r->blocks, b) || w > 7)
        return 3;
    return standing(r, colours, b, 5);
}

/* ---- the calls that do no units ---- */

struct plain_answer plain_format(struct plain_regs *r, PLAIN_LENT, uint32_t m, uint32_t u)
{
    if (!fits(m, u, words_length, colours_length, bytes_length))
        return answered(1, 0, 0);
    for (uint32_t i = 0; i < m; i++) {
        memset(words + 8 * (size_t)i, 0, 32);
        words[8 * (size_t)i] = i == m - 1 ? 0 : i + 3;
        colours[i] = FREE;
    }
    memset(bytes, 0, m);
    *r = (struct plain_regs){.blocks = m, .pace = u, .grey = 1, .free = 2, .count = m, .mark = NONE_HANDED_OUT};
    return answered(0, 0, 0);
}

struct plain_read_answer plain_read(const struct plain_regs *r, PLAIN_SEEN, uint32_t b, uint32_t w)
{
    uint32_t e = word_refusal(r, words_length, colours, colours_length, bytes_length, b, w);
    if (e)
        return (struct plain_read_answer){.refusal = e};
    return (struct plain_read_answer){.value = words[8 * (size_t)(b - 2) + w], .reference = bytes[b - 2] >> w & 1};
}

struct plain_look_answer plain_look(const struct plain_regs *r, PLAIN_SEEN, uint32_t b)
{
    (void)words, (void)bytes;
    uint32_t e = word_refusal(r, words_length, colours, colours_length, bytes_length, b, 0);
    return (struct plain_look_answer){e, e ? UINT32_MAX : 8 * (b - 2)};
}

struct plain_answer plain_state(const struct plain_regs *r, PLAIN_SEEN, uint32_t b)
{
    (void)words, (void)bytes;
    uint32_t e = entry(r, words_length, colours_length, bytes_length);
    return answered(e, e ? 0 : told(r, colours, b), 0);
}

struct plain_answer plain_store_number(struct plain_regs *r, PLAIN_LENT, uint32_t b, uint32_t w, uint32_t v)
{
    uint32_t e = word_refusal(r, words_length, colours, colours_length, bytes_length, b, w);
    if (e)
        return answered(e, 0, 0);
    words[8 * (size_t)(b - 2) + w] = v;
    bytes[b - 2] &= ~(1u << w);
    return answered(0, 0, 0);
}

struct plain_answer plain_store_reference(struct plain_regs *r, PLAIN_LENT, uint32_t b, uint32_t w, uint32_t t)
{
    uint32_t e = entry(r, words_length, colours_length, bytes_length);
    if (e)
        return answered(e, 0, 0);
    if (!is_block(r->blocks, b) || w > 7)
        return answered(3, 0, 0);
    if (!is_block_or_none(r->blocks, t))
        return answered(4, 0, 0);
    e = standing(r, colours, b, 5);
    if (e)
        return answered(e, 0, 0);
    e = t == 0 ? 0 : standing(r, colours, t, 6);
    if (e)
        return answered(e, 0, 0);
    barrier(r, colours, t);
    put_reference(words, bytes, b, w, t);
    return answered(0, 0, 0);
}

struct plain_answer plain_set_root(struct plain_regs *r, PLAIN_LENT, uint32_t t)
{
    (void)words, (void)bytes;
    uint32_t e = entry(r, words_length, colours_length, bytes_length);
    if (e)
        return answered(e, 0, 0);
    if (!is_block_or_none(r->blocks, t))
        return answered(4, 0, 0);
    e = t == 0 ? 0 : standing(r, colours, t, 6);
    if (e)
        return answered(e, 0, 0);
    barrier(r, colours, t);
    r->root = t;
    return answered(0, 0, 0);
}

/* ---- the collector: each unit answers whether it was done; where it wasn't, it has met what refusal 8 names ---- */

/* Whether each of a block's references is 0 or names an allocated block. `rest` is its reference byte. */
static bool may_mark(uint32_t m, const uint32_t *part, const uint32_t *colours, uint32_t rest)
{
    for (; rest != 0; rest &= rest - 1) {
        uint32_t t = part[__builtin_ctz(rest)];
        if (t != 0 && !(is_block(m, t) && is_allocated(m, colours[t - 2])))
            return false;
    }
    return true;
}

/* Greys the white blocks that a block's references name, in the order of its words. */
static void grey_named(struct plain_regs *r, const uint32_t *part, uint32_t *colours, uint32_t rest)
{
    for (; rest != 0; rest &= rest - 1) {
        uint32_t t = part[__builtin_ctz(rest)];
        if (t != 0 && colours[t - 2] == WHITE)
            grey(r, colours, t);
    }
}

/* Marks the first grey block. */
static bool mark_grey(struct plain_regs *r, const uint32_t *words, uint32_t *colours, const uint8_t *bytes)
{
    uint32_t b = r->grey, next = colours[b - 2], byte = bytes[b - 2];
    const uint32_t *part = words + 8 * (size_t)(b - 2);
    if (!is_grey(r->blocks, next) || !may_mark(r->blocks, part, colours, byte))
        return false;
    colours[b - 2] = BLACK;
    r->grey = next;
    grey_named(r, part, colours, byte);
    return true;
}

/* The position moves on; after the mark the heap is idle. */
static void advance(struct plain_regs *r)
{
    if (r->position == r->mark) {
        r->phase = IDLE;
        r->position = 0;
    } else {
        r->position++;
    }
}

/* Puts the block at the position at the front of the free list. */
static void release(struct plain_regs *r, uint32_t *words, uint32_t *colours, uint8_t *bytes)
{
    uint32_t b = r->position;
    uint32_t *part = words + 8 * (size_t)(b - 2);
    memset(part, 0, 32);
    part[0] = r->free;
    colours[b - 2] = FREE;
    bytes[b - 2] = 0;
    r->free = b;
    r->count++;
}

/* Sweeps the block at the position. */
static bool sweep(struct plain_regs *r, uint32_t *words, uint32_t *colours, uint8_t *bytes)
{
    uint32_t word = colours[r->position - 2];
    if (word == WHITE) {
        if (r->count == r->blocks)
            return false;
        release(r, words, colours, bytes);
    } else if (word == BLACK) {
        colours[r->position - 2] = WHITE;
    } else if (word != FREE) {
        return false;
    }
    advance(r);
    return true;
}

/* Starts a cycle. */
static bool start(struct plain_regs *r, uint32_t *colours)
{
    if (r->root != 0 && colours[r->root - 2] != WHITE)
        return false;
    r->cycle++;
    r->phase = MARKING;
    if (r->root != 0)
        grey(r, colours, r->root);
    return true;
}

/* Turns to the sweep. Where no block was ever handed out there is nothing to sweep, and the cycle ends. */
static bool turn(struct plain_regs *r)
{
    if (r->mark == NONE_HANDED_OUT) {
        r->phase = IDLE;
    } else {
        r->phase = SWEEPING;
        r->position = 2;
    }
    return true;
}

/* One unit. */
static bool unit(struct plain_regs *r, uint32_t *words, uint32_t *colours, uint8_t *bytes)
{
    if (r->phase == SWEEPING)
        return sweep(r, words, colours, bytes);
    if (r->phase == IDLE)
        return start(r, colours);
    return r->grey != 1 ? mark_grey(r, words, colours, bytes) : turn(r);
}

/* At most n units; answers how many were done. */
static uint32_t run(struct plain_regs *r, uint32_t *words, uint32_t *colours, uint8_t *bytes, uint32_t n)
{
    uint32_t i = 0;
    while (i < n && unit(r, words, colours, bytes))
        i++;
    return i;
}

struct plain_answer plain_work(struct plain_regs *r, PLAIN_LENT, uint32_t n)
{
    uint32_t e = entry(r, words_length, colours_length, bytes_length);
    if (e)
        return answered(e, 0, 0);
    if (n > 65535)
        return answered(9, 0, 0);
    uint32_t done = run(r, words, colours, bytes, n);
    return answered(done == n ? 0 : 8, 0, done);
}

/* ---- Allocate ---- */

/* How many units an Allocate does. */
static uint32_t units_due(const struct plain_regs *r)
{
    if (r->pace != 0)
        return r->pace;
    uint32_t free = r->count == 0 ? 1 : r->count;
    return 2 * ((r->blocks + free - 1) / free);
}

/* 7 or 8 where no block can be taken, else 0. */
static uint32_t list_refusal(const struct plain_regs *r, const uint32_t *words, const uint32_t *colours)
{
    if (r->free == 0)
        return r->count == 0 ? 7 : 8;
    if (r->count == 0 || colours[r->free - 2] != FREE)
        return 8;
    return is_block_or_none(r->blocks, words[8 * (size_t)(r->free - 2)]) ? 0 : 8;
}

/* A block was handed out. */
static void raise_mark(struct plain_regs *r, uint32_t b)
{
    if (b > r->mark)
        r->mark = b;
}

/* Takes the first free block and answers it. */
static uint32_t take(struct plain_regs *r, uint32_t *words, uint32_t *colours)
{
    uint32_t x = r->free;
    bool black = r->phase == MARKING || (r->phase == SWEEPING && x >= r->position);
    r->free = words[8 * (size_t)(x - 2)];
    r->count--;
    words[8 * (size_t)(x - 2)] = 0;
    colours[x - 2] = black ? BLACK : WHITE;
    raise_mark(r, x);
    return x;
}

struct plain_answer plain_allocate(struct plain_regs *r, PLAIN_LENT, uint32_t b, uint32_t w)
{
    uint32_t e = entry(r, words_length, colours_length, bytes_length);
    if (e)
        return answered(e, 0, 0);
    if (b == 0 ? w != 0 : !is_block(r->blocks, b) || w > 7)
        return answered(3, 0, 0);
    uint32_t due = units_due(r), done = run(r, words, colours, bytes, due);
    if (done != due)
        return answered(8, 0, done);
    e = b == 0 ? 0 : standing(r, colours, b, 5);
    if (e == 0)
        e = list_refusal(r, words, colours);
    if (e)
        return answered(e, 0, done);
    uint32_t x = take(r, words, colours);
    if (b == 0)
        r->root = x;
    else
        put_reference(words, bytes, b, w, x);
    return answered(0, x, done);
}

/* ---- Allocate chain ---- */

enum { MOST_CHAIN = 256 };

/* Of a free list that has so many blocks by its count: 8 where it ends before the nth, or a block up to it is not coloured free or
   has a link that is neither 0 nor a block, else 0, and *last is the nth. */
static uint32_t walk_free(const struct plain_regs *r, const uint32_t *words, const uint32_t *colours, uint32_t n, uint32_t *last)
{
    uint32_t b = r->free;
    for (uint32_t i = 1; b != 0 && colours[b - 2] == FREE; i++) {
        uint32_t link = words[8 * (size_t)(b - 2)];
        if (!is_block_or_none(r->blocks, link))
            return 8;
        if (i == n) {
            *last = b;
            return 0;
        }
        b = link;
    }
    return 8;
}

/* 7 or 8 where no n blocks can be taken, else 0. The first n of a list are all different exactly where the nth is none of the
   earlier ones. */
static uint32_t chain_refusal(const struct plain_regs *r, const uint32_t *words, const uint32_t *colours, uint32_t n)
{
    uint32_t last;
    if ((r->free == 0) != (r->count == 0))
        return 8;
    if (r->count < n)
        return 7;
    if (walk_free(r, words, colours, n, &last))
        return 8;
    for (uint32_t i = 1, b = r->free; i < n; i++, b = words[8 * (size_t)(b - 2)])
        if (b == last)
            return 8;
    return 0;
}

/* Takes the first n free blocks, each naming the next by its word 7, and answers the first. */
static uint32_t take_chain(struct plain_regs *r, uint32_t *words, uint32_t *colours, uint8_t *bytes, uint32_t n)
{
    uint32_t first = r->free, b = first;
    uint32_t black_from = r->phase == MARKING ? 0 : r->phase == SWEEPING ? r->position : UINT32_MAX;
    r->count -= n;
    for (;; n--) {
        uint32_t *part = words + 8 * (size_t)(b - 2), next = part[0];
        part[0] = 0;
        part[LINK] = n == 1 ? 0 : next;
        bytes[b - 2] |= 1u << LINK;
        colours[b - 2] = b >= black_from ? BLACK : WHITE;
        raise_mark(r, b);
        if (n == 1) {
            r->free = next;
            return first;
        }
        b = next;
    }
}

struct plain_answer plain_allocate_chain(struct plain_regs *r, PLAIN_LENT, uint32_t b, uint32_t w, uint32_t n)
{
    uint32_t e = entry(r, words_length, colours_length, bytes_length);
    if (e)
        return answered(e, 0, 0);
    if ((b == 0 ? w != 0 : !is_block(r->blocks, b) || w > 7) || n == 0 || n > MOST_CHAIN)
        return answered(3, 0, 0);
    uint32_t due = n * units_due(r), done = run(r, words, colours, bytes, due);
    if (done != due)
        return answered(8, 0, done);
    e = b == 0 ? 0 : standing(r, colours, b, 5);
    if (e == 0)
        e = chain_refusal(r, words, colours, n);
    if (e)
        return answered(e, 0, done);
    uint32_t x = take_chain(r, words, colours, bytes, n);
    if (b == 0)
        r->root = x;
    else
        put_reference(words, bytes, b, w, x);
    return answered(0, x, done);
}
