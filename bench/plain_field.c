/* The fields of chained objects, of the plain machine: read and both stores. Field k stands in block k/7 of the object, word k mod
   7; word 7 is the reference to the next block. See plain.h. */
#include "plain_words.h"

/* 3 for a block that there is not, or a field that no object has, else 0. */
static uint32_t field_refusal(uint32_t m, uint32_t b, uint32_t k)
{
    return is_block(m, b) && k < MOST_FIELDS ? 0 : 3;
}

/* Walks from the block *b on to the one that has field k. Answers the refusal met, or 0. */
static uint32_t walk(const struct plain_regs *r, const uint32_t *words, const uint32_t *colours, const uint8_t *bytes, uint32_t *b,
                     uint32_t k)
{
    for (uint32_t left = k / FIELDS; left != 0; left--) {
        uint32_t e = standing(r, colours, *b, 5);
        if (e == 0)
            e = follow(r, words, bytes, b);
        if (e)
            return e;
    }
    return standing(r, colours, *b, 5);
}

struct plain_read_answer plain_read_field(const struct plain_regs *r, PLAIN_SEEN, uint32_t b, uint32_t k)
{
    uint32_t e = entry(r, words_length, colours_length, bytes_length), w = k % FIELDS;
    if (e == 0)
        e = field_refusal(r->blocks, b, k);
    if (e == 0)
        e = walk(r, words, colours, bytes, &b, k);
    if (e)
        return (struct plain_read_answer){.refusal = e};
    return (struct plain_read_answer){.value = words[8 * (size_t)(b - 2) + w], .reference = bytes[b - 2] >> w & 1};
}

struct plain_answer plain_store_field_number(struct plain_regs *r, PLAIN_LENT, uint32_t b, uint32_t k, uint32_t v)
{
    uint32_t e = entry(r, words_length, colours_length, bytes_length), w = k % FIELDS;
    if (e == 0)
        e = field_refusal(r->blocks, b, k);
    if (e == 0)
        e = walk(r, words, colours, bytes, &b, k);
    if (e)
        return answered(e, 0, 0);
    words[8 * (size_t)(b - 2) + w] = v;
    bytes[b - 2] &= ~(1u << w);
    return answered(0, 0, 0);
}

struct plain_answer plain_store_field_reference(struct plain_regs *r, PLAIN_LENT, uint32_t b, uint32_t k, uint32_t t)
{
    uint32_t e = entry(r, words_length, colours_length, bytes_length);
    if (e == 0)
        e = field_refusal(r->blocks, b, k);
    if (e == 0 && !is_block_or_none(r->blocks, t))
        e = 4;
    if (e == 0)
        e = walk(r, words, colours, bytes, &b, k);
    if (e == 0 && t != 0)
        e = standing(r, colours, t, 6);
    if (e)
        return answered(e, 0, 0);
    barrier(r, colours, t);
    put_reference(words, bytes, b, k % FIELDS, t);
    return answered(0, 0, 0);
}
