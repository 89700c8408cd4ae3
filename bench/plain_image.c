/* Save and Load of the plain machine: a heap as bytes. An image is audited as it lies, before anything is written.

       0     the count of registers, n        behind them, at 4 + 4n:
       4     the registers                    0          the count of colours, M
                                              4          the colours
                                              4 + 4M     the count of reference bytes, M
                                              8 + 4M     the reference bytes
                                              8 + 5M     the count of words, 8M
                                              12 + 5M    the words

   n is 10. Images of earlier releases have 9, without the mark; they are read with the mark at M + 1. */
#include <stddef.h>
#include <stdint.h>
#include <string.h>

enum { REGISTERS = 10, EARLIER_REGISTERS = 9, COLOURS_AT = 4 };

static inline size_t blocks_at(uint32_t registers)
{
    return 4 + 4 * (size_t)registers;
}

static inline size_t bytes_at(uint32_t m)
{
    return 8 + 4 * (size_t)m;
}

static inline size_t words_at(uint32_t m)
{
    return 12 + 5 * (size_t)m;
}

static inline size_t image_length_of(uint32_t registers, uint32_t m)
{
    return blocks_at(registers) + 12 + 37 * (size_t)m;
}

/* The 32-bit number of four bytes, the lowest first. */
static inline uint32_t number_at(const uint8_t *from)
{
    return from[0] | (uint32_t)from[1] << 8 | (uint32_t)from[2] << 16 | (uint32_t)from[3] << 24;
}

static inline void put_number(uint8_t *to, uint32_t n)
{
    to[0] = (uint8_t)n;
    to[1] = (uint8_t)(n >> 8);
    to[2] = (uint8_t)(n >> 16);
    to[3] = (uint8_t)(n >> 24);
}

/* Where the sections of an image begin. */
struct source {
    const uint8_t *colours, *bytes, *words;
};

static inline uint32_t colour_at(const struct source *s, uint32_t b)
{
    return number_at(s->colours + 4 * (size_t)(b - 2));
}

static inline uint32_t word_at(const struct source *s, uint32_t b, uint32_t w)
{
    return number_at(s->words + 4 * (8 * (size_t)(b - 2) + w));
}

static inline uint32_t byte_at(const struct source *s, uint32_t b)
{
    return s->bytes[b - 2];
}

#include "plain_audit.h"

/* Whether an image of so many registers has the length of a heap of so many blocks, and the three counts behind its registers. */
static bool is_laid_out(const uint8_t *image, size_t image_length, uint32_t registers, uint32_t m)
{
    const uint8_t *blocks = image + blocks_at(registers);
    return m >= 1 && m <= 16384 && image_length == image_length_of(registers, m) && number_at(blocks + COLOURS_AT - 4) == m &&
           number_at(blocks + bytes_at(m) - 4) == m && number_at(blocks + words_at(m) - 4) == 8 * m;
}

/* The registers of an image that has so many. */
static struct plain_regs registers_of(const uint8_t *image, uint32_t registers)
{
    uint32_t x[REGISTERS];
    for (size_t i = 0; i < registers; i++)
        x[i] = number_at(image + 4 + 4 * i);
    if (registers == EARLIER_REGISTERS)
        x[9] = x[0] + 1;
    return (struct plain_regs){x[0], x[1], x[2], x[3], x[4], x[5], x[6], x[7], x[8], x[9]};
}

/* Writes a section of numbers, its count first. */
static void put_numbers(uint8_t *to, const uint32_t *from, size_t count)
{
    put_number(to, (uint32_t)count);
    for (size_t i = 0; i < count; i++)
        put_number(to + 4 + 4 * i, from[i]);
}

struct plain_answer plain_save(const struct plain_regs *r, PLAIN_SEEN, uint8_t *out, size_t out_length)
{
    uint32_t m = r->blocks;
    uint32_t x[REGISTERS] = {m, r->pace, r->phase, r->grey, r->free, r->count, r->position, r->root, r->cycle, r->mark};
    uint8_t *blocks;
    if (!fits(m, r->pace, words_length, colours_length, bytes_length))
        return (struct plain_answer){.refusal = 1};
    if (!plain_is_well_formed(r, words, words_length, colours, colours_length, bytes, bytes_length))
        return (struct plain_answer){.refusal = 10};
    if (out_length < image_length_of(REGISTERS, m))
        return (struct plain_answer){.refusal = 13};
    blocks = out + blocks_at(REGISTERS);
    put_numbers(out, x, REGISTERS);
    put_numbers(blocks + COLOURS_AT - 4, colours, m);
    put_number(blocks + bytes_at(m) - 4, m);
    memcpy(blocks + bytes_at(m), bytes, m);
    put_numbers(blocks + words_at(m) - 4, words, 8 * (size_t)m);
    return (struct plain_answer){0};
}

/* Where the image of a heap that the audit accepts has its blocks, and *r becomes its registers; NULL where it is none. */
static const uint8_t *blocks_of(const uint8_t *image, size_t image_length, struct plain_regs *r)
{
    uint32_t registers, m;
    const uint8_t *blocks;
    if (image_length < 4)
        return NULL;
    registers = number_at(image);
    if ((registers != REGISTERS && registers != EARLIER_REGISTERS) || image_length < image_length_of(registers, 1))
        return NULL;
    *r = registers_of(image, registers);
    m = r->blocks;
    blocks = image + blocks_at(registers);
    if (!is_laid_out(image, image_length, registers, m) || r->pace > 65535 || !legal(r) ||
        !contents_pass(r, &(struct source){blocks + COLOURS_AT, blocks + bytes_at(m), blocks + words_at(m)}))
        return NULL;
    return blocks;
}

struct plain_answer plain_load(struct plain_regs *r, PLAIN_LENT, const uint8_t *image, size_t image_length)
{
    struct plain_regs found;
    const uint8_t *blocks = blocks_of(image, image_length, &found);
    uint32_t m;
    if (blocks == NULL)
        return (struct plain_answer){.refusal = 10};
    m = found.blocks;
    if (words_length != 8 * (size_t)m || colours_length != m || bytes_length != m)
        return (struct plain_answer){.refusal = 13};
    *r = found;
    for (size_t i = 0; i < m; i++)
        colours[i] = number_at(blocks + COLOURS_AT + 4 * i);
    memcpy(bytes, blocks + bytes_at(m), m);
    for (size_t i = 0; i < 8 * (size_t)m; i++)
        words[i] = number_at(blocks + words_at(m) + 4 * i);
    return (struct plain_answer){0};
}
