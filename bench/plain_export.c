/* The exports of the plain machine: the rows of a list to a lent buffer, each tested before it is written. See plain.h. */
#include "plain_words.h"
#include <string.h>

/* Why an export stops, as the library's header numbers it. */
enum { CIRCLE = 1, NO_ROOM, REFUSED, NO_REFERENCE };

static struct plain_export_answer stopped(uint32_t rows, uint32_t reason, uint32_t refusal)
{
    return (struct plain_export_answer){.rows = rows, .reason = reason, .refusal = refusal};
}

struct plain_export_answer plain_export(const struct plain_regs *r, PLAIN_SEEN, uint32_t *out, size_t out_length, uint32_t start,
                                        uint32_t link)
{
    uint32_t e = entry(r, words_length, colours_length, bytes_length), rows = 0;
    for (uint32_t b = start; b != 0; rows++) {
        if (rows == r->blocks)
            return stopped(rows, CIRCLE, 0);
        if (8 * (size_t)rows + 8 > out_length)
            return stopped(rows, NO_ROOM, 0);
        if (e == 0)
            e = is_block(r->blocks, b) && link < 8 ? standing(r, colours, b, 5) : 3;
        if (e)
            return stopped(rows, REFUSED, e);
        if (!(bytes[b - 2] >> link & 1))
            return stopped(rows, NO_REFERENCE, 0);
        memcpy(out + 8 * (size_t)rows, words + 8 * (size_t)(b - 2), 32);
        b = words[8 * (size_t)(b - 2) + link];
    }
    return (struct plain_export_answer){.complete = 1, .rows = rows};
}

/* The first `fields` fields of the object b: answers the refusal that reading them in order gives, or 0, and whether field `link`
   is a reference. */
static uint32_t row_refusal(const struct plain_regs *r, const uint32_t *words, const uint32_t *colours, const uint8_t *bytes,
                            uint32_t b, uint32_t fields, uint32_t link, bool *reference)
{
    uint32_t linked = link / FIELDS, last = (fields - 1) / FIELDS;
    for (uint32_t i = 0;; i++) {
        uint32_t e = standing(r, colours, b, 5);
        if (i == linked)
            *reference = bytes[b - 2] >> link % FIELDS & 1;
        if (e == 0 && i < last)
            e = follow(r, words, bytes, &b);
        if (e || i == last)
            return e;
    }
}

/* The same fields to `to`, where nothing refuses them: block by block, and then what is left of them. */
static void copy_row(const uint32_t *words, uint32_t b, uint32_t fields, uint32_t *to)
{
    for (; fields >= FIELDS; fields -= FIELDS, to += FIELDS) {
        const uint32_t *block = words + 8 * (size_t)(b - 2);
        memcpy(to, block, 4 * FIELDS);
        b = block[LINK];
    }
    for (uint32_t k = 0; k < fields; k++)
        to[k] = words[8 * (size_t)(b - 2) + k];
}

struct plain_export_answer plain_export_objects(const struct plain_regs *r, PLAIN_SEEN, uint32_t *out, size_t out_length,
                                                uint32_t start, uint32_t fields, uint32_t link)
{
    uint32_t e = entry(r, words_length, colours_length, bytes_length), rows = 0;
    if (fields == 0 || fields > MOST_FIELDS || link >= fields)
        return stopped(0, REFUSED, 3);
    for (uint32_t b = start; b != 0; rows++) {
        uint32_t *row = out + fields * (size_t)rows;
        bool reference = false;
        if (rows == r->blocks)
            return stopped(rows, CIRCLE, 0);
        if (fields * (size_t)rows + fields > out_length)
            return stopped(rows, NO_ROOM, 0);
        if (e == 0)
            e = is_block(r->blocks, b) ? row_refusal(r, words, colours, bytes, b, fields, link, &reference) : 3;
        if (e)
            return stopped(rows, REFUSED, e);
        if (!reference)
            return stopped(rows, NO_REFERENCE, 0);
        copy_row(words, b, fields, row);
        b = row[link];
    }
    return (struct plain_export_answer){.complete = 1, .rows = rows};
}
