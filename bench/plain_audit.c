/* The audit of the plain machine, on a heap in its three buffers. */
#include <stddef.h>
#include <stdint.h>

struct source {
    const uint32_t *words, *colours;
    const uint8_t *bytes;
};

static inline uint32_t colour_at(const struct source *s, uint32_t b)
{
    return s->colours[b - 2];
}

static inline uint32_t word_at(const struct source *s, uint32_t b, uint32_t w)
{
    return s->words[8 * (size_t)(b - 2) + w];
}

static inline uint32_t byte_at(const struct source *s, uint32_t b)
{
    return s->bytes[b - 2];
}

#include "plain_audit.h"

bool plain_is_well_formed(const struct plain_regs *r, PLAIN_SEEN)
{
    struct source s = {words, colours, bytes};
    return entry(r, words_length, colours_length, bytes_length) == 0 && contents_pass(r, &s);
}

struct plain_answer plain_audit(const struct plain_regs *r, PLAIN_SEEN)
{
    return (struct plain_answer){.value = plain_is_well_formed(r, words, words_length, colours, colours_length, bytes, bytes_length)};
}
