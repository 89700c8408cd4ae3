/* The block machine of document 01 in plain C, every test in: what the proved calls are counted beside.

   The calls are those of the library's header, with the same arguments and answers, under the prefix plain_. The calls that
   only look take the record by a pointer to const, as C does it. The caller has the same duties: each pointer is
   aligned, not null, points to as many elements as the length after it says, and no two overlap. */
#ifndef PLAIN_H
#define PLAIN_H

#include <stddef.h>
#include <stdint.h>

/* mark is the highest block handed out since Format, 1 if there is none: the sweep ends there. It has nothing to do with marking. */
struct plain_regs {
    uint32_t blocks, pace, phase, grey, free, count, position, root, cycle, mark;
};

struct plain_answer {
    uint32_t refusal, value, units;
};

struct plain_read_answer {
    uint32_t refusal, value, units, reference;
};

struct plain_look_answer {
    uint32_t refusal, at;
};

struct plain_export_answer {
    uint32_t complete, rows, reason, refusal;
};

struct plain_why_answer {
    uint32_t refusal, reason, pairs, state;
};

/* The three lent buffers, each with its length: to be changed, and to be read only. */
#define PLAIN_LENT                                                                                                             \
    uint32_t *words, size_t words_length, uint32_t *colours, size_t colours_length, uint8_t *bytes, size_t bytes_length
#define PLAIN_SEEN                                                                                                             \
    const uint32_t *words, size_t words_length, const uint32_t *colours, size_t colours_length, const uint8_t *bytes,          \
        size_t bytes_length

struct plain_answer plain_format(struct plain_regs *r, PLAIN_LENT, uint32_t m, uint32_t u);
struct plain_read_answer plain_read(const struct plain_regs *r, PLAIN_SEEN, uint32_t b, uint32_t w);
struct plain_look_answer plain_look(const struct plain_regs *r, PLAIN_SEEN, uint32_t b);
struct plain_answer plain_state(const struct plain_regs *r, PLAIN_SEEN, uint32_t b);
struct plain_answer plain_store_number(struct plain_regs *r, PLAIN_LENT, uint32_t b, uint32_t w, uint32_t v);
struct plain_answer plain_store_reference(struct plain_regs *r, PLAIN_LENT, uint32_t b, uint32_t w, uint32_t t);
struct plain_answer plain_set_root(struct plain_regs *r, PLAIN_LENT, uint32_t t);
struct plain_answer plain_allocate(struct plain_regs *r, PLAIN_LENT, uint32_t b, uint32_t w);
struct plain_answer plain_work(struct plain_regs *r, PLAIN_LENT, uint32_t n);
struct plain_answer plain_audit(const struct plain_regs *r, PLAIN_SEEN);
struct plain_export_answer plain_export(const struct plain_regs *r, PLAIN_SEEN, uint32_t *out, size_t out_length, uint32_t start,
                                        uint32_t link);
struct plain_answer plain_allocate_chain(struct plain_regs *r, PLAIN_LENT, uint32_t b, uint32_t w, uint32_t n);
struct plain_read_answer plain_read_field(const struct plain_regs *r, PLAIN_SEEN, uint32_t b, uint32_t k);
struct plain_answer plain_store_field_number(struct plain_regs *r, PLAIN_LENT, uint32_t b, uint32_t k, uint32_t v);
struct plain_answer plain_store_field_reference(struct plain_regs *r, PLAIN_LENT, uint32_t b, uint32_t k, uint32_t t);
struct plain_export_answer plain_export_objects(const struct plain_regs *r, PLAIN_SEEN, uint32_t *out, size_t out_length,
                                                uint32_t start, uint32_t fields, uint32_t link);
struct plain_answer plain_save(const struct plain_regs *r, PLAIN_SEEN, uint8_t *out, size_t out_length);
struct plain_answer plain_load(struct plain_regs *r, PLAIN_LENT, const uint8_t *image, size_t image_length);
struct plain_why_answer plain_why(const struct plain_regs *r, PLAIN_SEEN, uint32_t *path, size_t path_length, uint32_t *queue,
                                  size_t queue_length, uint32_t *came, size_t came_length, uint32_t b);

#endif
