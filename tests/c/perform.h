/* The calls of one machine, as an array of `struct call`. Before it is included, define
       MACHINE(name)     the name of a call or of a struct: MACHINE(read), struct MACHINE(regs), ..
       MACHINE_SEEN(r)   how the record r goes to a call that only looks
       PERFORM(name)     a name for the function that does the call
       PERFORMED         a name for the array
   It has no guard, so that a program can have two machines beside each other. */
#include "heap.h"

#define PERFORM_LENT h->words, h->words_length, h->colours, h->colours_length, h->bytes, h->bytes_length
#define PERFORM_RECORD ((struct MACHINE(regs) *)h->regs)
#define PERFORM_SEEN MACHINE_SEEN(*PERFORM_RECORD)
#define PERFORM_0
#define PERFORM_1 , x[0]
#define PERFORM_2 , x[0], x[1]
#define PERFORM_3 , x[0], x[1], x[2]
#define PERFORM_4 , x[0], x[1], x[2], x[3]

#define PERFORM_BY(name, result, ...)                                                                                          \
    static size_t PERFORM(name)(struct heap *h, const uint32_t *x, uint32_t *a)                                                \
    {                                                                                                                          \
        struct MACHINE(result) r = MACHINE(name)(__VA_ARGS__);                                                                 \
        (void)x;                                                                                                               \
        memcpy(a, &r, sizeof r);                                                                                               \
        return sizeof r / sizeof *a;                                                                                           \
    }
#define CHANGES(name, result, count, ...) PERFORM_BY(name, result, PERFORM_RECORD, PERFORM_LENT PERFORM_##count)
#define LOOKS(name, result, count, ...) PERFORM_BY(name, result, PERFORM_SEEN, PERFORM_LENT PERFORM_##count)
#define WRITES(name, result, count, ...) PERFORM_BY(name, result, PERFORM_SEEN, PERFORM_LENT, h->out, h->out_length PERFORM_##count)
#define SAVES(name, result, count, ...) PERFORM_BY(name, result, PERFORM_SEEN, PERFORM_LENT, h->image, h->image_length PERFORM_##count)
#define LOADS(name, result, count, ...) PERFORM_BY(name, result, PERFORM_RECORD, PERFORM_LENT, h->image, h->image_length PERFORM_##count)
#define SEARCHES(name, result, count, ...)                                                                                     \
    PERFORM_BY(name, result, PERFORM_SEEN, PERFORM_LENT, h->out, h->out_length, h->queue, h->queue_length, h->came,            \
               h->came_length PERFORM_##count)
#include "calls.h"
#undef CHANGES
#undef LOOKS
#undef WRITES
#undef SAVES
#undef LOADS
#undef SEARCHES

#define CHANGES(name, result, count, ...) {#name, count, 1, 4, PERFORM(name), {__VA_ARGS__}},
#define LOOKS CHANGES
#define WRITES CHANGES
#define SAVES(name, result, count, ...) {#name, count, 1, 1, PERFORM(name), {__VA_ARGS__}},
#define LOADS SAVES
#define SEARCHES(name, result, count, ...) {#name, count, 3, 4, PERFORM(name), {__VA_ARGS__}},
static const struct call PERFORMED[] = {
#include "calls.h"
};
#undef CHANGES
#undef LOOKS
#undef WRITES
#undef SAVES
#undef LOADS
#undef SEARCHES
#undef PERFORM_BY
#undef PERFORM_LENT
#undef PERFORM_RECORD
#undef PERFORM_SEEN
#undef PERFORM_0
#undef PERFORM_1
#undef PERFORM_2
#undef PERFORM_3
#undef PERFORM_4
