/* A heap as it is lent, and a call on it, for the programs that do every call by the same few words. */
#ifndef HEAP_H
#define HEAP_H

#include <stddef.h>
#include <stdint.h>
#include <string.h>

/* The memory of a heap: the record, the three buffers, and the further buffers of a call that takes some: out, for the words of an
   export or the pairs of a path, or image, for its bytes; and queue and came, in which a search works. A length counts elements. */
struct heap {
    void *regs;
    uint32_t *words, *colours, *out, *queue, *came;
    uint8_t *bytes, *image;
    size_t words_length, colours_length, bytes_length, out_length, image_length, queue_length, came_length;
};

/* What a number of a call is. A call without numbers has NONE, or SAVED where it reads an image. */
enum kind { NONE, BLOCKS, PACE, BLOCK, WORD, NUMBER, TARGET, HOLDER, UNITS, START, LENGTH, FIELD, FIELDS, SAVED };

/* The most numbers that a call takes, and the most that an answer has. */
enum { MOST_NUMBERS = 4, MOST_ANSWER = 8 };

/* A call of a machine: its name, how many numbers it takes, how many further buffers stand in a case of it (one, also where it takes
   none) and the bytes of an element of them, and a function that does it with the numbers x, writes its answer's numbers to a, and
   returns how many these are. */
struct call {
    const char *name;
    unsigned count, further, width;
    size_t (*perform)(struct heap *h, const uint32_t *x, uint32_t *a);
    enum kind numbers[MOST_NUMBERS];
};

#endif
