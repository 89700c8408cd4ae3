/* The words behind the command: files, a block, options. */
#ifndef OPTIONS_H
#define OPTIONS_H

#include "say.h"
#include <stdint.h>

struct options {
    const char *operands[2]; /* FILE, and with `why` BLOCK */
    const char *state;       /* --state, NULL where it isn't given; so with the others */
    const char *output;      /* -o, --output */
    const char *why;         /* --why */
};

/* What a command takes: so many operands, and the options of these letters, s, o and w. */
struct takes {
    int operands;
    const char *letters;
};

/* Reads them: options begin with "-", may stand anywhere, and end at "--". STATUS_TROUBLE, once that is said, where they are not as the
   command takes them. */
enum status options_read(struct options *options, const struct takes *takes, char **words);

/* The number that a text is: decimal digits alone. 1 where it is one; one too large for 32 bits becomes the largest, which is no
   block. */
int number_read(const char *text, uint32_t *number);

#endif
