/* A file that may be the image of a heap. Its bytes are not trusted: what it is decides Load alone. */
#ifndef IMAGE_H
#define IMAGE_H

#include "dergamoyne_heap.h"
#include "say.h"

/* The longest image there is. */
#define IMAGE_MOST DERGAMOYNE_IMAGE_BYTES(DERGAMOYNE_MOST_BLOCKS)

/* What was read of a file, one byte more than the longest image at most; the rest of a longer file stays unread. */
struct image {
    const char *name; /* for messages */
    size_t length;
    uint8_t bytes[IMAGE_MOST + 1];
};

/* How many registers an image has: since 0.7.0, and before. */
enum { IMAGE_REGISTERS = 10, IMAGE_EARLIER_REGISTERS = 9 };

/* The 32-bit number that begins at byte `at`, the lowest byte first. These four bytes have been read. */
uint32_t image_number(const struct image *image, size_t at);

/* Reads the file of this name, or standard input where it is "-". STATUS_TROUBLE, once that is said, where it can't be read. */
enum status image_read(struct image *image, const char *name);

/* The heap of the image, in memory of the program's own: STATUS_YES. STATUS_NO where Load turns the image down; then there is no heap,
   and nothing was said. STATUS_TROUBLE, once that is said, where the library is of another version. */
enum status image_load(const struct image *image, struct dergamoyne_heap *heap);

#endif
