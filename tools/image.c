/* A file that may be the image of a heap. See image.h. */
#include "image.h"
#include <errno.h>
#include <string.h>

uint32_t image_number(const struct image *image, size_t at)
{
    const uint8_t *from = image->bytes + at;
    return from[0] | (uint32_t)from[1] << 8 | (uint32_t)from[2] << 16 | (uint32_t)from[3] << 24;
}

/* Reads an open file. */
static enum status read_from(struct image *image, FILE *file)
{
    errno = 0;
    image->length = fread(image->bytes, 1, sizeof image->bytes, file);
    if (ferror(file))
        return say(STATUS_TROUBLE, "%s: %s", image->name, errno != 0 ? strerror(errno) : "it can't be read");
    return STATUS_YES;
}

enum status image_read(struct image *image, const char *name)
{
    FILE *file;
    enum status status;
    image->length = 0;
    image->name = name;
    if (strcmp(name, "-") == 0) {
        image->name = "standard input";
        return read_from(image, stdin);
    }
    file = fopen(name, "rb");
    if (file == NULL)
        return say(STATUS_TROUBLE, "%s: %s", name, strerror(errno));
    status = read_from(image, file);
    fclose(file);
    return status;
}

/* How many blocks of memory to lend for an image: as many as it says, or 1 where it can't have so many. */
static size_t blocks_to_lend(const struct image *image)
{
    uint32_t blocks = image->length < 8 ? 0 : image_number(image, 4);
    return blocks >= 1 && blocks <= DERGAMOYNE_MOST_BLOCKS ? blocks : 1;
}

enum status image_load(const struct image *image, struct dergamoyne_heap *heap)
{
    static uint32_t words[DERGAMOYNE_BLOCK_WORDS * DERGAMOYNE_MOST_BLOCKS], colours[DERGAMOYNE_MOST_BLOCKS];
    static uint8_t bytes[DERGAMOYNE_MOST_BLOCKS];
    size_t blocks = blocks_to_lend(image);
    enum dergamoyne_refusal refusal = dergamoyne_heap_lend_image(
        heap, image->bytes, image->length, words, DERGAMOYNE_BLOCK_WORDS * blocks, colours, blocks, bytes, blocks);
    if (refusal == DERGAMOYNE_OTHER_VERSION)
        return say(STATUS_TROUBLE, "%s", dergamoyne_refusal_text(refusal));
    return refusal == DERGAMOYNE_DONE ? STATUS_YES : STATUS_NO;
}
