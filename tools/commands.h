/* The commands. Each writes what is asked for and returns the exit status; trouble is said. */
#ifndef COMMANDS_H
#define COMMANDS_H

#include "image.h"
#include "options.h"

/* Whether the image was accepted, and if not what is wrong with it. `heap` is NULL where it was not. */
enum status check_image(const struct image *image, const struct dergamoyne_heap *heap);

/* These are about a heap that was accepted. */
enum status list_heap(const struct dergamoyne_heap *heap, const struct options *options);
enum status tell_why(const struct dergamoyne_heap *heap, const struct options *options);
enum status write_page(const struct dergamoyne_heap *heap, const struct options *options);
enum status draw_picture(const struct dergamoyne_heap *heap, const struct options *options);

/* The block that a text names: STATUS_YES. STATUS_NO where the heap has no such block, STATUS_TROUBLE where the text is no number; either
   is said. */
enum status block_read(const struct dergamoyne_heap *heap, const char *text, uint32_t *block);

#endif
