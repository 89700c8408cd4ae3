/* What is wrong with an image that Load turned down. */
#ifndef FAULT_H
#define FAULT_H

#include "image.h"

enum { FAULT_ROOM = 400 };

/* Writes one sentence without an end to `text`: it begins with "length: ", "registers: " or "contents: ". */
void fault_find(const struct image *image, char text[FAULT_ROOM]);

/* Says that the image was not accepted and why, and returns STATUS_NO. */
enum status fault_say(const struct image *image);

#endif
