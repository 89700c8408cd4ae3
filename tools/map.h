/* The map of a heap, in SVG: every block a small square in the colour of its state, row by row. The picture and the page have the same
   map. Up to 1,024 blocks the squares have room for their numbers; beyond that the margins tell which block is where.

   The states differ in print without colour, too: live white and black are white and black, grey is between them (and violet, so that
   the few grey blocks are found), a free block is pale and has no frame, and a doomed one is crossed out. The page has its own colours
   for a dark screen, by the classes white, doomed, grey, black and free. */
#ifndef MAP_H
#define MAP_H

#include "ask.h"
#include <stdio.h>

struct map {
    uint32_t blocks, columns, rows;
    uint32_t cell, side;   /* from one square to the next, and of a square itself */
    uint32_t left, top;    /* of the first square */
    uint32_t width, height;
    int numbered;          /* the squares have their numbers in them */
};

/* The map of so many blocks, with its margins, so that the whole of it begins at (x, y). */
struct map map_at(uint32_t blocks, uint32_t x, uint32_t y);

/* The squares, with the margins where the squares have no numbers. */
void map_blocks(FILE *out, const struct map *map, const struct dergamoyne_heap *heap);

/* The numbers where they have. They come after the path, so that they stay readable. */
void map_numbers(FILE *out, const struct map *map, const struct dergamoyne_heap *heap);

/* The path to a block. */
void map_path(FILE *out, const struct map *map, const struct reason *found, uint32_t block);

/* The marks of the root, and of the block that was asked for. */
void map_root(FILE *out, const struct map *map, uint32_t block);
void map_asked(FILE *out, const struct map *map, uint32_t block);

/* What map_path needs, once in a picture. */
void map_arrow(FILE *out);

/* For a legend: a square of a state, and the marks, with their upper left corner there. A mark is as on this map. */
enum { MAP_SAMPLE = 16 };
void map_state_sample(FILE *out, uint32_t state, uint32_t x, uint32_t y);
void map_root_sample(FILE *out, const struct map *map, uint32_t x, uint32_t y);
void map_asked_sample(FILE *out, const struct map *map, uint32_t x, uint32_t y);

#endif
