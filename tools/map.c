/* The map of a heap, in SVG. See map.h. */
#include "map.h"

#define BLUE "#0a58a8" /* of the root, the path and the block asked for */
#define SKY "#1f86e5"  /* of arrows, which have to be seen on white and on black */

/* How wide the map is for so many blocks, and how large its squares are. */
static const struct grain {
    uint32_t most, columns, cell, side;
    int numbered;
} grains[] = {{128, 16, 40, 36, 1}, {1024, 32, 28, 25, 1}, {4096, 64, 14, 12, 0}, {DERGAMOYNE_MOST_BLOCKS, 128, 7, 6, 0}};

/* The margins of a map that isn't numbered. */
enum { MARGIN_LEFT = 58, MARGIN_TOP = 26, LABEL_GAP = 13, LABEL_COLUMNS = 16, LABEL_PIXELS = 28 };

/* How a state looks: the square, and the number in it. */
static const struct look {
    const char *name, *fill, *frame, *ink;
} looks[] = {
    [DERGAMOYNE_STATE_LIVE_WHITE] = {"white", "#ffffff", "#222222", "#111111"},
    [DERGAMOYNE_STATE_DOOMED] = {"doomed", "#ffdfb8", "#a04000", "#111111"},
    [DERGAMOYNE_STATE_GREY] = {"grey", "#8f7cc4", "#222222", "#000000"},
    [DERGAMOYNE_STATE_BLACK] = {"black", "#111111", "#111111", "#ffffff"},
    [DERGAMOYNE_STATE_FREE] = {"free", "#dde4ec", "#dde4ec", "#4c5763"},
};

struct map map_at(uint32_t blocks, uint32_t x, uint32_t y)
{
    const struct grain *g = grains;
    struct map map;
    while (blocks > g->most)
        g++;
    map.blocks = blocks;
    map.columns = g->columns;
    map.rows = (blocks + g->columns - 1) / g->columns;
    map.cell = g->cell;
    map.side = g->side;
    map.numbered = g->numbered;
    map.left = x + (g->numbered ? 0 : MARGIN_LEFT);
    map.top = y + (g->numbered ? 0 : MARGIN_TOP);
    map.width = map.left - x + map.columns * map.cell;
    map.height = map.top - y + map.rows * map.cell;
    return map;
}


/* ---- where a block is ---- */

static uint32_t left_of(const struct map *map, uint32_t block)
{
    return map->left + (block - FIRST_BLOCK) % map->columns * map->cell;
}

static uint32_t top_of(const struct map *map, uint32_t block)
{
    return map->top + (block - FIRST_BLOCK) / map->columns * map->cell;
}

static double middle_x(const struct map *map, uint32_t block)
{
    return left_of(map, block) + map->side / 2.0;
}

static double middle_y(const struct map *map, uint32_t block)
{
    return top_of(map, block) + map->side / 2.0;
}


/* ---- squares: all of a state are one path ---- */

static void square(FILE *out, uint32_t x, uint32_t y, uint32_t side)
{
    fprintf(out, "M%u.5 %u.5h%uv%uh-%uz", (unsigned)x, (unsigned)y, (unsigned)side - 1, (unsigned)side - 1, (unsigned)side - 1);
}

/* A cross; in a large square only its four ends, so that the number stays readable. */
static void cross(FILE *out, uint32_t x, uint32_t y, uint32_t side)
{
    unsigned l = x, t = y, s = side, r = l + s, b = t + s, end = s / 5;
    if (side <= MAP_SAMPLE)
        fprintf(out, "M%u %ul%u %uM%u %ul-%u %u", l + 1, t + 1, s - 2, s - 2, r - 1, t + 1, s - 2, s - 2);
    else
        fprintf(out, "M%u %ul%u %uM%u %ul-%u %uM%u %ul%u-%uM%u %ul-%u-%u", l, t, end, end, r, t, end, end, l, b, end, end, r, b, end, end);
}

/* Where squares are small, dark frames would hide what is in them: those of white blocks are paler there, and grey blocks have none. */
static const char *frame_of(uint32_t state, uint32_t side)
{
    if (side < MAP_SAMPLE && state == DERGAMOYNE_STATE_LIVE_WHITE)
        return "#9aa1a9";
    if (side < MAP_SAMPLE && state == DERGAMOYNE_STATE_GREY)
        return looks[state].fill;
    return looks[state].frame;
}

static void open_squares(FILE *out, uint32_t state, uint32_t side)
{
    fprintf(out, "<path class=\"%s\" fill=\"%s\" stroke=\"%s\" d=\"", looks[state].name, looks[state].fill, frame_of(state, side));
}

static void open_crosses(FILE *out, uint32_t side)
{
    fprintf(out, "<path class=\"cross\" fill=\"none\" stroke=\"%s\" stroke-width=\"%s\" d=\"", looks[DERGAMOYNE_STATE_DOOMED].frame,
            side <= 8 ? "1" : "1.5");
}

/* Draws each block of a state by `draw`. */
static void each(FILE *out, const struct map *map, const struct dergamoyne_heap *heap, uint32_t state,
                 void (*draw)(FILE *out, uint32_t x, uint32_t y, uint32_t side))
{
    for (uint32_t b = FIRST_BLOCK; b <= last_block(heap); b++)
        if (state_of(heap, b) == state)
            draw(out, left_of(map, b), top_of(map, b), map->side);
    fputs("\"/>\n", out);
}

/* The numbers in the upper half of their squares: the lower one is for the words "root" and "why". */
static void numbers(FILE *out, const struct map *map, const struct dergamoyne_heap *heap, uint32_t state)
{
    unsigned size = map->cell >= 40 ? 13 : 10;
    fprintf(out, "<g class=\"on-%s\" fill=\"%s\" font-size=\"%u\" text-anchor=\"middle\">\n", looks[state].name, looks[state].ink,
            size);
    for (uint32_t b = FIRST_BLOCK; b <= last_block(heap); b++)
        if (state_of(heap, b) == state)
            fprintf(out, "<text x=\"%.1f\" y=\"%u\">%u</text>\n", middle_x(map, b), (unsigned)(top_of(map, b) + map->side / 2),
                    (unsigned)b);
    fputs("</g>\n", out);
}

/* The first block of rows on the left, and how far on the blocks of a column are above. */
static void margins(FILE *out, const struct map *map)
{
    uint32_t step = map->cell >= LABEL_PIXELS ? 1 : LABEL_PIXELS / map->cell;
    fputs("<g class=\"margin\" fill=\"#444444\" font-size=\"12\">\n", out);
    for (uint32_t row = 0; row < map->rows; row += step)
        fprintf(out, "<text x=\"%u\" y=\"%u\" text-anchor=\"end\">%u</text>\n", (unsigned)(map->left - LABEL_GAP),
                (unsigned)(map->top + row * map->cell + map->side / 2 + 4), (unsigned)(FIRST_BLOCK + row * map->columns));
    for (uint32_t column = 0; column < map->columns; column += LABEL_COLUMNS)
        fprintf(out, "<text x=\"%u\" y=\"%u\">+%u</text>\n", (unsigned)(map->left + column * map->cell), (unsigned)(map->top - LABEL_GAP),
                (unsigned)column);
    fputs("</g>\n", out);
}

void map_blocks(FILE *out, const struct map *map, const struct dergamoyne_heap *heap)
{
    struct counts counts = count_states(heap);
    if (!map->numbered)
        margins(out, map);
    for (uint32_t state = DERGAMOYNE_STATE_LIVE_WHITE; state <= DERGAMOYNE_STATE_FREE; state++) {
        if (counts.of[state] == 0)
            continue;
        open_squares(out, state, map->side);
        each(out, map, heap, state, square);
        if (state == DERGAMOYNE_STATE_DOOMED) {
            open_crosses(out, map->side);
            each(out, map, heap, state, cross);
        }
    }
}

void map_numbers(FILE *out, const struct map *map, const struct dergamoyne_heap *heap)
{
    struct counts counts = count_states(heap);
    for (uint32_t state = DERGAMOYNE_STATE_LIVE_WHITE; state <= DERGAMOYNE_STATE_FREE; state++)
        if (map->numbered && counts.of[state] > 0)
            numbers(out, map, heap, state);
}


/* ---- the path ---- */

void map_arrow(FILE *out)
{
    fputs("<defs><marker id=\"arrow\" viewBox=\"0 0 8 8\" refX=\"7\" refY=\"4\" markerWidth=\"8\" markerHeight=\"8\" "
          "markerUnits=\"userSpaceOnUse\" orient=\"auto\"><path d=\"M0 0L8 4L0 8z\" fill=\"" SKY "\"/></marker></defs>\n",
          out);
}

/* The block that a pair of the path leads to. */
static uint32_t next_on(const struct reason *found, uint32_t pair, uint32_t block)
{
    return pair + 1 < found->why.pairs ? found->path[pair + 1][0] : block;
}

static double magnitude(double x)
{
    return x < 0 ? -x : x;
}

/* How long (x, y) is, within four parts of a hundred. */
static double about_length(double x, double y)
{
    double a = magnitude(x), b = magnitude(y);
    return a > b ? 0.96 * a + 0.4 * b : 0.96 * b + 0.4 * a;
}

/* How much an arc of this length is bent, as a part of its length: not at all to the next square, and never by more than a square. */
static double bend_of(double length, double cell)
{
    if (length < 1.5 * cell)
        return 0;
    return 0.3 * length < 0.9 * cell ? 0.3 : 0.9 * cell / length;
}

/* An arc from one square to another, which leaves the numbers of both free. */
static void arc(FILE *out, const struct map *map, uint32_t from, uint32_t to)
{
    double x1 = middle_x(map, from), y1 = middle_y(map, from), x2 = middle_x(map, to), y2 = middle_y(map, to);
    double bend = bend_of(about_length(x2 - x1, y2 - y1), map->cell);
    double x = (x1 + x2) / 2 - bend * (y2 - y1), y = (y1 + y2) / 2 + bend * (x2 - x1);
    double aside = about_length(x - x1, y - y1), cut = aside == 0 ? 0 : 0.4 * map->side / aside;
    x1 += cut * (x - x1), y1 += cut * (y - y1);
    x2 += cut * (x - x2), y2 += cut * (y - y2);
    fprintf(out, "<path d=\"M%.1f %.1fQ%.1f %.1f %.1f %.1f\" marker-end=\"url(#arrow)\"/>\n", x1, y1, x, y, x2, y2);
}

static void arcs(FILE *out, const struct map *map, const struct reason *found, uint32_t block)
{
    fputs("<path fill=\"none\" stroke=\"" SKY "\" stroke-width=\"3\" d=\"", out);
    for (uint32_t i = 0; i < found->why.pairs; i++)
        square(out, left_of(map, found->path[i][0]), top_of(map, found->path[i][0]), map->side);
    fputs("\"/>\n<g fill=\"none\" stroke=\"" SKY "\" stroke-width=\"2.5\">\n", out);
    for (uint32_t i = 0; i < found->why.pairs; i++)
        arc(out, map, found->path[i][0], next_on(found, i, block));
    fputs("</g>\n", out);
}

/* One line over small squares, with a dot on each block of the path. If there are more pairs than this, it is a thin line without
   dots, so that the blocks below it are seen. */
enum { MANY_PAIRS = 300 };

static void line(FILE *out, const struct map *map, const struct reason *found, uint32_t block, const char *stroke)
{
    fprintf(out, "<path fill=\"none\" stroke-linejoin=\"round\" %s d=\"M", stroke);
    for (uint32_t i = 0; i < found->why.pairs; i++)
        fprintf(out, "%.0f %.0fL", middle_x(map, found->path[i][0]), middle_y(map, found->path[i][0]));
    fprintf(out, "%.0f %.0f\"/>\n", middle_x(map, block), middle_y(map, block));
}

static void dots(FILE *out, const struct map *map, const struct reason *found)
{
    fputs("<path fill=\"" BLUE "\" d=\"", out);
    for (uint32_t i = 0; i < found->why.pairs; i++)
        fprintf(out, "M%.0f %.0fm-2-2h4v4h-4z", middle_x(map, found->path[i][0]), middle_y(map, found->path[i][0]));
    fputs("\"/>\n", out);
}

void map_path(FILE *out, const struct map *map, const struct reason *found, uint32_t block)
{
    if (found->why.pairs == 0)
        return;
    if (map->numbered) {
        arcs(out, map, found, block);
        return;
    }
    if (found->why.pairs > MANY_PAIRS) {
        line(out, map, found, block, "stroke=\"" SKY "\" stroke-width=\"1\"");
        return;
    }
    line(out, map, found, block, "stroke=\"#ffffff\" stroke-width=\"4.5\"");
    line(out, map, found, block, "stroke=\"" BLUE "\" stroke-width=\"2\"");
    dots(out, map, found);
}


/* ---- marks ---- */

/* A frame, and a word below the number. */
static void frame(FILE *out, uint32_t x, uint32_t y, uint32_t side, uint32_t width)
{
    fprintf(out, "<path class=\"frame\" fill=\"none\" stroke=\"" BLUE "\" stroke-width=\"%u\" d=\"", (unsigned)width);
    square(out, x, y, side);
    fputs("\"/>\n", out);
}

static void word_below(FILE *out, const struct map *map, uint32_t block, const char *word)
{
    unsigned size = map->cell >= 40 ? 11 : 8;
    fprintf(out, "<text x=\"%.1f\" y=\"%u\" font-size=\"%u\" font-weight=\"bold\" text-anchor=\"middle\" fill=\"" BLUE "\" "
                 "stroke=\"#ffffff\" stroke-width=\"3\" stroke-linejoin=\"round\" paint-order=\"stroke\">%s</text>\n",
            middle_x(map, block), (unsigned)(top_of(map, block) + map->side - 5), size, word);
}

/* A ring or a diamond about a place, readable on any square. */
static void ring(FILE *out, double x, double y, double radius)
{
    fprintf(out, "<circle cx=\"%.1f\" cy=\"%.1f\" r=\"%.1f\" fill=\"none\" stroke=\"#ffffff\" stroke-width=\"5\"/>\n", x, y, radius);
    fprintf(out, "<circle cx=\"%.1f\" cy=\"%.1f\" r=\"%.1f\" fill=\"none\" stroke=\"" BLUE "\" stroke-width=\"2.5\"/>\n", x, y, radius);
}

static void diamond(FILE *out, double x, double y, double radius)
{
    static const char *const strokes[] = {"stroke=\"#ffffff\" stroke-width=\"5\"", "stroke=\"" BLUE "\" stroke-width=\"2.5\""};
    for (int i = 0; i < 2; i++)
        fprintf(out, "<path fill=\"none\" %s d=\"M%.1f %.1fL%.1f %.1fL%.1f %.1fL%.1f %.1fz\"/>\n", strokes[i], x, y - radius, x + radius, y,
                x, y + radius, x - radius, y);
}

void map_root(FILE *out, const struct map *map, uint32_t block)
{
    if (map->numbered) {
        frame(out, left_of(map, block), top_of(map, block), map->side, 4);
        word_below(out, map, block, "root");
    } else {
        ring(out, middle_x(map, block), middle_y(map, block), map->side / 2.0 + 5);
    }
}

void map_asked(FILE *out, const struct map *map, uint32_t block)
{
    if (map->numbered) {
        frame(out, left_of(map, block), top_of(map, block), map->side, 4);
        word_below(out, map, block, "why");
    } else {
        diamond(out, middle_x(map, block), middle_y(map, block), map->side / 2.0 + 7);
    }
}


/* ---- samples ---- */

void map_state_sample(FILE *out, uint32_t state, uint32_t x, uint32_t y)
{
    open_squares(out, state, MAP_SAMPLE);
    square(out, x, y, MAP_SAMPLE);
    fputs("\"/>\n", out);
    if (state == DERGAMOYNE_STATE_DOOMED) {
        open_crosses(out, MAP_SAMPLE);
        cross(out, x, y, MAP_SAMPLE);
        fputs("\"/>\n", out);
    }
}

void map_root_sample(FILE *out, const struct map *map, uint32_t x, uint32_t y)
{
    if (map->numbered)
        frame(out, x, y, MAP_SAMPLE, 3);
    else
        ring(out, x + MAP_SAMPLE / 2.0, y + MAP_SAMPLE / 2.0, MAP_SAMPLE / 2.0 - 1);
}

void map_asked_sample(FILE *out, const struct map *map, uint32_t x, uint32_t y)
{
    if (map->numbered)
        frame(out, x, y, MAP_SAMPLE, 3);
    else
        diamond(out, x + MAP_SAMPLE / 2.0, y + MAP_SAMPLE / 2.0, MAP_SAMPLE / 2.0);
}
