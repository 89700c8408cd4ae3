/* The command picture: the map with its heading, its legend and, where a block is asked for, the path and the reason. */
#include "ask.h"
#include "commands.h"
#include "map.h"
#include <string.h>

enum { EDGE = 20, MAP_TOP = 126, LINE = 20, HOPS_SHOWN = 12, HOP_WIDTH = 150 };

/* What is drawn; `block` is 0 where none is asked for. */
struct picture {
    const struct dergamoyne_heap *heap;
    struct map map;
    uint32_t block;
    struct reason found;
    uint32_t width, height;
};

static uint32_t hops_shown(const struct picture *p)
{
    return p->found.why.pairs < HOPS_SHOWN ? p->found.why.pairs : HOPS_SHOWN;
}

/* How many hops a line below the map has room for. */
static uint32_t hops_in_line(const struct picture *p)
{
    return (p->width - 2 * EDGE) / HOP_WIDTH;
}

static uint32_t lines_below(const struct picture *p)
{
    if (p->block == 0)
        return 0;
    return 1 + (p->found.why.pairs == 0 ? 0 : hops_shown(p) / hops_in_line(p) + 1);
}

static struct picture picture_of(const struct dergamoyne_heap *heap, uint32_t block)
{
    struct picture p;
    memset(&p, 0, sizeof p);
    p.heap = heap;
    p.map = map_at(dergamoyne_heap_blocks(heap), EDGE, MAP_TOP);
    p.block = block;
    if (block != 0)
        p.found = reason_of(heap, block);
    p.width = 2 * EDGE + p.map.width;
    p.height = MAP_TOP + p.map.height + EDGE + LINE * lines_below(&p);
    return p;
}

static void text_start(FILE *out, uint32_t x, uint32_t y, const char *more)
{
    fprintf(out, "<text x=\"%u\" y=\"%u\"%s>", (unsigned)x, (unsigned)y, more);
}

static void draw_heading(FILE *out, const struct picture *p)
{
    const struct dergamoyne_regs *r = &p->heap->regs;
    fprintf(out, "<title>A heap of %u blocks, %s in cycle %u</title>\n", (unsigned)r->blocks, phase_text(p->heap), (unsigned)r->cycle);
    fprintf(out, "<rect width=\"%u\" height=\"%u\" fill=\"#ffffff\"/>\n", (unsigned)p->width, (unsigned)p->height);
    text_start(out, EDGE, 32, " font-size=\"20\" font-weight=\"bold\"");
    fprintf(out, "A heap of %u blocks, %s in cycle %u</text>\n", (unsigned)r->blocks, phase_text(p->heap), (unsigned)r->cycle);
}

/* Where the legend has a state, as the part in a hundred of the map's width: room for the words and the largest count. */
static uint32_t legend_x(const struct picture *p, uint32_t state)
{
    static const uint32_t parts[] = {0, 0, 23, 42, 59, 78};
    return EDGE + parts[state] * p->map.width / 100;
}

/* The five states with their counts. */
static void draw_states(FILE *out, const struct picture *p)
{
    struct counts counts = count_states(p->heap);
    for (uint32_t state = DERGAMOYNE_STATE_LIVE_WHITE; state <= DERGAMOYNE_STATE_FREE; state++) {
        map_state_sample(out, state, legend_x(p, state), 50);
        text_start(out, legend_x(p, state) + MAP_SAMPLE + 8, 63, "");
        fprintf(out, "%s %u</text>\n", dergamoyne_state_text(state), (unsigned)counts.of[state]);
    }
}

/* The marks, below the states. */
static void draw_marks(FILE *out, const struct picture *p)
{
    uint32_t root = dergamoyne_heap_root(p->heap), x = legend_x(p, DERGAMOYNE_STATE_GREY);
    if (root != 0) {
        map_root_sample(out, &p->map, EDGE, 80);
        text_start(out, EDGE + MAP_SAMPLE + 8, 93, "");
        fprintf(out, "root, block %u</text>\n", (unsigned)root);
    } else {
        text_start(out, EDGE, 93, "");
        fputs("no root</text>\n", out);
    }
    if (p->block != 0) {
        map_asked_sample(out, &p->map, x, 80);
        text_start(out, x + MAP_SAMPLE + 8, 93, "");
        fprintf(out, "why is block %u here?</text>\n", (unsigned)p->block);
    }
}

/* The path in words, so many hops to a line; a long one is cut off. */
static void draw_hops(FILE *out, const struct picture *p, uint32_t y)
{
    uint32_t shown = hops_shown(p), in_line = hops_in_line(p);
    text_start(out, EDGE, y, "");
    for (uint32_t i = 0; i < shown; i++) {
        if (i > 0 && i % in_line == 0) {
            fputs("</text>\n", out);
            text_start(out, EDGE, y += LINE, "");
        }
        fprintf(out, "block %u, word %u &#8594; ", (unsigned)p->found.path[i][0], (unsigned)p->found.path[i][1]);
    }
    if (shown > 0 && shown % in_line == 0) {
        fputs("</text>\n", out);
        text_start(out, EDGE, y + LINE, "");
    }
    if (shown < p->found.why.pairs)
        fprintf(out, "%u more &#8594; ", (unsigned)(p->found.why.pairs - shown));
    fprintf(out, "block %u</text>\n", (unsigned)p->block);
}

static void draw_reason(FILE *out, const struct picture *p)
{
    uint32_t y = MAP_TOP + p->map.height + EDGE + 4;
    if (p->block == 0)
        return;
    text_start(out, EDGE, y, " font-weight=\"bold\"");
    fprintf(out, "Block %u is %s: %s</text>\n", (unsigned)p->block, dergamoyne_state_text(p->found.why.state),
            p->block == dergamoyne_heap_root(p->heap) ? "it is the root" : dergamoyne_why_text(p->found.why.reason));
    if (p->found.why.pairs > 0)
        draw_hops(out, p, y + LINE);
}

static void draw(FILE *out, const struct picture *p)
{
    uint32_t root = dergamoyne_heap_root(p->heap);
    fprintf(out, "<svg xmlns=\"http://www.w3.org/2000/svg\" viewBox=\"0 0 %u %u\" width=\"%u\" height=\"%u\" role=\"img\" "
                 "font-family=\"sans-serif\" font-size=\"14\" fill=\"#222222\">\n",
            (unsigned)p->width, (unsigned)p->height, (unsigned)p->width, (unsigned)p->height);
    draw_heading(out, p);
    draw_states(out, p);
    draw_marks(out, p);
    map_arrow(out);
    map_blocks(out, &p->map, p->heap);
    if (p->block != 0)
        map_path(out, &p->map, &p->found, p->block);
    map_numbers(out, &p->map, p->heap);
    if (root != 0)
        map_root(out, &p->map, root);
    if (p->block != 0 && p->block != root)
        map_asked(out, &p->map, p->block);
    draw_reason(out, p);
    fputs("</svg>\n", out);
}

enum status draw_picture(const struct dergamoyne_heap *heap, const struct options *options)
{
    uint32_t block = 0;
    struct picture picture;
    FILE *out;
    if (options->why != NULL) {
        enum status status = block_read(heap, options->why, &block);
        if (status != STATUS_YES)
            return status;
    }
    picture = picture_of(heap, block);
    out = output_open(options->output);
    if (out == NULL)
        return STATUS_TROUBLE;
    draw(out, &picture);
    return output_close(out, options->output);
}
