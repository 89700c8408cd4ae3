/* The command page: one HTML file with the map, what is known of every block, and a script that shows it on a click. The style and the
   script stand in page.css and page.js; embed.awk makes C of them. The page loads nothing, and its policy forbids that it does. */
#include "ask.h"
#include "commands.h"
#include "map.h"
#include "page_parts.h"
#include <string.h>

/* Why each block is here. The path to a block is the path to the block before it and one pair more, so the last pair tells enough. */
struct known {
    uint8_t reason[DERGAMOYNE_MOST_BLOCKS];
    uint32_t from_block[DERGAMOYNE_MOST_BLOCKS], from_word[DERGAMOYNE_MOST_BLOCKS];
};

/* Keeps a pair that leads to this block. */
static void keep(struct known *known, uint32_t block, const uint32_t pair[2])
{
    known->reason[block - FIRST_BLOCK] = DERGAMOYNE_WHY_REACHABLE;
    known->from_block[block - FIRST_BLOCK] = pair[0];
    known->from_word[block - FIRST_BLOCK] = pair[1];
}

/* Asks why a block is here, and keeps what the answer tells of the blocks on the path, too. */
static void find_out(const struct dergamoyne_heap *heap, struct known *known, uint32_t block)
{
    struct reason found = reason_of(heap, block);
    known->reason[block - FIRST_BLOCK] = (uint8_t)found.why.reason;
    for (uint32_t i = 0; i + 1 < found.why.pairs; i++)
        keep(known, found.path[i + 1][0], found.path[i]);
    if (found.why.pairs > 0)
        keep(known, block, found.path[found.why.pairs - 1]);
}

/* From the last block on: as a rule it is the farthest from the root, and its path tells of many. That a block is free or doomed State
   tells too, and sooner. */
static void find_out_all(const struct dergamoyne_heap *heap, struct known *known)
{
    memset(known, 0, sizeof *known);
    for (uint32_t b = last_block(heap); b >= FIRST_BLOCK; b--) {
        enum dergamoyne_block_state state = state_of(heap, b);
        if (state == DERGAMOYNE_STATE_FREE)
            known->reason[b - FIRST_BLOCK] = DERGAMOYNE_WHY_FREE;
        else if (state == DERGAMOYNE_STATE_DOOMED)
            known->reason[b - FIRST_BLOCK] = DERGAMOYNE_WHY_DOOMED;
        else if (known->reason[b - FIRST_BLOCK] == 0)
            find_out(heap, known, b);
    }
}


/* ---- the data ---- */

static void write_texts(FILE *out, const char *name, const char *(*text)(uint32_t), uint32_t last)
{
    fprintf(out, "\"%s\": [\"\"", name);
    for (uint32_t i = 1; i <= last; i++)
        fprintf(out, ", \"%s\"", text(i));
    fputs("],\n", out);
}

/* A list with a number for each block. */
static void write_numbers(FILE *out, const char *name, const struct dergamoyne_heap *heap, const struct known *known,
                          uint32_t (*number)(const struct dergamoyne_heap *heap, const struct known *known, uint32_t block))
{
    fprintf(out, "\"%s\": [", name);
    for (uint32_t b = FIRST_BLOCK; b <= last_block(heap); b++)
        fprintf(out, "%s%u", b == FIRST_BLOCK ? "" : ",", (unsigned)number(heap, known, b));
    fputs("],\n", out);
}

static uint32_t state_number(const struct dergamoyne_heap *heap, const struct known *known, uint32_t block)
{
    (void)known;
    return state_of(heap, block);
}

static uint32_t reference_number(const struct dergamoyne_heap *heap, const struct known *known, uint32_t block)
{
    uint32_t bits = 0;
    (void)known;
    if (is_readable(state_of(heap, block)))
        for (uint32_t w = 0; w < DERGAMOYNE_BLOCK_WORDS; w++)
            bits |= word_of(heap, block, w).reference ? (uint32_t)1 << w : 0;
    return bits;
}

static uint32_t reason_number(const struct dergamoyne_heap *heap, const struct known *known, uint32_t block)
{
    (void)heap;
    return known->reason[block - FIRST_BLOCK];
}

static uint32_t from_block_number(const struct dergamoyne_heap *heap, const struct known *known, uint32_t block)
{
    (void)heap;
    return known->from_block[block - FIRST_BLOCK];
}

static uint32_t from_word_number(const struct dergamoyne_heap *heap, const struct known *known, uint32_t block)
{
    (void)heap;
    return known->from_word[block - FIRST_BLOCK];
}

static void write_words(FILE *out, const struct dergamoyne_heap *heap)
{
    fputs("\"words\": [", out);
    for (uint32_t b = FIRST_BLOCK; b <= last_block(heap); b++) {
        fputs(b == FIRST_BLOCK ? "[" : ",\n[", out);
        if (is_readable(state_of(heap, b)))
            for (uint32_t w = 0; w < DERGAMOYNE_BLOCK_WORDS; w++)
                fprintf(out, "%s%u", w == 0 ? "" : ",", (unsigned)word_of(heap, b, w).value);
        fputs("]", out);
    }
    fputs("]\n", out);
}

static void write_data(FILE *out, const struct dergamoyne_heap *heap, const struct map *map, const struct known *known)
{
    fprintf(out, "<script type=\"application/json\" id=\"heap\">\n{\"blocks\": %u, \"root\": %u,\n", (unsigned)map->blocks,
            (unsigned)dergamoyne_heap_root(heap));
    fprintf(out, "\"columns\": %u, \"cell\": %u, \"side\": %u, \"left\": %u, \"top\": %u, \"numbered\": %s,\n", (unsigned)map->columns,
            (unsigned)map->cell, (unsigned)map->side, (unsigned)map->left, (unsigned)map->top, map->numbered ? "true" : "false");
    write_texts(out, "stateTexts", dergamoyne_state_text, DERGAMOYNE_STATE_FREE);
    write_texts(out, "whyTexts", dergamoyne_why_text, DERGAMOYNE_WHY_KEPT);
    write_numbers(out, "states", heap, known, state_number);
    write_numbers(out, "reasons", heap, known, reason_number);
    write_numbers(out, "fromBlock", heap, known, from_block_number);
    write_numbers(out, "fromWord", heap, known, from_word_number);
    write_numbers(out, "references", heap, known, reference_number);
    write_words(out, heap);
    fputs("}\n</script>\n", out);
}


/* ---- the page ---- */

static void write_part(FILE *out, const char *open, const char *const *lines, const char *close)
{
    fputs(open, out);
    for (; *lines != NULL; lines++)
        fputs(*lines, out);
    fputs(close, out);
}

static void write_head(FILE *out, const struct dergamoyne_heap *heap)
{
    fputs("<!DOCTYPE html>\n<html lang=\"en\">\n<head>\n<meta charset=\"utf-8\">\n"
          "<meta http-equiv=\"Content-Security-Policy\" "
          "content=\"default-src 'none'; style-src 'unsafe-inline'; script-src 'unsafe-inline'\">\n"
          "<meta name=\"viewport\" content=\"width=device-width, initial-scale=1\">\n",
          out);
    fprintf(out, "<title>A heap of %u blocks</title>\n", (unsigned)dergamoyne_heap_blocks(heap));
    write_part(out, "<style>\n", page_css, "</style>\n</head>\n");
}

static void write_legend(FILE *out, const struct dergamoyne_heap *heap)
{
    struct counts counts = count_states(heap);
    fputs("<ul class=\"legend\">\n", out);
    for (uint32_t state = DERGAMOYNE_STATE_LIVE_WHITE; state <= DERGAMOYNE_STATE_FREE; state++) {
        fprintf(out, "<li><svg width=\"%d\" height=\"%d\" aria-hidden=\"true\">", MAP_SAMPLE, MAP_SAMPLE);
        map_state_sample(out, state, 0, 0);
        fprintf(out, "</svg> %s %u</li>\n", dergamoyne_state_text(state), (unsigned)counts.of[state]);
    }
    fputs("</ul>\n", out);
}

/* With room for the marks of blocks at the edge. */
static void write_map(FILE *out, const struct dergamoyne_heap *heap, const struct map *map)
{
    uint32_t root = dergamoyne_heap_root(heap);
    fprintf(out, "<svg id=\"map\" tabindex=\"0\" role=\"application\" "
                 "aria-label=\"Map of the blocks. The arrow keys go from block to block.\" width=\"%u\" height=\"%u\" font-size=\"14\">\n",
            (unsigned)(map->width + 8), (unsigned)(map->height + 8));
    map_blocks(out, map, heap);
    fputs("<polyline id=\"path-under\"/>\n<polyline id=\"path-over\"/>\n<path id=\"path-blocks\"/>\n", out);
    map_numbers(out, map, heap);
    if (root != 0)
        map_root(out, map, root);
    fputs("<path id=\"chosen\"/>\n</svg>\n", out);
}

static void write_registers(FILE *out, const struct dergamoyne_heap *heap)
{
    struct register_text named[REGISTERS];
    name_registers(heap, named);
    fputs("<details open>\n<summary>Registers</summary>\n<table>\n", out);
    for (size_t i = 0; i < REGISTERS; i++)
        fprintf(out, "<tr><th>%s</th><td>%s</td></tr>\n", named[i].name, named[i].value);
    fputs("</table>\n</details>\n", out);
}

static void write_body(FILE *out, const struct dergamoyne_heap *heap, const struct map *map)
{
    fprintf(out, "<body>\n<h1>A heap of %u blocks, %s in cycle %u</h1>\n", (unsigned)map->blocks, phase_text(heap),
            (unsigned)dergamoyne_heap_cycles(heap));
    write_legend(out, heap);
    fputs("<main>\n<section id=\"map-part\">\n"
          "<p class=\"hint\" id=\"hint\">Click on a block, or go to the map with Tab and from block to block with the arrow keys.</p>\n",
          out);
    write_map(out, heap, map);
    fputs("</section>\n<section id=\"side\">\n"
          "<form id=\"go\"><label for=\"number\">Block</label> <input id=\"number\" inputmode=\"numeric\" autocomplete=\"off\"> "
          "<button>Show</button></form>\n"
          "<div id=\"block\" aria-live=\"polite\">"
          "<noscript>What is known of a block is shown by a script, and scripts are off.</noscript></div>\n",
          out);
    write_registers(out, heap);
    fputs("</section>\n</main>\n", out);
}

enum status write_page(const struct dergamoyne_heap *heap, const struct options *options)
{
    static struct known known;
    struct map map = map_at(dergamoyne_heap_blocks(heap), 4, 4);
    FILE *out = output_open(options->output);
    if (out == NULL)
        return STATUS_TROUBLE;
    find_out_all(heap, &known);
    write_head(out, heap);
    write_body(out, heap, &map);
    write_data(out, heap, &map, &known);
    write_part(out, "<script>\n", page_js, "</script>\n</body>\n</html>\n");
    return output_close(out, options->output);
}
