/* The command why: the reason in words, the path, and what will become of the block. */
#include "ask.h"
#include "commands.h"

enum status block_read(const struct dergamoyne_heap *heap, const char *text, uint32_t *block)
{
    if (!number_read(text, block))
        return say(STATUS_TROUBLE, "%s: a block is given by its number", text);
    if (!is_block(heap, *block))
        return say(STATUS_NO, "%s: there is no such block; this heap has the blocks %d to %u", text, FIRST_BLOCK,
                   (unsigned)last_block(heap));
    return STATUS_YES;
}

static const char *outlook(enum dergamoyne_why_reason reason)
{
    switch (reason) {
    case DERGAMOYNE_WHY_DOOMED:
        return "It is free by the end of this cycle.";
    case DERGAMOYNE_WHY_REACHABLE:
        return "It stays as long as one path leads to it. This is the shortest.";
    case DERGAMOYNE_WHY_KEPT:
        return "It is free by the end of the next cycle that begins, unless a store or a root change names a block that nothing leads to.";
    default:
        return "There is nothing to do.";
    }
}

static void print_reason(const struct dergamoyne_heap *heap, uint32_t block, const struct reason *found)
{
    printf("block %u is %s: ", (unsigned)block, dergamoyne_state_text(found->why.state));
    if (block == dergamoyne_heap_root(heap)) {
        puts("it is the root\nIt stays as long as it is.");
        return;
    }
    puts(dergamoyne_why_text(found->why.reason));
    for (uint32_t i = 0; i < found->why.pairs; i++) {
        uint32_t next = i + 1 < found->why.pairs ? found->path[i + 1][0] : block;
        printf("    word %u of block %u%s names block %u\n", (unsigned)found->path[i][1], (unsigned)found->path[i][0],
               i == 0 ? ", the root," : "", (unsigned)next);
    }
    puts(outlook(found->why.reason));
}

enum status tell_why(const struct dergamoyne_heap *heap, const struct options *options)
{
    uint32_t block = 0;
    struct reason found;
    enum status status = block_read(heap, options->operands[1], &block);
    if (status != STATUS_YES)
        return status;
    found = reason_of(heap, block);
    print_reason(heap, block, &found);
    return output_close(stdout, NULL);
}
