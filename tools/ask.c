/* What the commands ask a loaded heap. See ask.h. */
#include "ask.h"
#include "say.h"
#include <stdio.h>

/* Stops the program unless the call was done. */
static void expect_done(enum dergamoyne_refusal refusal, const char *call, uint32_t block)
{
    if (refusal != DERGAMOYNE_DONE)
        exit((int)say(STATUS_TROUBLE, "%s of block %u was refused: %s", call, (unsigned)block, dergamoyne_refusal_text(refusal)));
}

uint32_t last_block(const struct dergamoyne_heap *heap)
{
    return dergamoyne_heap_blocks(heap) + 1;
}

int is_block(const struct dergamoyne_heap *heap, uint32_t number)
{
    return number >= FIRST_BLOCK && number <= last_block(heap);
}

enum dergamoyne_block_state state_of(const struct dergamoyne_heap *heap, uint32_t block)
{
    enum dergamoyne_block_state state = DERGAMOYNE_STATE_OUTSIDE;
    expect_done(dergamoyne_heap_state(heap, block, &state), "State", block);
    return state;
}

int is_readable(enum dergamoyne_block_state state)
{
    return state != DERGAMOYNE_STATE_FREE && state != DERGAMOYNE_STATE_DOOMED;
}

struct word word_of(const struct dergamoyne_heap *heap, uint32_t block, uint32_t word)
{
    struct word found = {0, 0};
    expect_done(dergamoyne_heap_read(heap, block, word, &found.value, &found.reference), "Read", block);
    return found;
}

struct reason reason_of(const struct dergamoyne_heap *heap, uint32_t block)
{
    static uint32_t path[DERGAMOYNE_WHY_ROWS(DERGAMOYNE_MOST_BLOCKS)][2];
    struct reason found = {{DERGAMOYNE_WHY_FREE, 0, DERGAMOYNE_STATE_FREE}, path};
    size_t rows = DERGAMOYNE_WHY_ROWS(dergamoyne_heap_blocks(heap));
    expect_done(dergamoyne_heap_why(heap, block, path, rows, &found.why), "Why", block);
    return found;
}

struct counts count_states(const struct dergamoyne_heap *heap)
{
    struct counts counts = {{0}};
    for (uint32_t b = FIRST_BLOCK; b <= last_block(heap); b++) {
        enum dergamoyne_block_state state = state_of(heap, b);
        if (state <= DERGAMOYNE_STATE_FREE)
            counts.of[state]++;
    }
    return counts;
}

const char *phase_text(const struct dergamoyne_heap *heap)
{
    static const char *const names[] = {"idle", "marking", "sweeping"};
    return names[dergamoyne_heap_phase(heap)];
}

static void name_number(struct register_text *named, const char *name, uint32_t value)
{
    named->name = name;
    snprintf(named->value, sizeof named->value, "%u", (unsigned)value);
}

/* A register that is a block, or has the number that means none. */
static void name_block(struct register_text *named, const char *name, uint32_t value, uint32_t none)
{
    name_number(named, name, value);
    if (value == none)
        strcpy(named->value, "none");
}

void name_registers(const struct dergamoyne_heap *heap, struct register_text named[REGISTERS])
{
    const struct dergamoyne_regs *r = &heap->regs;
    name_number(&named[0], "blocks", r->blocks);
    name_number(&named[1], "pace", r->pace);
    name_number(&named[2], "phase", r->phase);
    strcpy(named[2].value, phase_text(heap));
    name_block(&named[3], "grey head", r->grey, 1);
    name_block(&named[4], "free head", r->free, 0);
    name_number(&named[5], "free count", r->count);
    name_block(&named[6], "position", r->position, 0);
    name_block(&named[7], "root", r->root, 0);
    name_number(&named[8], "cycle", r->cycle);
    name_block(&named[9], "mark", r->mark, 1);
}
