/* What the commands ask a loaded heap: the answers of State, Read and Why. Load accepted the heap and the commands ask about its blocks
   alone, so none of them is refused. If one were, the program would say so and stop. */
#ifndef ASK_H
#define ASK_H

#include "dergamoyne_heap.h"

/* A word of a block. */
struct word {
    uint32_t value;
    int reference;
};

/* Why a block is here, with the path from the root; it stays until Why is asked again. */
struct reason {
    struct dergamoyne_why why;
    uint32_t (*path)[2];
};

/* The blocks of a heap are those from FIRST_BLOCK to last_block. */
enum { FIRST_BLOCK = 2 };
uint32_t last_block(const struct dergamoyne_heap *heap);
int is_block(const struct dergamoyne_heap *heap, uint32_t number);

enum dergamoyne_block_state state_of(const struct dergamoyne_heap *heap, uint32_t block);

/* Whether Read reads it: it is neither free nor doomed. */
int is_readable(enum dergamoyne_block_state state);
struct word word_of(const struct dergamoyne_heap *heap, uint32_t block, uint32_t word);

struct reason reason_of(const struct dergamoyne_heap *heap, uint32_t block);

/* How many blocks have each state. */
struct counts {
    uint32_t of[DERGAMOYNE_STATE_FREE + 1];
};
struct counts count_states(const struct dergamoyne_heap *heap);

/* "idle", "marking" or "sweeping". */
const char *phase_text(const struct dergamoyne_heap *heap);

/* The registers with their names, in the order of document 01, and the mark of document 02 behind them. */
enum { REGISTERS = 10 };
struct register_text {
    const char *name;
    char value[12]; /* a number, the phase, or "none" */
};
void name_registers(const struct dergamoyne_heap *heap, struct register_text named[REGISTERS]);

#endif
