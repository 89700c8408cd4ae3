/* The command list: the registers, how many blocks have each state, and a line for each block. */
#include "ask.h"
#include "commands.h"

static void print_registers(FILE *out, const struct dergamoyne_heap *heap)
{
    struct register_text named[REGISTERS];
    name_registers(heap, named);
    for (size_t i = 0; i < REGISTERS; i++)
        fprintf(out, "%-10s  %s\n", named[i].name, named[i].value);
}

static void print_counts(FILE *out, const struct dergamoyne_heap *heap)
{
    struct counts counts = count_states(heap);
    for (uint32_t state = DERGAMOYNE_STATE_LIVE_WHITE; state <= DERGAMOYNE_STATE_FREE; state++)
        fprintf(out, "%-10s  %u\n", dergamoyne_state_text(state), (unsigned)counts.of[state]);
}

/* The words that are not the number 0. */
static void print_words(FILE *out, const struct dergamoyne_heap *heap, uint32_t block)
{
    const char *between = "  ";
    for (uint32_t w = 0; w < DERGAMOYNE_BLOCK_WORDS; w++) {
        struct word word = word_of(heap, block, w);
        if (!word.reference && word.value == 0)
            continue;
        fprintf(out, "%s%u ", between, (unsigned)w);
        if (!word.reference)
            fprintf(out, "= %u", (unsigned)word.value);
        else if (word.value == 0)
            fputs("-> none", out);
        else
            fprintf(out, "-> %u", (unsigned)word.value);
        between = ", ";
    }
    if (*between == ' ')
        fputs("  all 0", out);
}

/* Nothing is behind the state of a block that Read refuses. */
static void print_block(FILE *out, const struct dergamoyne_heap *heap, uint32_t block, enum dergamoyne_block_state state)
{
    if (is_readable(state)) {
        fprintf(out, "%5u  %-10s", (unsigned)block, dergamoyne_state_text(state));
        print_words(out, heap, block);
    } else {
        fprintf(out, "%5u  %s", (unsigned)block, dergamoyne_state_text(state));
    }
    fputc('\n', out);
}

/* Whether a state goes by this name: its words, joined by spaces or by "-". */
static int is_state(uint32_t state, const char *name)
{
    const char *text = dergamoyne_state_text(state);
    while (*text != '\0' && (*text == *name || (*text == ' ' && *name == '-')))
        text++, name++;
    return *text == '\0' && *name == '\0';
}

/* The state of this name. Where there is none, this is said, and it is STATUS_TROUBLE. */
static enum status state_read(const char *name, uint32_t *state)
{
    for (*state = DERGAMOYNE_STATE_LIVE_WHITE; *state <= DERGAMOYNE_STATE_FREE; ++*state)
        if (is_state(*state, name))
            return STATUS_YES;
    return say(STATUS_TROUBLE, "%s: there is no such state; there are live-white, doomed, grey, black and free", name);
}

enum status list_heap(const struct dergamoyne_heap *heap, const struct options *options)
{
    uint32_t wanted = 0;
    if (options->state != NULL && state_read(options->state, &wanted) != STATUS_YES)
        return STATUS_TROUBLE;
    if (wanted == 0) {
        print_registers(stdout, heap);
        putchar('\n');
        print_counts(stdout, heap);
        fputs("\nblock  state       words\n", stdout);
    }
    for (uint32_t b = FIRST_BLOCK; b <= last_block(heap); b++) {
        enum dergamoyne_block_state state = state_of(heap, b);
        if (wanted == 0 || wanted == state)
            print_block(stdout, heap, b, state);
    }
    return output_close(stdout, NULL);
}
