/* What is wrong with an image that Load turned down. See fault.h.

   The length and the counts are looked at here. Whether registers are legal, and what a number is, is asked of State. The places of an
   image are those of docs/IMAGE.md. */
#include "fault.h"
#include <string.h>

/* How long the smallest image is: of one block, with nine registers. */
enum { LEAST = 4 + 4 * IMAGE_EARLIER_REGISTERS + 12 + 37 };

/* Memory of a heap as large as can be. State is asked about an image's colours in it, and looks at nothing else. */
static uint32_t words[DERGAMOYNE_BLOCK_WORDS * DERGAMOYNE_MOST_BLOCKS], colours[DERGAMOYNE_MOST_BLOCKS];
static uint8_t bytes[DERGAMOYNE_MOST_BLOCKS];

static uint32_t register_count(const struct image *image)
{
    return image_number(image, 0);
}

static uint32_t register_of(const struct image *image, size_t which)
{
    return image_number(image, 4 + 4 * which);
}

/* The registers as a record. An image of nine has none for the mark. */
static struct dergamoyne_regs registers_of(const struct image *image)
{
    struct dergamoyne_regs regs;
    memset(&regs, 0, sizeof regs);
    regs.blocks = register_of(image, 0);
    regs.pace = register_of(image, 1);
    regs.phase = register_of(image, 2);
    regs.grey = register_of(image, 3);
    regs.free = register_of(image, 4);
    regs.count = register_of(image, 5);
    regs.position = register_of(image, 6);
    regs.root = register_of(image, 7);
    regs.cycle = register_of(image, 8);
    regs.mark = register_count(image) == IMAGE_REGISTERS ? register_of(image, 9) : regs.blocks + 1;
    return regs;
}

/* Where the part behind the registers begins. */
static size_t blocks_at(const struct image *image)
{
    return 4 + 4 * (size_t)register_count(image);
}

/* Of the words, and of the reference bytes. */
static size_t words_at(const struct image *image)
{
    return blocks_at(image) + 12 + 5 * (size_t)register_of(image, 0);
}

static size_t bytes_at(const struct image *image)
{
    return blocks_at(image) + 8 + 4 * (size_t)register_of(image, 0);
}

static size_t right_length(const struct image *image)
{
    return blocks_at(image) + 12 + 37 * (size_t)register_of(image, 0);
}

/* Each of these writes to `text` and returns 1 where it finds something. Each is asked only where those before it found nothing. */

static int is_short(const struct image *image, char *text)
{
    if (image->length >= LEAST)
        return 0;
    snprintf(text, FAULT_ROOM, "length: the file has %zu bytes, and the smallest image has %d", image->length, LEAST);
    return 1;
}

static int has_other_count(const struct image *image, char *text)
{
    uint32_t count = register_count(image);
    if (count == IMAGE_REGISTERS || count == IMAGE_EARLIER_REGISTERS)
        return 0;
    snprintf(text, FAULT_ROOM, "registers: the file begins with the number %u, and an image with the count of its registers, %d or %d",
             (unsigned)count, IMAGE_REGISTERS, IMAGE_EARLIER_REGISTERS);
    return 1;
}

static int has_other_blocks(const struct image *image, char *text)
{
    uint32_t blocks = register_of(image, 0);
    if (blocks >= 1 && blocks <= DERGAMOYNE_MOST_BLOCKS)
        return 0;
    snprintf(text, FAULT_ROOM, "registers: the number of blocks is %u, and a heap has 1 to %d", (unsigned)blocks, DERGAMOYNE_MOST_BLOCKS);
    return 1;
}

static int has_other_length(const struct image *image, char *text)
{
    if (image->length == right_length(image))
        return 0;
    snprintf(text, FAULT_ROOM, "length: the file has %s%zu bytes, and an image of %u blocks with %u registers has %zu",
             image->length > IMAGE_MOST ? "at least " : "", image->length, (unsigned)register_of(image, 0),
             (unsigned)register_count(image), right_length(image));
    return 1;
}

/* What State tells of a number, with these registers and with the colours that were read so far. */
static struct dergamoyne_answer state(struct dergamoyne_regs regs, uint32_t number)
{
    size_t m = regs.blocks;
    return dergamoyne_state(regs, words, DERGAMOYNE_BLOCK_WORDS * m, colours, m, bytes, m, number);
}

/* State refuses by 1 or 2 before it looks at the colours. */
static int has_illegal_registers(const struct image *image, char *text)
{
    struct dergamoyne_regs r = registers_of(image);
    if (state(r, 2).refusal == DERGAMOYNE_DONE)
        return 0;
    snprintf(text, FAULT_ROOM,
             "registers: these can't be: blocks %u, pace %u, phase %u, grey head %u, free head %u, free count %u, position %u, root %u, "
             "cycle %u, mark %u",
             (unsigned)r.blocks, (unsigned)r.pace, (unsigned)r.phase, (unsigned)r.grey, (unsigned)r.free, (unsigned)r.count,
             (unsigned)r.position, (unsigned)r.root, (unsigned)r.cycle, (unsigned)r.mark);
    return 1;
}

/* The counts of the three sections behind the registers. */
static int has_other_section(const struct image *image, char *text)
{
    static const char *const names[] = {"colours", "reference bytes", "words"};
    uint32_t m = register_of(image, 0);
    size_t places[3] = {blocks_at(image), bytes_at(image) - 4, words_at(image) - 4};
    uint32_t right[3] = {m, m, DERGAMOYNE_BLOCK_WORDS * m};
    for (size_t i = 0; i < 3; i++)
        if (image_number(image, places[i]) != right[i]) {
            snprintf(text, FAULT_ROOM, "contents: the count of %s, at byte %zu, is %u and not %u", names[i], places[i],
                     (unsigned)image_number(image, places[i]), (unsigned)right[i]);
            return 1;
        }
    return 0;
}

/* A block whose colour word is none: State says that it is outside the layout. */
static int has_other_colour(const struct image *image, char *text)
{
    struct dergamoyne_regs regs = registers_of(image);
    for (size_t i = 0; i < regs.blocks; i++)
        colours[i] = image_number(image, blocks_at(image) + 4 + 4 * i);
    for (uint32_t b = 2; b <= regs.blocks + 1; b++)
        if (state(regs, b).value == DERGAMOYNE_STATE_OUTSIDE) {
            snprintf(text, FAULT_ROOM, "contents: block %u has the colour word %u, which is none", (unsigned)b, (unsigned)colours[b - 2]);
            return 1;
        }
    return 0;
}

/* A block above the mark that isn't free. */
static int has_other_mark(const struct image *image, char *text)
{
    struct dergamoyne_regs regs = registers_of(image);
    for (uint32_t b = regs.mark + 1; b <= regs.blocks + 1; b++) {
        uint32_t found = state(regs, b).value;
        if (found != DERGAMOYNE_STATE_FREE) {
            snprintf(text, FAULT_ROOM, "contents: block %u, above the mark %u, is %s and not free", (unsigned)b, (unsigned)regs.mark,
                     dergamoyne_state_text(found));
            return 1;
        }
    }
    return 0;
}

static int has_other_free_count(const struct image *image, char *text)
{
    struct dergamoyne_regs regs = registers_of(image);
    uint32_t count = 0;
    for (uint32_t b = 2; b <= regs.blocks + 1; b++)
        count += state(regs, b).value == DERGAMOYNE_STATE_FREE;
    if (count == regs.count)
        return 0;
    snprintf(text, FAULT_ROOM, "contents: %u blocks are free, and the free count is %u", (unsigned)count, (unsigned)regs.count);
    return 1;
}

/* Whether a state is one that the root and references may name. */
static int is_live(uint32_t found)
{
    return found == DERGAMOYNE_STATE_LIVE_WHITE || found == DERGAMOYNE_STATE_GREY || found == DERGAMOYNE_STATE_BLACK;
}

static int has_other_root(const struct image *image, char *text)
{
    struct dergamoyne_regs regs = registers_of(image);
    uint32_t found = state(regs, regs.root).value;
    if (regs.root == 0 || is_live(found))
        return 0;
    snprintf(text, FAULT_ROOM, "contents: the root is block %u, which is %s", (unsigned)regs.root, dergamoyne_state_text(found));
    return 1;
}

/* A reference in this word of a live block that names no live block. */
static int has_other_reference(const struct image *image, uint32_t block, uint32_t word, char *text)
{
    size_t index = block - 2;
    uint32_t target = image_number(image, words_at(image) + 4 * (DERGAMOYNE_BLOCK_WORDS * index + word));
    uint32_t found = state(registers_of(image), target).value;
    if ((image->bytes[bytes_at(image) + index] >> word & 1) == 0 || target == 0 || is_live(found))
        return 0;
    snprintf(text, FAULT_ROOM, "contents: word %u of block %u is a reference to %u, which is %s", (unsigned)word, (unsigned)block,
             (unsigned)target, dergamoyne_state_text(found));
    return 1;
}

static int has_other_references(const struct image *image, char *text)
{
    struct dergamoyne_regs regs = registers_of(image);
    for (uint32_t b = 2; b <= regs.blocks + 1; b++)
        for (uint32_t w = 0; w < DERGAMOYNE_BLOCK_WORDS && is_live(state(regs, b).value); w++)
            if (has_other_reference(image, b, w, text))
                return 1;
    return 0;
}

void fault_find(const struct image *image, char text[FAULT_ROOM])
{
    if (is_short(image, text) || has_other_count(image, text) || has_other_blocks(image, text) || has_other_length(image, text) ||
        has_illegal_registers(image, text) || has_other_section(image, text) || has_other_colour(image, text) ||
        has_other_mark(image, text) || has_other_free_count(image, text) || has_other_root(image, text) || has_other_references(image, text))
        return;
    snprintf(text, FAULT_ROOM, "contents: the audit turns the list of free or of grey blocks down, or a free block that isn't empty, "
                               "or a colour that doesn't suit the phase");
}

enum status fault_say(const struct image *image)
{
    char text[FAULT_ROOM];
    fault_find(image, text);
    return say(STATUS_NO, "%s: not accepted: %s", image->name, text);
}
