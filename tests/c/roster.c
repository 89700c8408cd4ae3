/* The program roster over the library: a list of 7,000 rows of 14 fields, two blocks each, is stored on a heap of 16,384 blocks
   while two objects of garbage are made after each row, and exported; then it is damaged, a way at a time. It prints what each
   export answers. */
#include "dergamoyne.h"
#include <stdio.h>

enum { M = 16384, U = 28, B = 2, ROWS = 7000, FIELDS = 14, MARKED = 6144, SHORT = 5000, LINK = 0, HELD = 1, NEXT = 7 };
enum { IN_USE = 1 + B * ROWS + B };
static const uint32_t OUTSIDE = 4294967293u;

static struct dergamoyne_regs regs;
static uint32_t words[8 * M], colours[M], out[FIELDS * M];
static uint8_t bytes[M];
static uint32_t rows[ROWS + 1]; /* the object of each row, from row 1 */
static unsigned refused;

#define LENT words, 8 * M, colours, M, bytes, M

/* The value of an answer; a refusal is counted. */
static uint32_t value_of(struct dergamoyne_answer a)
{
    refused += a.refusal != 0;
    return a.value;
}

/* An object of two blocks. */
static uint32_t object(uint32_t b, uint32_t w)
{
    return value_of(dergamoyne_allocate_chain(&regs, LENT, b, w, B));
}

static void refer(uint32_t b, uint32_t w, uint32_t t)
{
    value_of(dergamoyne_store_reference(&regs, LENT, b, w, t));
}

/* What field k of row n holds. */
static uint32_t number(uint32_t n, uint32_t k)
{
    return 65536 * k + n;
}

/* Row n behind the row `last`, and the garbage after it. */
static uint32_t row(uint32_t last, uint32_t n)
{
    uint32_t b = object(last, LINK);
    value_of(dergamoyne_store_field_reference(&regs, LENT, b, LINK, 0));
    for (uint32_t k = 1; k < FIELDS; k++)
        value_of(dergamoyne_store_field_number(&regs, LENT, b, k, number(n, k)));
    object(regs.root, HELD);
    object(regs.root, HELD);
    return b;
}

/* A line of what an export answers. */
static void say(const char *what, struct dergamoyne_export_answer a)
{
    printf("%s: %s, rows: %u", what, a.complete ? "complete" : "NOT complete", (unsigned)a.rows);
    switch (a.reason) {
    case DERGAMOYNE_CIRCLE:
        printf("; the list runs in a circle");
        break;
    case DERGAMOYNE_NO_ROOM:
        printf("; no room for the next");
        break;
    case DERGAMOYNE_REFUSED:
        printf("; a read of the next is refused by %u", (unsigned)a.refusal);
        break;
    case DERGAMOYNE_NO_REFERENCE:
        printf("; the link of the next is no reference");
        break;
    }
    printf("\n");
}

/* The list in a buffer of so many rows. */
static void export_to(const char *what, size_t room)
{
    say(what, dergamoyne_export_objects(regs, LENT, out, FIELDS * room, rows[1], FIELDS, LINK));
}

/* How many rows of the last export are not as they were stored. */
static unsigned unlike(void)
{
    unsigned found = 0;
    for (uint32_t n = 1; n <= ROWS; n++) {
        uint32_t k = 1;
        while (k < FIELDS && out[FIELDS * (n - 1) + k] == number(n, k))
            k++;
        found += k < FIELDS;
    }
    return found;
}

/* Demand 3's premise at a pace: K + 2N + B - 1 is at most M, with N = (2M + 2)/U rounded up. */
static void say_room(int pace)
{
    int has_room = IN_USE + 2 * ((2 * M + 2 + pace - 1) / pace) + B - 1 <= M;
    printf("%d blocks at pace %d are enough for %d in use: %s\n", M, pace, IN_USE, has_room ? "yes" : "no");
}

static void store(void)
{
    uint32_t last;
    value_of(dergamoyne_format(&regs, LENT, M, U));
    last = value_of(dergamoyne_allocate(&regs, LENT, 0, 0));
    for (uint32_t n = 1; n <= ROWS; n++)
        last = rows[n] = row(last, n);
    say_room(U);
    say_room(U - 1);
    printf("rows of %d fields stored, each followed by two objects of garbage: %d\n", FIELDS, ROWS);
    printf("calls refused: %u\n", refused);
    printf("collector cycles finished meanwhile: %u\n", (unsigned)(regs.cycle - (regs.phase != 0)));
    printf("heap well-formed: %s\n", dergamoyne_audit(regs, LENT).value == 1 ? "yes" : "no");
}

/* A reference is stored as a number, and after the export as what it was. */
static void damage_word(const char *what, uint32_t b, uint32_t w)
{
    uint32_t t = words[8 * (b - 2) + w];
    value_of(dergamoyne_store_number(&regs, LENT, b, w, t));
    export_to(what, M);
    refer(b, w, t);
}

/* A colour word is put outside the layout, and after the export it is what it was. */
static void damage_colour(const char *what, uint32_t b)
{
    uint32_t colour = colours[b - 2];
    colours[b - 2] = OUTSIDE;
    export_to(what, M);
    colours[b - 2] = colour;
}

static void damage(void)
{
    uint32_t second = words[8 * (rows[MARKED] - 2) + NEXT];
    damage_word("with row 6144's link stored as a number", rows[MARKED], LINK);
    damage_word("with the reference to row 6144's second block stored as a number", rows[MARKED], NEXT);
    damage_colour("with the colour word of row 6144's first block outside the layout", rows[MARKED]);
    damage_colour("with the colour word of row 6144's second block outside the layout", second);
    refer(rows[ROWS], LINK, rows[1]);
    export_to("with the last row linked to the first", M);
    refer(rows[ROWS], LINK, 0);
}

int main(void)
{
    store();
    export_to("export", M);
    printf("rows that are not as they were stored: %u\n", unlike());
    export_to("into a buffer of 5000 rows", SHORT);
    say("of the rows' first blocks alone", dergamoyne_export(regs, LENT, out, FIELDS * M, rows[1], LINK));
    damage();
    export_to("with all of that mended", M);
    printf("rows that are not as they were stored: %u\n", unlike());
    refer(regs.root, LINK, 0);
    value_of(dergamoyne_work(&regs, LENT, 65535));
    export_to("once the root let go of it and the collector came by", M);
    printf("calls refused, in all: %u\n", refused);
    return fflush(stdout) != 0;
}
