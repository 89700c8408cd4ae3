/* The program heaprun over the library: calls from standard input, a line each, on one heap of at most 1,024 blocks. It prints
   answer, value and units; for R the third number is 1 for a reference; for a line that breaks the rules `99 0 0`. */
#include "machine.h"
#include "lines.h"

enum { MOST = 1024 };

/* What a letter asks for, and which numbers of the answer are printed. */
static const struct letter {
    int letter;
    const char *call;
    int printed[3];
} letters[] = {{'F', "format", {0, 1, 2}},       {'R', "read", {0, 1, 3}},     {'N', "store_number", {0, 1, 2}},
               {'S', "store_reference", {0, 1, 2}}, {'T', "set_root", {0, 1, 2}}, {'A', "allocate", {0, 1, 2}},
               {'W', "work", {0, 1, 2}},         {'C', "audit", {0, 1, 2}}};

/* The heap, with the buffers of the largest: one of M blocks has the first 8M, M and M elements of them. */
static struct MACHINE(regs) regs;
static uint32_t words[8 * MOST], colours[MOST];
static uint8_t bytes[MOST];

/* What is lent for m blocks; for a larger m all there is, which doesn't fit it, and so the call refuses. */
static struct heap lent(uint32_t m)
{
    size_t n = m < MOST ? m : MOST;
    struct heap h = {.regs = &regs, .words = words, .colours = colours, .bytes = bytes,
                     .words_length = 8 * n, .colours_length = n, .bytes_length = n};
    return h;
}

static const struct letter *letter_of(int c)
{
    for (size_t i = 0; i < sizeof letters / sizeof *letters; i++)
        if (letters[i].letter == c)
            return &letters[i];
    return NULL;
}

/* One line. Before a first F that answers 0 the record is all zeroes: every call then refuses by 1, and the audit answers 0. */
static void step(const unsigned char *text, size_t length)
{
    struct line l;
    const struct letter *s = take_apart(text, length, &l) ? letter_of(l.letter) : NULL;
    const struct call *c = s ? call_named(s->call) : NULL;
    uint32_t a[MOST_ANSWER];
    struct heap h;
    if (c == NULL || c->count != l.count) {
        printf("99 0 0\n");
        return;
    }
    h = lent(l.letter == 'F' ? l.numbers[0] : regs.blocks);
    c->perform(&h, l.numbers, a);
    printf("%u %u %u\n", (unsigned)a[s->printed[0]], (unsigned)a[s->printed[1]], (unsigned)a[s->printed[2]]);
}

int main(void)
{
    unsigned char text[LONGEST];
    size_t length;
    while (next_line(text, &length))
        step(text, length);
    return ferror(stdin) || fflush(stdout) != 0;
}
