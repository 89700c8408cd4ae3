/* Single calls on memory given whole, from the second model's cases: any call, on a heap damaged or not and of any lengths. After
   each call its answer, every register and every buffer are compared with what the model says, and the memory beside each
   buffer with what it was.

       cases < FILE

   A case is two lines, before the call and after it:
       NAME <numbers> <registers> <words> <colours> <bytes> <out>
       <answer> <registers> <words> <colours> <bytes> <out>
   Each <list> is its length and then its numbers; model/calls.py writes them. <out> has words of an export, or bytes of an image.
   Why has three lists in its place: the path, and the two buffers it works in.
   The last line printed tells how many there were. Where something differs, or a call has no case, it says what and exits with
   1. */
#include "machine.h"
#include <ctype.h>
#include <stdio.h>
#include <stdlib.h>

enum { EDGE = 64, FILLED = 0xA5, PARTS = 7, OUT = 4, LONGEST_NAME = 40 };

/* A buffer that is lent, with an edge before it and one right behind it. The width is that of an element, in bytes. */
struct part {
    const char *name;
    size_t width, length;
    unsigned char *memory;
};

static struct part parts[PARTS] = {
    {"register", 4, 0, NULL}, {"words", 4, 0, NULL}, {"colours", 4, 0, NULL}, {"bytes", 1, 0, NULL}, {"out", 4, 0, NULL},
    {"queue", 4, 0, NULL},    {"came", 4, 0, NULL}};

/* The case at hand: its number, its call and the call's numbers. */
static unsigned long number;
static const struct call *call;
static uint32_t numbers[MOST_NUMBERS];

/* ---- saying what is wrong ---- */

static void say_case(void)
{
    printf("case %lu", number);
    if (call == NULL)
        return;
    printf(", %s", call->name);
    for (unsigned i = 0; i < call->count; i++)
        printf(" %lu", (unsigned long)numbers[i]);
}

static void fail(const char *what)
{
    say_case();
    printf(": %s\n", what);
    exit(1);
}

static void differs(const char *name, size_t at, uint32_t is, uint32_t expected)
{
    say_case();
    printf(": %s %lu is %lu, expected %lu\n", name, (unsigned long)at, (unsigned long)is, (unsigned long)expected);
    exit(1);
}

/* ---- reading ---- */

/* A name, up to a space. Answers 0 at the end of input. */
static int read_name(char *name)
{
    size_t n = 0;
    int c = getchar();
    while (c != EOF && isspace(c))
        c = getchar();
    for (; c != EOF && !isspace(c) && n < LONGEST_NAME; c = getchar())
        name[n++] = (char)c;
    name[n] = '\0';
    return n != 0;
}

static uint32_t read_number(void)
{
    unsigned long v;
    if (scanf("%lu", &v) != 1 || v > 4294967295u)
        fail("a number is missing");
    return (uint32_t)v;
}

/* A list of exactly so many numbers. */
static void read_list(uint32_t *to, size_t length)
{
    if (read_number() != length)
        fail("a list has another length than the call takes");
    for (size_t i = 0; i < length; i++)
        to[i] = read_number();
}

/* ---- the lent memory ---- */

/* NULL for a further buffer that the call at hand doesn't take. */
static unsigned char *lent(const struct part *p)
{
    return p->memory == NULL ? NULL : p->memory + EDGE;
}

static void put(const struct part *p, size_t i, uint32_t v)
{
    if (p->width == 1)
        lent(p)[i] = (unsigned char)v;
    else
        memcpy(lent(p) + 4 * i, &v, 4);
}

static uint32_t get(const struct part *p, size_t i)
{
    uint32_t v = lent(p)[p->width * i];
    if (p->width == 4)
        memcpy(&v, lent(p) + 4 * i, 4);
    return v;
}

/* Memory for a list that is read, between filled edges. */
static void lend(struct part *p)
{
    p->length = read_number();
    p->memory = malloc(2 * EDGE + p->width * p->length);
    if (p->memory == NULL)
        fail("no memory");
    memset(p->memory, FILLED, 2 * EDGE + p->width * p->length);
    for (size_t i = 0; i < p->length; i++)
        put(p, i, read_number());
}

static void test_edges(const struct part *p)
{
    const unsigned char *behind = lent(p) + p->width * p->length;
    for (size_t i = 0; i < EDGE; i++)
        if (p->memory[i] != FILLED || behind[i] != FILLED) {
            say_case();
            printf(": it wrote beside the %s\n", p->name);
            exit(1);
        }
}

/* The memory afterwards is that of the list that is read. It is given back. */
static void compare(struct part *p)
{
    if (read_number() != p->length)
        fail("a buffer has another length afterwards");
    for (size_t i = 0; i < p->length; i++) {
        uint32_t expected = read_number();
        if (get(p, i) != expected)
            differs(p->name, i, get(p, i), expected);
    }
    free(p->memory);
    p->memory = NULL;
}

/* ---- a case ---- */

static size_t perform(uint32_t *answer)
{
    struct heap h;
    h.regs = lent(&parts[0]);
    h.words = (uint32_t *)(void *)lent(&parts[1]), h.words_length = parts[1].length;
    h.colours = (uint32_t *)(void *)lent(&parts[2]), h.colours_length = parts[2].length;
    h.bytes = lent(&parts[3]), h.bytes_length = parts[3].length;
    h.out = (uint32_t *)(void *)lent(&parts[OUT]), h.out_length = parts[OUT].length;
    h.image = lent(&parts[OUT]), h.image_length = parts[OUT].length;
    h.queue = (uint32_t *)(void *)lent(&parts[5]), h.queue_length = parts[5].length;
    h.came = (uint32_t *)(void *)lent(&parts[6]), h.came_length = parts[6].length;
    return call->perform(&h, numbers, answer);
}

static void compare_answer(const uint32_t *answer, size_t length)
{
    uint32_t expected[MOST_ANSWER];
    read_list(expected, length);
    for (size_t i = 0; i < length; i++)
        if (answer[i] != expected[i])
            differs("answer", i, answer[i], expected[i]);
}

static void do_case(void)
{
    uint32_t answer[MOST_ANSWER];
    size_t length, lists = OUT + call->further;
    read_list(numbers, call->count);
    parts[OUT].width = call->width;
    for (size_t i = 0; i < lists; i++)
        lend(&parts[i]);
    if (parts[0].length != REGISTERS)
        fail("a record has another number of registers");
    length = perform(answer);
    for (size_t i = 0; i < lists; i++)
        test_edges(&parts[i]);
    compare_answer(answer, length);
    for (size_t i = 0; i < lists; i++)
        compare(&parts[i]);
}

int main(void)
{
    static unsigned long seen[CALLS];
    char name[LONGEST_NAME + 1];
    for (; read_name(name); seen[call - calls]++) {
        number++;
        call = call_named(name);
        if (call == NULL)
            fail("there is no such call");
        do_case();
    }
    for (size_t i = 0; i < CALLS; i++)
        if (seen[i] == 0) {
            printf("there is no case of %s\n", calls[i].name);
            return 1;
        }
    printf("%lu cases of %d calls, and no difference\n", number, (int)CALLS);
    return ferror(stdin) || fflush(stdout) != 0;
}
