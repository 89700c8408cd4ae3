/* Random calls on the library and on the plain machine of bench/, side by side: after each call the answer, every register and
   every buffer of the two are compared.

       fuzz [--spoil] [--counts] SEED SECONDS

   A round has a heap of its own: fresh, running, or with damage done to both sides alike, sometimes of lengths that don't fit.
   Now and then it is saved, a byte of its image is changed on both sides, and that is loaded, or the image is made one of an earlier
   release; and Why is asked with something left
   behind in its buffers.
   Each buffer stands between two pages that can't be touched, by turns against the one behind it and against the one before
   it. The same seed gives the same calls. It prints how many calls it made, and `no difference`; or the seed, the call and what
   differs, and exits with 1. With --spoil the plain side makes a mistake of document 01's list, a new block white while
   marking, which has to be found. With --counts it also prints how often each call gave each answer. */
#define _DEFAULT_SOURCE
#include "dergamoyne.h"
#include "plain.h"
#include <signal.h>
#include <stdio.h>
#include <stdlib.h>
#include <sys/mman.h>
#include <time.h>
#include <unistd.h>

#define MACHINE(name) dergamoyne_##name
#define MACHINE_SEEN(r) (r)
#define PERFORM(name) proved_##name
#define PERFORMED proved
#include "perform.h"
#undef MACHINE
#undef MACHINE_SEEN
#undef PERFORM
#undef PERFORMED
#define MACHINE(name) plain_##name
#define MACHINE_SEEN(r) (&(r))
#define PERFORM(name) written_##name
#define PERFORMED written
#include "perform.h"

enum { CALLS = sizeof proved / sizeof *proved, PARTS = 8, MOST = 16384, REGISTERS = sizeof(struct dergamoyne_regs) / 4 };
enum { PHASE = 2, POSITION = 6, MARK = 9, EARLIER_REGISTERS = 9 };
enum { RECORD, WORDS, COLOURS, BYTES, OUT, IMAGE, QUEUE, CAME };
static const char *const part_names[PARTS] = {"register", "words", "colours", "bytes", "out", "image", "queue", "came"};
static const size_t widths[PARTS] = {4, 4, 4, 1, 4, 1, 4, 4};
static const size_t most[PARTS] = {4 * REGISTERS, 32 * (MOST + 2), 4 * (MOST + 2), MOST + 2, 32 * (MOST + 2), 56 + 37 * (MOST + 2),
                                   4 * (MOST + 8), 4 * (MOST + 8)};
typedef char records_are_alike[sizeof(struct dergamoyne_regs) == sizeof(struct plain_regs) ? 1 : -1];

/* One of the two: its calls, its memory between guard pages, and the heap that stands in it. */
struct side {
    const struct call *calls;
    unsigned char *start[PARTS], *end[PARTS], *lent[PARTS];
    struct heap heap;
};

static struct side sides[2];
static size_t lengths[PARTS];

static unsigned long long seed, made;
static int spoil, counts;
static size_t call;
static uint32_t numbers[MOST_NUMBERS];
static unsigned long long answered[CALLS][16];

/* ---- what went wrong ---- */

static void say_call(void)
{
    printf("fuzz: seed %llu, call %llu: %s", seed, made, proved[call].name);
    for (unsigned i = 0; i < proved[call].count; i++)
        printf(" %lu", (unsigned long)numbers[i]);
    printf(" on");
    for (size_t i = WORDS; i < PARTS; i++)
        printf(" %lu %s", (unsigned long)lengths[i], part_names[i]);
    printf("\n");
}

static void differ(const char *what, size_t at, uint32_t is, uint32_t other)
{
    say_call();
    printf("fuzz: %s %lu: the library has %lu, the plain machine %lu\n", what, (unsigned long)at, (unsigned long)is,
           (unsigned long)other);
    exit(1);
}

/* A page was touched that nothing may touch. The program has ended then, so saying it here does no harm. */
static void outside(int number)
{
    (void)number;
    say_call();
    printf("fuzz: memory outside of the buffers was touched\n");
    fflush(stdout);
    _exit(1);
}

/* ---- random numbers ---- */

static uint64_t state;

static uint64_t random64(void)
{
    uint64_t z = state += 0x9E3779B97F4A7C15u;
    z = (z ^ z >> 30) * 0xBF58476D1CE4E5B9u;
    z = (z ^ z >> 27) * 0x94D049BB133111EBu;
    return z ^ z >> 31;
}

/* 0 to n - 1. */
static uint32_t below(uint32_t n)
{
    return (uint32_t)((random64() >> 32) * n >> 32);
}

static int one_in(uint32_t n)
{
    return below(n) == 0;
}

/* A number at the edge of something. */
static uint32_t odd(void)
{
    static const uint32_t edges[] = {0, 1, 2, 3, 7, 8, 9, 255, 1024, 16384, 16385, 16386, 65535, 65536, 536870912, 536870913,
                                     2147483648u, 4294967293u, 4294967294u, 4294967295u};
    return edges[below(sizeof edges / sizeof *edges)];
}

/* ---- the memory ---- */

/* So many bytes that can be used, between two pages that can't. */
static void guard(unsigned char **start, unsigned char **end, size_t size)
{
    size_t page = (size_t)sysconf(_SC_PAGESIZE), room = (size + page - 1) / page * page;
    unsigned char *p = mmap(NULL, room + 2 * page, PROT_NONE, MAP_PRIVATE | MAP_ANONYMOUS, -1, 0);
    if (p == MAP_FAILED || mprotect(p + page, room, PROT_READ | PROT_WRITE) != 0) {
        printf("fuzz: no memory\n");
        exit(2);
    }
    *start = p + page;
    *end = p + page + room;
}

static void set_up(struct side *s, const struct call *calls)
{
    s->calls = calls;
    for (size_t i = 0; i < PARTS; i++)
        guard(&s->start[i], &s->end[i], most[i]);
}

/* Puts the buffers of a round at the end of their room, or at its start. */
static void place(struct side *s, int at_end)
{
    for (size_t i = 0; i < PARTS; i++)
        s->lent[i] = at_end ? s->end[i] - widths[i] * lengths[i] : s->start[i];
    s->heap.regs = s->lent[RECORD];
    s->heap.words = (uint32_t *)(void *)s->lent[WORDS], s->heap.words_length = lengths[WORDS];
    s->heap.colours = (uint32_t *)(void *)s->lent[COLOURS], s->heap.colours_length = lengths[COLOURS];
    s->heap.bytes = s->lent[BYTES], s->heap.bytes_length = lengths[BYTES];
    s->heap.out = (uint32_t *)(void *)s->lent[OUT], s->heap.out_length = lengths[OUT];
    s->heap.image = s->lent[IMAGE], s->heap.image_length = lengths[IMAGE];
    s->heap.queue = (uint32_t *)(void *)s->lent[QUEUE], s->heap.queue_length = lengths[QUEUE];
    s->heap.came = (uint32_t *)(void *)s->lent[CAME], s->heap.came_length = lengths[CAME];
}

static uint32_t get(const struct side *s, size_t part, size_t i)
{
    uint32_t v = s->lent[part][widths[part] * i];
    if (widths[part] == 4)
        memcpy(&v, s->lent[part] + 4 * i, 4);
    return v;
}

/* Writes the same number on both sides. */
static void put(size_t part, size_t i, uint32_t v)
{
    for (size_t s = 0; s < 2; s++)
        if (widths[part] == 1)
            sides[s].lent[part][i] = (unsigned char)v;
        else
            memcpy(sides[s].lent[part] + 4 * i, &v, 4);
}

/* ---- what a call is given ---- */

static const struct dergamoyne_regs *regs(void)
{
    return sides[0].heap.regs;
}

/* As many blocks as the buffers of this round have. */
static uint32_t blocks(void)
{
    size_t n = lengths[COLOURS] < lengths[BYTES] ? lengths[COLOURS] : lengths[BYTES];
    return (uint32_t)(n < lengths[WORDS] / 8 ? n : lengths[WORDS] / 8);
}

static int is_block(uint32_t b)
{
    return b >= 2 && b < blocks() + 2;
}

/* A block that some reference leads to, from the root on; 0 where there is no root. */
static uint32_t reachable(void)
{
    uint32_t b = regs()->root, next;
    for (uint32_t steps = below(8); steps > 0 && is_block(b); steps--) {
        uint32_t w = below(4) * below(3);
        next = get(&sides[0], BYTES, b - 2) >> w & 1 ? get(&sides[0], WORDS, 8 * (size_t)(b - 2) + w) : 0;
        b = is_block(next) ? next : b;
    }
    return b;
}

static uint32_t block(void)
{
    if (one_in(64))
        return odd();
    return one_in(4) ? 2 + below(blocks() + 1) : reachable();
}

static uint32_t word(void)
{
    static const uint32_t usual[] = {0, 0, 0, 0, 1, 1, 2, 7};
    if (one_in(128))
        return one_in(2) ? 8 : odd();
    return one_in(8) ? below(8) : usual[below(8)];
}

static uint32_t units(void)
{
    if (one_in(64))
        return one_in(64) ? 65535 : 65536 + below(9);
    return one_in(2) ? below(4) : below(2 * blocks() + 6);
}

/* How many blocks an object is to have: few as a rule, at times all that are free, or about that. */
static uint32_t length(void)
{
    if (one_in(64))
        return one_in(2) ? 255 + below(3) : odd();
    return one_in(8) ? regs()->count + below(2) : 1 + below(5);
}

/* How many fields a row has: few as a rule. */
static uint32_t fields(void)
{
    if (one_in(32))
        return one_in(2) ? 1790 + below(4) : odd();
    return 1 + below(one_in(2) ? 7 : 28);
}

/* A field of an object: in its first blocks as a rule. */
static uint32_t field(void)
{
    if (one_in(64))
        return one_in(2) ? 1790 + below(4) : odd();
    return one_in(8) ? below(1792) : below(one_in(2) ? 7 : 30);
}

static uint32_t drawn(enum kind kind)
{
    switch (kind) {
    case BLOCKS:
        return one_in(8) ? odd() : (uint32_t)lengths[COLOURS];
    case PACE:
        return one_in(32) ? odd() : below(10);
    case BLOCK:
    case START:
        return block();
    case WORD:
        return word();
    case NUMBER:
        return one_in(4) ? odd() : below(blocks() + 3);
    case TARGET:
        return one_in(4) ? 0 : block();
    case HOLDER:
        return regs()->root == 0 || one_in(32) ? 0 : block();
    case UNITS:
        return units();
    case LENGTH:
        return length();
    case FIELD:
        return field();
    case FIELDS:
        return fields();
    default:
        return 0;
    }
}

/* How seldom a call is made: Format ends what was there, and Load goes back to what was saved. */
static uint32_t seldom(const struct call *c)
{
    return c->numbers[0] == BLOCKS ? 128 : c->numbers[0] == SAVED ? 8 : 1;
}

/* A call and its numbers. */
static void draw_call(void)
{
    do
        call = below(CALLS);
    while (!one_in(seldom(&proved[call])));
    for (unsigned i = 0; i < proved[call].count; i++)
        numbers[i] = drawn(proved[call].numbers[i]);
    if (proved[call].numbers[0] == HOLDER && numbers[0] == 0 && !one_in(8))
        numbers[1] = 0;
    if (proved[call].numbers[1] == FIELDS && numbers[1] != 0 && !one_in(16))
        numbers[2] = one_in(2) ? 0 : numbers[2] % numbers[1];
}

/* ---- a call, and what it left ---- */

static void compare_answers(const uint32_t *a, size_t n, const uint32_t *b, size_t m)
{
    if (n != m)
        differ("length of the answer", 0, (uint32_t)n, (uint32_t)m);
    for (size_t i = 0; i < n; i++)
        if (a[i] != b[i])
            differ("answer", i, a[i], b[i]);
}

static void compare_memory(void)
{
    for (size_t p = 0; p < PARTS; p++) {
        if (memcmp(sides[0].lent[p], sides[1].lent[p], widths[p] * lengths[p]) == 0)
            continue;
        for (size_t i = 0; i < lengths[p]; i++)
            if (get(&sides[0], p, i) != get(&sides[1], p, i))
                differ(part_names[p], i, get(&sides[0], p, i), get(&sides[1], p, i));
    }
}

/* "New blocks white while marking": the mistake of the plain side, where it is asked for. */
static void make_mistake(const uint32_t *answer)
{
    struct side *s = &sides[1];
    const struct plain_regs *r = s->heap.regs;
    if (proved[call].numbers[0] == HOLDER && answer[0] == 0 && r->phase == 1)
        s->heap.colours[answer[1] - 2] = 0;
}

static void do_call(void)
{
    uint32_t answers[2][MOST_ANSWER];
    size_t n[2];
    made++;
    for (size_t s = 0; s < 2; s++)
        n[s] = sides[s].calls[call].perform(&sides[s].heap, numbers, answers[s]);
    if (spoil)
        make_mistake(answers[1]);
    compare_answers(answers[0], n[0], answers[1], n[1]);
    compare_memory();
    answered[call][answers[0][0] & 15]++;
}

/* ---- a round ---- */

/* A number that may stand anywhere, as a rule one near the blocks' numbers. */
static uint32_t any(void)
{
    return one_in(4) ? odd() : below(blocks() + 4);
}

/* One number of the heap, changed on both sides. */
static void damage(void)
{
    size_t part = below(BYTES + 1);
    if (lengths[part] == 0)
        return;
    put(part, below((uint32_t)lengths[part]), part == BYTES ? below(256) : any());
}

/* Contents that nothing made. */
static void scatter(void)
{
    for (size_t part = 0; part < PARTS; part++)
        for (size_t i = 0; i < lengths[part]; i++)
            put(part, i, part == BYTES ? below(256) : any());
    put(RECORD, 0, (uint32_t)lengths[COLOURS]);
    put(RECORD, 1, below(6));
    put(RECORD, PHASE, below(3));
    put(RECORD, 3, 1);
    put(RECORD, MARK, one_in(8) ? any() : 2 + below(blocks() + 1));
    put(RECORD, POSITION, regs()->phase == 2 ? 2 + below(one_in(8) ? blocks() + 1 : regs()->mark) : 0);
}

static size_t call_named(const char *name)
{
    size_t i = 0;
    while (strcmp(proved[i].name, name) != 0)
        i++;
    return i;
}

/* The audit of a heap in which one colour, one reference or the mark is another that is legal in itself. It is put back afterwards,
   so that the next audit, too, is of a heap that is nearly well-formed. */
static void audit_bent(void)
{
    static const uint32_t colours[] = {0, 1, 4294967294u, 4294967295u};
    size_t b = below(blocks()), w = 8 * b + below(8);
    uint32_t colour = get(&sides[0], COLOURS, b), value = get(&sides[0], WORDS, w), byte = get(&sides[0], BYTES, b);
    uint32_t mark = regs()->mark;
    if (one_in(4)) {
        put(RECORD, MARK, 1 + below(blocks() + 1));
    } else if (one_in(2)) {
        put(COLOURS, b, colours[below(4)]);
    } else {
        put(WORDS, w, 2 + below(blocks()));
        put(BYTES, b, byte | 1u << w % 8);
    }
    call = call_named("audit");
    do_call();
    put(RECORD, MARK, mark);
    put(COLOURS, b, colour);
    put(WORDS, w, value);
    put(BYTES, b, byte);
}

/* Save, then Load of the image with one byte of it changed. Most changes give no image; some give that of another heap. What was
   saved is loaded again afterwards. */
static void load_bent(void)
{
    size_t at = one_in(2) ? below(lengths[IMAGE] < 60 ? (uint32_t)lengths[IMAGE] : 60) : below((uint32_t)lengths[IMAGE]);
    uint32_t was;
    call = call_named("save");
    do_call();
    was = get(&sides[0], IMAGE, at);
    put(IMAGE, at, one_in(2) ? was ^ 1u << below(8) : below(256));
    call = call_named("load");
    do_call();
    put(IMAGE, at, was);
    do_call();
}

/* Puts the buffers where they were, with their lengths. */
static void put_back(void)
{
    for (size_t s = 0; s < 2; s++)
        place(&sides[s], sides[s].lent[RECORD] != sides[s].start[RECORD]);
}

/* Save, then Load of the same image as an earlier release wrote it: nine registers, the mark left out. */
static void load_earlier(void)
{
    size_t behind = 4 + 4 * EARLIER_REGISTERS;
    call = call_named("save");
    do_call();
    for (size_t i = behind; i + 4 < lengths[IMAGE]; i++)
        put(IMAGE, i, get(&sides[0], IMAGE, i + 4));
    put(IMAGE, 0, EARLIER_REGISTERS);
    for (size_t s = 0; s < 2; s++)
        sides[s].heap.image_length -= 4;
    call = call_named("load");
    do_call();
    put_back();
}

/* Load of what was saved, with a buffer that is lent one element short. */
static void load_short(void)
{
    size_t part = 1 + below(3);
    for (size_t s = 0; s < 2; s++)
        *(part == WORDS     ? &sides[s].heap.words_length
          : part == COLOURS ? &sides[s].heap.colours_length
                            : &sides[s].heap.bytes_length) -= 1;
    call = call_named("load");
    do_call();
    put_back();
}

/* Why of a block, with something left behind in the buffers that are lent for the path and for working. */
static void ask_littered(void)
{
    static const size_t littered[] = {OUT, QUEUE, CAME};
    for (size_t p = 0; p < 3; p++)
        for (size_t i = 0, length = lengths[littered[p]]; i < 4 && length != 0; i++)
            put(littered[p], below((uint32_t)length), any());
    call = call_named("why");
    numbers[0] = block();
    do_call();
}

/* A fresh heap; with a number that doesn't fit it stays a record of zeroes. */
static void format(uint32_t m)
{
    call = call_named("format");
    numbers[0] = m;
    numbers[1] = drawn(PACE);
    do_call();
}

static uint32_t size(void)
{
    if (one_in(4096))
        return 1 + below(MOST);
    if (one_in(32))
        return 41 + below(260);
    return 1 + below(one_in(2) ? 8 : 40);
}

/* Room for m blocks, now and then with a length that doesn't fit. */
static void lay_out(uint32_t m)
{
    size_t part = 1 + below(3);
    lengths[RECORD] = REGISTERS;
    lengths[WORDS] = 8 * (size_t)m;
    lengths[COLOURS] = lengths[BYTES] = m;
    lengths[OUT] = one_in(2) ? 8 * (size_t)m : one_in(4) ? 2 * (size_t)m : below(8 * m + 9);
    lengths[QUEUE] = m + (one_in(4) ? below(8) : 0);
    lengths[CAME] = m + (one_in(4) ? below(8) : 0);
    if (one_in(16))
        lengths[one_in(2) ? QUEUE : CAME] = one_in(2) ? m - 1 : below(m);
    lengths[IMAGE] = 56 + 37 * (size_t)m;
    if (one_in(8))
        lengths[IMAGE] = one_in(2) ? below(56 + 37 * m) : lengths[IMAGE] + 1 - 2 * below(2);
    if (one_in(64))
        lengths[part] = one_in(4) ? 0 : lengths[part] + 1 - 2 * below(2);
    for (size_t s = 0; s < 2; s++) {
        place(&sides[s], made % 2 == 0);
        for (size_t i = 0; i < PARTS; i++)
            memset(sides[s].lent[i], 0, widths[i] * lengths[i]);
    }
}

static void play(void)
{
    uint32_t m = size(), length = m > 300 ? 40 : 20 + below(400), damaged = one_in(3) ? 24 : 0;
    lay_out(m);
    if (one_in(8))
        scatter();
    else
        format(m);
    for (uint32_t i = 0; i < length; i++) {
        if (damaged && one_in(damaged))
            damage();
        if (!damaged && one_in(8) && blocks() != 0)
            audit_bent();
        if (!damaged && one_in(8) && lengths[IMAGE] != 0)
            load_bent();
        if (!damaged && one_in(32) && lengths[IMAGE] >= 4)
            load_earlier();
        if (!damaged && one_in(64) && blocks() != 0)
            load_short();
        if (!damaged && one_in(8))
            ask_littered();
        draw_call();
        do_call();
    }
}

/* ---- the program ---- */

static void print_counts(void)
{
    for (size_t i = 0; i < CALLS; i++) {
        printf("%s:", proved[i].name);
        for (size_t k = 0; k < 16; k++)
            if (answered[i][k])
                printf("  %lu %llu", (unsigned long)k, answered[i][k]);
        printf("\n");
    }
}

static int take_arguments(int argc, char **argv, double *seconds)
{
    int i = 1;
    for (; i < argc && argv[i][0] == '-'; i++) {
        spoil |= strcmp(argv[i], "--spoil") == 0;
        counts |= strcmp(argv[i], "--counts") == 0;
    }
    if (argc - i != 2)
        return 0;
    seed = strtoull(argv[i], NULL, 10);
    *seconds = strtod(argv[i + 1], NULL);
    return 1;
}

int main(int argc, char **argv)
{
    double seconds;
    time_t begun = time(NULL);
    if (!take_arguments(argc, argv, &seconds)) {
        printf("usage: fuzz [--spoil] [--counts] SEED SECONDS\n");
        return 2;
    }
    signal(SIGSEGV, outside);
    signal(SIGBUS, outside);
    set_up(&sides[0], proved);
    set_up(&sides[1], written);
    state = seed;
    do
        play();
    while (difftime(time(NULL), begun) < seconds);
    if (counts)
        print_counts();
    printf("fuzz: seed %llu, %llu calls, no difference\n", seed, made);
    return fflush(stdout) != 0;
}
