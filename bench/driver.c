/* The calls that are counted, each on a heap laid out for it.

       driver lines|steps calls      each measure, on heaps of 1,024, 4,096 and 16,384 blocks
       driver lines|steps long N     N allocations while a list of 300 rows lives and garbage is made at every step
       driver lines|steps small      a list of 100 rows on 16,384 blocks: allocations with garbage, and a whole cycle. It doesn't
                                     touch the record, so it can be counted on an archive of an earlier release too

   A line of output is a call: its name, M, the measure's name, the units asked for where the measure is of units (else 0), and
   with `steps` the call's instructions. With `lines` another program counts them. `calls` prints a line for every call made,
   `long` for every Allocate, `small` for every Allocate and every Work; a call that only prepares has `-` for its measure. Every heap
   laid out here is one that the audit accepts. */
#include "machine.h"
#include "steps.h"
#include <stdio.h>
#include <stdlib.h>
#include <string.h>

enum { IDLE, MARKING, SWEEPING };
/* Colour words; LAST is that of the last grey block. */
static const uint32_t WHITE = 0, LAST = 1, BLACK = 4294967295u, FREE = 4294967294u;

/* Two of the reasons that Why gives. */
enum { WHY_FREE = 1, WHY_REACHABLE = 3 };

/* ---- the heap, and a call on it ---- */

enum { MOST = 16384 };
static struct MACHINE(regs) r;
static uint32_t m, words[8 * MOST], colours[MOST];
static uint8_t bytes[MOST];
enum { ROOM = 7000 };
static uint32_t out[ROOM];
static uint8_t image[56 + 37 * MOST];
static uint32_t path[2 * MOST], queue[MOST], came[MOST];
#define LENT words, 8 * (size_t)m, colours, m, bytes, m

/* The call's name; the measure's name, NULL where a call only prepares; its units; whether this program counts. */
static const char *call_name, *name;
static uint32_t units;
static int by_steps;

static void before(const char *call, uintptr_t function)
{
    call_name = call;
    if (by_steps && name)
        steps_begin(function);
}

/* Ends the program where a call was refused: no measure is of a refusal. */
static void after(uint32_t refusal)
{
    unsigned long long n = by_steps && name ? steps_end() : 0;
    if (refusal != 0) {
        fprintf(stderr, "driver: %s for %s, M = %u: refused by %u\n", call_name, name ? name : "-", (unsigned)m, (unsigned)refusal);
        exit(1);
    }
    printf("%s %u %s %u", call_name, (unsigned)m, name ? name : "-", (unsigned)units);
    printf(by_steps ? " %llu\n" : "\n", n);
}

#define CALL(call, ...) (before(#call, (uintptr_t)MACHINE(call)), MACHINE(call)(__VA_ARGS__))

/* The calls from here on are of this measure. */
static void measure(const char *of, uint32_t asked)
{
    name = of;
    units = asked;
}

static void prepare(void)
{
    measure(NULL, 0);
}

static uint32_t allocate(uint32_t b, uint32_t w)
{
    struct MACHINE(answer) a = CALL(allocate, &r, LENT, b, w);
    after(a.refusal);
    return a.value;
}

static void work(uint32_t n)
{
    after(CALL(work, &r, LENT, n).refusal);
}

static void audit(void)
{
    struct MACHINE(answer) a = CALL(audit, MACHINE_SEEN(r), LENT);
    after(a.value == 1 ? 0 : 10);
}

/* ---- laying out a heap ---- */

static void fresh(uint32_t u)
{
    prepare();
    after(CALL(format, &r, LENT, m, u).refusal);
}

/* The word becomes a reference to t. */
static void refer(uint32_t b, uint32_t w, uint32_t t)
{
    words[8 * (b - 2) + w] = t;
    bytes[b - 2] |= (uint8_t)(1u << w);
}

/* A heap whose blocks were all handed out, and are free again. */
static void used(uint32_t u)
{
    fresh(u);
    r.mark = m + 1;
}

/* Every block is allocated, of one colour, and holds eight zeroes. */
static void all(uint32_t colour)
{
    used(1);
    memset(words, 0, 32 * (size_t)m);
    for (uint32_t i = 0; i < m; i++)
        colours[i] = colour;
    r.free = r.count = 0;
}

/* The first n blocks are allocated and white, block 2 is the root, and the other blocks are free again. */
static void first(uint32_t u, uint32_t n)
{
    used(u);
    for (uint32_t i = 0; i < n; i++) {
        words[8 * i] = 0;
        colours[i] = WHITE;
    }
    r.free = n + 2;
    r.count = m - n;
    r.root = 2;
}

/* Blocks 2, the root, and 3 are allocated and white. */
static void two(void)
{
    first(1, 2);
}

/* The same while marking: the root is black. */
static void two_marking(void)
{
    two();
    colours[0] = BLACK;
    r.phase = MARKING;
}

/* ---- units: each measure is n units in one Work, and what the larger n adds is of one kind ---- */

/* n grey blocks, each with k references to the last block. That is black, or grey and the end of the list. */
static void marking(const char *of, uint32_t n, uint32_t k, uint32_t colour)
{
    all(WHITE);
    r.phase = MARKING;
    r.grey = r.root = 2;
    for (uint32_t i = 0; i < n; i++)
        colours[i] = i + 3;
    colours[n - 1] = colour == BLACK ? 1 : m + 1;
    colours[m - 1] = colour;
    for (uint32_t i = 0; i < n * k; i++)
        refer(2 + i / k, i % k, m + 1);
    audit();
    measure(of, n);
    work(n);
}

/* A grey block with k references: the first to a grey block, then so many to white blocks. The last of these is marked next, and
   has k such references too, and so on n times. */
static void chain(uint32_t n, uint32_t k, uint32_t whites)
{
    uint32_t b = 2, white = 3;
    all(WHITE);
    r.phase = MARKING;
    r.grey = r.root = 2;
    colours[0] = m;
    colours[m - 2] = LAST;
    for (uint32_t i = 0; i < n * k; i++) {
        refer(b, i % k, i % k < k - whites ? m : white++);
        if (i % k == k - 1)
            b = white - 1;
    }
}

/* Of k references, all to white blocks. */
static void marking_white(const char *of, uint32_t n, uint32_t k)
{
    chain(n, k, k);
    audit();
    measure(of, n);
    work(n);
}

/* The blocks from 2 on, all of one colour. */
static void sweeping(const char *of, uint32_t n, uint32_t colour)
{
    if (colour == FREE)
        used(1);
    else
        all(colour);
    r.phase = SWEEPING;
    r.position = 2;
    audit();
    measure(of, n);
    work(n);
}

/* The last block is swept, and then a cycle starts, with a root. */
static void starting(uint32_t n)
{
    two();
    r.phase = SWEEPING;
    r.position = m + 1;
    audit();
    measure("starting", n);
    work(n);
}

/* The only grey block, without references, is marked, and then the grey list is found empty. */
static void turning(uint32_t n)
{
    two();
    r.phase = MARKING;
    r.grey = 2;
    colours[0] = LAST;
    audit();
    measure("turning", n);
    work(n);
}

/* Work of a single unit, which starts a cycle, with a root. */
static void starting_alone(void)
{
    two();
    audit();
    measure("starting-alone", 0);
    work(1);
}

/* Work of a single unit, which finds the grey list empty. */
static void turning_alone(void)
{
    two_marking();
    audit();
    measure("turning-alone", 0);
    work(1);
}

/* Each kind of unit, n of them. */
static void unit_measures(uint32_t n)
{
    marking("marking-0", n, 0, BLACK);
    marking("marking-1", n, 1, BLACK);
    marking("marking-2", n, 2, BLACK);
    marking("marking-8", n, 8, BLACK);
    marking("marking-grey-1", n, 1, LAST);
    marking("marking-grey-2", n, 2, LAST);
    marking("marking-grey-8", n, 8, LAST);
    marking_white("marking-white-1", n, 1);
    marking_white("marking-white-2", n, 2);
    marking_white("marking-white-8", n, 8);
    sweeping("sweeping-free", n, FREE);
    sweeping("sweeping-black", n, BLACK);
    sweeping("sweeping-white", n, WHITE);
}

/* ---- calls of constant cost ---- */

static void idle_measures(void)
{
    two();
    refer(2, 1, 3);
    audit();
    measure("read", 0);
    after(CALL(read, MACHINE_SEEN(r), LENT, 2, 1).refusal);
    measure("look", 0);
    after(CALL(look, MACHINE_SEEN(r), LENT, 2).refusal);
    measure("state", 0);
    after(CALL(state, MACHINE_SEEN(r), LENT, 2).refusal);
    measure("store-number", 0);
    after(CALL(store_number, &r, LENT, 2, 7, 5).refusal);
    measure("store-reference", 0);
    after(CALL(store_reference, &r, LENT, 2, 2, 3).refusal);
    measure("set-root", 0);
    after(CALL(set_root, &r, LENT, 3).refusal);
    measure("work-0", 0);
    work(0);
}

/* The same calls with a white target while marking, which is greyed. */
static void barrier_measures(void)
{
    two_marking();
    audit();
    measure("store-reference-white", 0);
    after(CALL(store_reference, &r, LENT, 2, 1, 3).refusal);
    two_marking();
    measure("set-root-white", 0);
    after(CALL(set_root, &r, LENT, 3).refusal);
}

/* ---- Allocate ---- */

/* Allocates at words 1 to 7 of block 2 in turn until so many cycles were started. What the word held becomes garbage. */
static void until_cycle(uint32_t cycle)
{
    for (uint32_t i = 0; r.cycle < cycle; i++)
        allocate(2, 1 + i % 7);
}

/* One whole cycle, after two. It sweeps all blocks. */
static void whole_cycle(const char *of)
{
    until_cycle(3);
    measure(of, 0);
    until_cycle(4);
    prepare();
    audit();
}

/* Eight blocks live: the root and the seven that it names. */
static void steady(const char *of, uint32_t u)
{
    used(u);
    allocate(0, 0);
    whole_cycle(of);
}

/* A quarter of the blocks live in a list besides, each naming the next in word 0. The root is the first of them. */
static void steady_list(const char *of, uint32_t u)
{
    first(u, m / 4);
    for (uint32_t b = 2; b <= m / 4; b++)
        refer(b, 0, b + 1);
    audit();
    whole_cycle(of);
}

/* Ten units that each mark a block with eight references, so many of them to white blocks and the others to a grey one. */
static void dear(uint32_t whites)
{
    chain(10, 8, whites);
    r.pace = 10;
    colours[m - 1] = FREE;
    r.free = m + 1;
    r.count = 1;
    audit();
    measure("dear", 0);
    allocate(2, 0);
}

/* ---- objects ---- */

/* An object of n blocks at pace 1 while free blocks are swept: what the larger n adds is a block and such a unit each. */
static void chaining(uint32_t n)
{
    used(1);
    r.phase = SWEEPING;
    r.position = 2;
    audit();
    measure("chain", n);
    after(CALL(allocate_chain, &r, LENT, 0, 0, n).refusal);
}

/* Each call on field k of the object at the root, under these names. */
static void field_measures(const char *read_name, const char *number_name, const char *reference_name, uint32_t k)
{
    measure(read_name, 0);
    after(CALL(read_field, MACHINE_SEEN(r), LENT, r.root, k).refusal);
    measure(number_name, 0);
    after(CALL(store_field_number, &r, LENT, r.root, k, 5).refusal);
    measure(reference_name, 0);
    after(CALL(store_field_reference, &r, LENT, r.root, k, r.root).refusal);
}

static void object_measures(void)
{
    chaining(50);
    chaining(100);
    fresh(1);
    after(CALL(allocate_chain, &r, LENT, 0, 0, 256).refusal);
    audit();
    field_measures("read-field-6", "store-field-number-6", "store-field-reference-6", 6);
    field_measures("read-field-7", "store-field-number-7", "store-field-reference-7", 7);
    field_measures("read-field-70", "store-field-number-70", "store-field-reference-70", 70);
    field_measures("read-field-1791", "store-field-number-1791", "store-field-reference-1791", 1791);
    prepare();
    audit();
}

/* ---- exports: each measure is n rows in one call, and what the larger n adds is a row each ---- */

/* A list of n objects of k blocks each, linked by field 0. */
static void rows(uint32_t n, uint32_t k)
{
    all(WHITE);
    r.root = 2;
    for (uint32_t i = 0; i < n * k; i++)
        refer(2 + i, 7, i % k == k - 1 ? 0 : 3 + i);
    for (uint32_t i = 0; i < n; i++)
        refer(2 + i * k, 0, i == n - 1 ? 0 : 2 + (i + 1) * k);
    audit();
}

/* The same list, all the fields of its objects. */
static void objects(const char *of, uint32_t n, uint32_t k)
{
    rows(n, k);
    measure(of, n);
    after(CALL(export_objects, MACHINE_SEEN(r), LENT, out, ROOM, r.root, 7 * k, 0).reason);
}

static void export_measures(uint32_t n)
{
    rows(n, 1);
    measure("export", n);
    after(CALL(export, MACHINE_SEEN(r), LENT, out, ROOM, r.root, 0).reason);
    objects("export-objects-1", n, 1);
    objects("export-objects-2", n, 2);
    objects("export-objects-100", n / 10, 100);
}

/* ---- calls of linear cost ---- */

/* The image of the heap, written, and read back into the same buffers. */
static void image_measures(const char *save_name, const char *load_name)
{
    size_t length = 56 + 37 * (size_t)m;
    measure(save_name, 0);
    after(CALL(save, MACHINE_SEEN(r), LENT, image, length).refusal);
    measure(load_name, 0);
    after(CALL(load, &r, LENT, image, length).refusal);
}

/* Why of a block, for this reason. */
static void why(const char *of, uint32_t b, uint32_t reason)
{
    struct MACHINE(why_answer) a;
    measure(of, 0);
    a = CALL(why, MACHINE_SEEN(r), LENT, path, 2 * (size_t)m, queue, m, came, m, b);
    after(a.refusal != 0 ? a.refusal : a.reason == reason ? 0 : 99);
}

/* Why of the last block of a list that has all blocks, each naming the next in word 0. */
static void why_list(void)
{
    all(WHITE);
    r.root = 2;
    for (uint32_t b = 2; b <= m; b++)
        refer(b, 0, b + 1);
    audit();
    why("why-list", m + 1, WHY_REACHABLE);
}

/* Of four blocks in turn the first lives in a list, each naming the next in word 0, the second is garbage that holds eight numbers,
   and the other two are free. */
static void mixed(void)
{
    all(WHITE);
    r.root = 2;
    for (uint32_t b = m + 1; b >= 2; b--)
        if (b % 4 == 2) {
            refer(b, 0, b + 4 > m + 1 ? 0 : b + 4);
        } else if (b % 4 != 3) {
            words[8 * (b - 2)] = r.free;
            colours[b - 2] = FREE;
            r.free = b;
            r.count++;
        }
}

static void linear_measures(void)
{
    why_list();
    measure("format", 0);
    after(CALL(format, &r, LENT, m, 1).refusal);
    measure("audit-free", 0);
    audit();
    image_measures("save-free", "load-free");
    why("why-free", 2, WHY_FREE);
    all(WHITE);
    r.root = 2;
    for (uint32_t i = 0; i < 8 * m; i++)
        refer(2 + i / 8, i % 8, 2 + i % m);
    measure("audit-8", 0);
    audit();
    image_measures("save-8", "load-8");
    why("why-8", m + 1, WHY_REACHABLE);
    mixed();
    measure("audit-mixed", 0);
    audit();
}

static void calls(uint32_t size)
{
    m = size;
    unit_measures(50);
    unit_measures(100);
    starting(1);
    starting(2);
    turning(1);
    turning(2);
    starting_alone();
    turning_alone();
    idle_measures();
    barrier_measures();
    steady("allocate-4", 4);
    steady("allocate-10", 10);
    steady_list("allocate-list-4", 4);
    steady_list("allocate-list-10", 10);
    for (uint32_t whites = 1; whites <= 8; whites++)
        dear(whites);
    object_measures();
    export_measures(50);
    export_measures(100);
    linear_measures();
}

/* ---- the long run ---- */

/* No line is printed for these. */
static void link(uint32_t b, uint32_t w, uint32_t t)
{
    if (MACHINE(store_reference)(&r, LENT, b, w, t).refusal != 0)
        exit(1);
}

/* Block 2 is the root. Its word 0 names a list of so many rows, each with its next row in word 0. */
static void build_list(uint32_t rows)
{
    allocate(0, 0);
    for (uint32_t i = 0; i < rows; i++) {
        uint32_t row = allocate(2, 1);
        link(row, 0, words[0]);
        link(2, 0, row);
    }
}

/* A step of it: a block that names the list, in the place of one that becomes garbage. */
static void step(uint32_t w)
{
    link(allocate(2, w), 0, words[0]);
}

static void long_run(uint32_t n)
{
    m = 1024;
    if (MACHINE(format)(&r, LENT, m, 10).refusal != 0)
        exit(1);
    build_list(300);
    for (uint32_t i = 0; i < 14; i++)
        allocate(2, 1 + i % 7);
    measure("long", 0);
    for (uint32_t i = 0; i < n; i++)
        step(1 + i % 7);
}

/* ---- a small report on the largest heap ---- */

/* Before the mark was kept a cycle visited all blocks, so that SMALL_STEPS is about one such cycle. */
enum { SMALL_ROWS = 100, SMALL_BEFORE = 3400, SMALL_STEPS = 1700 };

/* A cycle in single units, from its start to its end. Answers how many there were. */
static uint32_t units_of_cycle(void)
{
    uint32_t n = 0;
    do {
        work(1);
        n++;
    } while (r.phase != IDLE);
    return n;
}

/* Allocations while the list lives; then, once nothing is left to be freed, a whole cycle in one Work. */
static void small(void)
{
    uint32_t n;
    m = MOST;
    if (MACHINE(format)(&r, LENT, m, 10).refusal != 0)
        exit(1);
    build_list(SMALL_ROWS);
    for (uint32_t i = 0; i < SMALL_BEFORE; i++)
        step(1 + i % 7);
    measure("small", 0);
    for (uint32_t i = 0; i < SMALL_STEPS; i++)
        step(1 + i % 7);
    prepare();
    if (r.phase != IDLE)
        units_of_cycle();
    units_of_cycle();
    n = units_of_cycle();
    measure("small-cycle", n);
    work(n);
}

int main(int argc, char **argv)
{
    static const uint32_t sizes[] = {1024, 4096, 16384};
    if (argc < 3) {
        fprintf(stderr, "usage: driver lines|steps calls|long|small [N]\n");
        return 2;
    }
    by_steps = strcmp(argv[1], "steps") == 0;
    if (strcmp(argv[2], "long") == 0)
        long_run(argc > 3 ? (uint32_t)strtoul(argv[3], NULL, 10) : 1000);
    else if (strcmp(argv[2], "small") == 0)
        small();
    else
        for (size_t i = 0; i < sizeof sizes / sizeof *sizes; i++)
            calls(sizes[i]);
    return fflush(stdout) != 0;
}
