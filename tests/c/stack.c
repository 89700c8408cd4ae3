/* How much stack the calls take: some thousand calls on a heap of 40 blocks, each on a stack of its own that was filled before.
   What counts is from the call's arguments on down. With `stack NUMBER` it says which call takes more bytes than that, and exits
   with 1; it prints the deepest. */
#define _XOPEN_SOURCE 700
#include "machine.h"
#include <stdio.h>
#include <stdlib.h>
#include <ucontext.h>

enum { M = 40, STACK = 1 << 16, FILLED = 0xA5, TURNS = 20000 };

static struct MACHINE(regs) regs;
static uint32_t words[8 * M], colours[M], out[8 * M], queue[M], came[M];
static uint8_t bytes[M], image[56 + 37 * M];
static struct heap heap = {.regs = &regs, .words = words, .colours = colours, .out = out, .queue = queue, .came = came,
                           .bytes = bytes, .image = image, .words_length = 8 * M, .colours_length = M, .bytes_length = M,
                           .out_length = 8 * M, .image_length = sizeof image, .queue_length = M, .came_length = M};

static unsigned char stack[STACK];
static ucontext_t here, there;
static size_t (*perform)(struct heap *h, const uint32_t *x, uint32_t *a);
static uint32_t numbers[MOST_NUMBERS], answer[MOST_ANSWER];

static size_t nothing(struct heap *h, const uint32_t *x, uint32_t *a)
{
    (void)h, (void)x, (void)a;
    return 0;
}

static void entered(void)
{
    perform(&heap, numbers, answer);
}

/* The bytes of the stack that a function takes. */
static size_t taken(size_t (*function)(struct heap *, const uint32_t *, uint32_t *))
{
    size_t untouched = 0;
    memset(stack, FILLED, sizeof stack);
    getcontext(&there);
    there.uc_stack.ss_sp = stack;
    there.uc_stack.ss_size = sizeof stack;
    there.uc_link = &here;
    perform = function;
    makecontext(&there, entered, 0);
    swapcontext(&here, &there);
    while (stack[untouched] == FILLED)
        untouched++;
    return sizeof stack - untouched;
}

/* Numbers that are mostly sensible: small, and small words. */
static void draw(const struct call *c)
{
    static uint32_t state = 1;
    for (unsigned i = 0; i < c->count; i++) {
        state = state * 1664525u + 1013904223u;
        numbers[i] = (state >> 16) % (c->numbers[i] == WORD ? 4 : c->numbers[i] == LENGTH ? 6 : M + 2);
    }
    if (c->numbers[0] == BLOCKS)
        numbers[0] = M, numbers[1] = 5;
    if (c->numbers[0] == HOLDER && regs.root == 0)
        numbers[0] = numbers[1] = 0;
}

int main(int argc, char **argv)
{
    size_t most = argc > 1 ? strtoul(argv[1], NULL, 10) : STACK, deepest = 0, own = taken(nothing);
    for (unsigned i = 0; i < TURNS; i++) {
        /* Format at the start, and once more. */
        const struct call *c = &calls[i % (TURNS / 2) == 0 ? 0 : 1 + (i * 7919u >> 3) % (CALLS - 1)];
        size_t bytes_taken;
        draw(c);
        bytes_taken = taken(c->perform) - own;
        if (bytes_taken > most) {
            printf("%s takes %lu bytes of stack\n", c->name, (unsigned long)bytes_taken);
            return 1;
        }
        deepest = bytes_taken > deepest ? bytes_taken : deepest;
    }
    printf("the deepest call takes %lu bytes of stack\n", (unsigned long)deepest);
    return 0;
}
