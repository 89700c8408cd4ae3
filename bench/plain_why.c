/* Why of the plain machine: what keeps a block, and the least path to it from the root. See plain.h. */
#include "plain_layout.h"
#include <string.h>

/* The reasons, as the library's header numbers them. */
enum { REASON_FREE = 1, REASON_DOOMED, REASON_REACHABLE, REASON_KEPT };

/* How the search came to a block: not at all; as the root; else 8 times the block that names it, plus the word. */
enum { NOT_YET = 0, AS_ROOT = 1 };

/* 1, 10, 3, 13 or 0. */
static uint32_t refusal_of(const struct plain_regs *r, PLAIN_SEEN, size_t path_length, size_t queue_length, size_t came_length,
                           uint32_t b)
{
    size_t m = r->blocks;
    if (!fits(r->blocks, r->pace, words_length, colours_length, bytes_length))
        return 1;
    if (!plain_is_well_formed(r, words, words_length, colours, colours_length, bytes, bytes_length))
        return 10;
    if (!is_block(r->blocks, b))
        return 3;
    return path_length < 2 * m || queue_length < m || came_length < m ? 13 : 0;
}

/* Breadth first from the root, each block's words rising: every reachable block is put into the queue once, and came tells how it was
   come to. The heap is well-formed, so that each reference is null or names a block. came holds zeroes before. */
static void search(const struct plain_regs *r, const uint32_t *words, const uint8_t *bytes, uint32_t *queue, uint32_t *came)
{
    size_t first = 0, last = 0;
    if (r->root != 0) {
        queue[last++] = r->root;
        came[r->root - 2] = AS_ROOT;
    }
    while (first < last) {
        uint32_t b = queue[first++];
        for (uint32_t rest = bytes[b - 2]; rest != 0; rest &= rest - 1) {
            uint32_t w = (uint32_t)__builtin_ctz(rest), t = words[8 * (size_t)(b - 2) + w];
            if (t != 0 && came[t - 2] == NOT_YET) {
                queue[last++] = t;
                came[t - 2] = 8 * b + w;
            }
        }
    }
}

/* How many pairs lead to a block that was come to. */
static uint32_t pairs_to(const uint32_t *came, uint32_t b)
{
    uint32_t pairs = 0;
    for (uint32_t c = came[b - 2]; c != AS_ROOT; c = came[c / 8 - 2])
        pairs++;
    return pairs;
}

/* Writes these pairs, from the last to the first. */
static void write_path(const uint32_t *came, uint32_t b, uint32_t pairs, uint32_t *path)
{
    for (uint32_t c = came[b - 2]; pairs > 0; c = came[c / 8 - 2]) {
        pairs--;
        path[2 * (size_t)pairs] = c / 8;
        path[2 * (size_t)pairs + 1] = c % 8;
    }
}

struct plain_why_answer plain_why(const struct plain_regs *r, PLAIN_SEEN, uint32_t *path, size_t path_length, uint32_t *queue,
                                  size_t queue_length, uint32_t *came, size_t came_length, uint32_t b)
{
    struct plain_why_answer a = {.refusal = refusal_of(r, words, words_length, colours, colours_length, bytes, bytes_length,
                                                       path_length, queue_length, came_length, b)};
    uint32_t state;
    if (a.refusal != 0)
        return a;
    memset(path, 0, path_length * sizeof *path);
    memset(came, 0, came_length * sizeof *came);
    state = told(r, colours, b);
    if (state == TOLD_FREE) {
        a.reason = REASON_FREE;
    } else if (state == TOLD_DOOMED) {
        a.reason = REASON_DOOMED;
    } else {
        search(r, words, bytes, queue, came);
        if (came[b - 2] == NOT_YET) {
            a.reason = REASON_KEPT;
            a.state = state;
        } else {
            a.reason = REASON_REACHABLE;
            a.pairs = pairs_to(came, b);
            write_path(came, b, a.pairs, path);
        }
        memset(came, 0, came_length * sizeof *came);
    }
    memset(queue, 0, queue_length * sizeof *queue);
    return a;
}
