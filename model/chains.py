"""Objects longer than a block: document 02's request L1.

An object is a chain of 1 to 256 blocks. Words 0 to 6 of each hold fields, word
7 is the reference to the next block, null at the end. Field k stands in block
k/7 of the chain, word k mod 7. The heap, the unit and document 01's calls are
those of machine.py; the answers have the same form.
"""

import machine
from machine import FREE, NO_BLOCK

MOST_BLOCKS = 256
MOST_FIELD = 7 * MOST_BLOCKS - 1        # 1,791
LINK = 7


# ------------------------------------------------------------- allocate chain

def refusal_of_length(n):
    """3: n outside 1 to 256."""
    return 0 if 1 <= n <= MOST_BLOCKS else 3


def first_free(h, n):
    """(8, none) or (7, none) where n blocks can't be taken; else 0 and the
    first n of the free list."""
    if (h.free_head == NO_BLOCK) != (h.free_count == 0):
        return 8, []            # head and count: one is 0 and the other isn't
    if h.free_count < n:
        return 7, []            # exactly when fewer than n are free
    found, at = [], h.free_head
    for _ in range(n):
        if at == NO_BLOCK:
            return 8, []        # the list ends early
        if at in found:
            return 8, []        # it repeats a block
        if machine.colour(h, at) != FREE:
            return 8, []        # a block not coloured free
        link = machine.get_word(h, at, 0)
        if link != NO_BLOCK and not machine.is_block(h, link):
            return 8, []        # whose link is no block and not 0
        found.append(at)
        at = link
    return 0, found


def allocate_chain(h, block, word, n):
    """n times the pace in units, pace 0 worked out once at entry; then the
    holder's tests; then all n or none: the first n of the free list, chained in
    its order, each word 7's bit set, the value the first."""
    no = (machine.refusal_of_heap(h) or machine.refusal_of_holder_place(h, block, word)
          or refusal_of_length(n))
    if no:
        return no, 0, 0
    wanted = n * machine.units_of_allocation(h)
    done = machine.units_done(h, wanted)
    if done < wanted:
        return 8, 0, done
    no = machine.refusal_of_block(h, block) if block != NO_BLOCK else 0
    if no:
        return no, 0, done
    no, taken = first_free(h, n)
    if no:
        return no, 0, done
    h.free_head = machine.get_word(h, taken[-1], 0)
    h.free_count -= n
    for new, following in zip(taken, [*taken[1:], NO_BLOCK]):
        machine.hand_out(h, new)
        machine.put_word(h, new, LINK, following)
        machine.put_bit(h, new, LINK, True)
    if block == NO_BLOCK:
        h.root = taken[0]
    else:
        machine.put_word(h, block, word, taken[0])
        machine.put_bit(h, block, word, True)
    return 0, taken[0], done


# --------------------------------------------------------------------- fields

def refusal_of_field(h, block, k):
    """3: block not 2 to M + 1, or k above 1,791."""
    return 0 if machine.is_block(h, block) and k <= MOST_FIELD else 3


def walk(h, block, k):
    """The block of the object that has field k: (0, block), or the refusal met
    on the way. At each block walked 8 and 5, then 3 when its word 7 must be
    followed and is null or no reference, 8 when that names no block."""
    for _ in range(k // 7):
        no = machine.refusal_of_block(h, block)
        if no:
            return no, None
        following = machine.get_word(h, block, LINK)
        if not machine.is_reference(h, block, LINK) or following == NO_BLOCK:
            return 3, None
        if not machine.is_block(h, following):
            return 8, None
        block = following
    return machine.refusal_of_block(h, block), block


def read_field(h, block, k):
    """The value of field k, and whether it is a reference (no on a refusal)."""
    no = machine.refusal_of_heap(h) or refusal_of_field(h, block, k)
    if no:
        return no, 0, 0, False
    no, at = walk(h, block, k)
    if no:
        return no, 0, 0, False
    return 0, machine.get_word(h, at, k % 7), 0, machine.is_reference(h, at, k % 7)


def store_field_number(h, block, k, value):
    """Stores the value and clears the bit."""
    no = machine.refusal_of_heap(h) or refusal_of_field(h, block, k)
    if no:
        return no, 0, 0
    no, at = walk(h, block, k)
    if no:
        return no, 0, 0
    machine.put_word(h, at, k % 7, value)
    machine.put_bit(h, at, k % 7, False)
    return 0, 0, 0


def store_field_reference(h, block, k, target):
    """Sets the bit, also for 0. While marking, a white target is greyed first."""
    no = (machine.refusal_of_heap(h) or refusal_of_field(h, block, k)
          or machine.refusal_of_target_number(h, target))
    if no:
        return no, 0, 0
    no, at = walk(h, block, k)
    no = no or machine.refusal_of_target(h, target)
    if no:
        return no, 0, 0
    machine.barrier(h, target)
    machine.put_word(h, at, k % 7, target)
    machine.put_bit(h, at, k % 7, True)
    return 0, 0, 0


# ------------------------------------------------------------------- demand 3

def has_room(N, M, K, B):
    """Demand 3's premise where a call asks for at most B blocks: K + 2N + B - 1
    is at most M. It follows from document 02's form, N + B - 1 for N."""
    return K + 2 * N + B - 1 <= M
