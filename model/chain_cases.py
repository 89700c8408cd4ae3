"""Cases of the calls on chained objects, worked out by hand from document 02's
request L1, one clause at a time.

Each case is (clause, call, numbers, heap, answer). All heaps but those of the
longest object have six blocks, so 8 is no block and no colour. check_chains.py runs
them on the model; calls.py puts them among the cases of tests/c.
"""

import chains
import machine
from damage import but, lent
from machine import BLACK, FREE, WHITE

OUT = 8                 # M + 2, for M = 6
TOP = 4294967295

CHAIN, READ, NUMBER, REFERENCE = ("allocate_chain", "read_field", "store_field_number",
                                  "store_field_reference")


def idle():
    """Idle, pace 1: the root is the object of blocks 2 and 3, both white; 4, 5,
    6, 7 are free, in this order. Two units begin a cycle and end it, since nothing
    was handed out yet; then the object is taken, and the mark is 3."""
    h = machine.empty_heap(6)
    machine.format(h, 6, 1)
    chains.allocate_chain(h, 0, 0, 2)
    return h


def dropped():
    """The same with no root: 2 and 3 are out of reach."""
    return but(idle(), root=0)


def dooming():
    """Two units on from dropped(): position 2, and 2 and 3 are doomed."""
    h = dropped()
    machine.work(h, 2)
    return h


def marking():
    """Block 4 hangs from field 7, which is word 0 of block 3. It is taken when a
    cycle has begun; six units mark 2 and 3, turn, and sweep 2, 3 and 4. Two units:
    2 is black, 3 is the only grey block, 4 is white."""
    h = idle()
    machine.allocate(h, 3, 0)
    machine.work(h, 6)
    machine.work(h, 2)
    return h


# ------------------------------------------------------------- allocate chain

def units_and_holder():
    """From idle() the units are: a cycle begins, 2 is marked, 3 is marked, the
    turn, 2 and 3 are swept, and so on."""
    for n in (1, 2, 3, 4):
        yield "the first n of the free list", CHAIN, (2, 0, n), idle(), (0, 4, n)
        yield "the first n of the free list", CHAIN, (0, 0, n), idle(), (0, 4, n)
        yield "n times the pace", CHAIN, (3, 6, n), but(idle(), U=7), (0, 4, 7 * n)
    for n in (0, 257, TOP):
        yield "n outside 1 to 256", CHAIN, (2, 0, n), idle(), (3, 0, 0)
        yield "3 before the units", CHAIN, (0, 0, n), but(idle(), {2: BLACK}), (3, 0, 0)
    for block, word in [(0, 1), (1, 0), (OUT, 0), (TOP, 0), (2, 8), (2, TOP)]:
        yield "no such holder", CHAIN, (block, word, 2), but(idle(), {2: BLACK}), (3, 0, 0)
    for n in (2, 256):
        yield "damage in the first unit", CHAIN, (2, 0, n), but(idle(), {2: BLACK}), (8, 0, 0)
        h = but(idle(), word={(3, 7): OUT})
        done = (0, 4, 2) if n == 2 else (8, 0, 2)
        yield "damage in the third unit", CHAIN, (2, 0, n), h, done
    for holder in (4, 7):
        yield "the holder is free", CHAIN, (holder, 0, 2), idle(), (5, 0, 2)
        yield "5 before 7", CHAIN, (holder, 0, 5), idle(), (5, 0, 5)
    yield "8 for the holder", CHAIN, (3, 0, 1), but(dropped(), {3: OUT}), (8, 0, 1)
    h = but(dropped(), {3: OUT}, free_head=0, free_count=0)
    yield "8 for the holder before 7", CHAIN, (3, 0, 1), h, (8, 0, 1)
    yield "the holder is still allocated", CHAIN, (3, 0, 1), dropped(), (0, 4, 1)
    yield "the holder is doomed by the units", CHAIN, (3, 0, 2), dropped(), (5, 0, 2)
    yield "the holder is doomed by the units", CHAIN, (3, 0, 3), dropped(), (5, 0, 3)
    yield "the holder is freed by the units", CHAIN, (2, 0, 3), dropped(), (5, 0, 3)
    yield "blocks just freed are taken first", CHAIN, (0, 0, 3), dropped(), (0, 2, 3)
    yield "all six: 2 and 3 are freed meanwhile", CHAIN, (0, 0, 6), dropped(), (0, 3, 6)
    yield "seven of six", CHAIN, (0, 0, 7), dropped(), (7, 0, 7)


def pace_0():
    """M/F rounded up and doubled, times n; F is the count at entry."""
    for count, units in [(6, 2), (5, 4), (4, 4), (3, 4), (2, 6)]:
        h = but(idle(), U=0, free_count=count)
        yield "pace 0", CHAIN, (2, 0, 2), h, (0, 4, 2 * units)
    yield "pace 0, fewer than n are free", CHAIN, (2, 0, 5), but(idle(), U=0), (7, 0, 20)
    h = but(dropped(), U=0, free_count=3)
    yield "pace 0 is worked out once, at entry", CHAIN, (0, 0, 3), h, (0, 3, 12)
    empty = {"free_head": 0, "free_count": 0}
    h = but(idle(), U=0, **empty)
    yield "pace 0, free count 0 counted as 1", CHAIN, (2, 0, 3), h, (7, 0, 36)


def taking():
    yield "7: fewer than n are free", CHAIN, (2, 0, 5), idle(), (7, 0, 5)
    yield "7: fewer than n are free", CHAIN, (0, 0, 256), idle(), (7, 0, 256)
    for n in (1, 2, 5):
        yield "head 0 and count not", CHAIN, (2, 0, n), but(idle(), free_head=0), (8, 0, n)
        yield "the reverse", CHAIN, (2, 0, n), but(idle(), free_count=0), (8, 0, n)
        h = but(idle(), free_head=0, free_count=0)
        yield "head and count both 0", CHAIN, (2, 0, n), h, (7, 0, n)
    for spoil in ({"colour": {4: WHITE}}, {"word": {(4, 0): OUT}}, {"word": {(4, 0): 4}}):
        h = but(idle(), free_count=1, **spoil)
        yield "7 by the count alone, before the list", CHAIN, (2, 0, 2), h, (7, 0, 2)
    for colour in (WHITE, BLACK, 1, 5, OUT):
        for n in (1, 2):
            h = but(idle(), {4: colour})
            yield "the first is not coloured free", CHAIN, (0, 0, n), h, (8, 0, n)
        yield "a later one that isn't taken", CHAIN, (0, 0, 2), but(idle(), {6: colour}), (0, 4, 2)
        h = but(idle(), {6: colour})
        yield "the third is not coloured free", CHAIN, (0, 0, 3), h, (8, 0, 3)
    for link in (1, OUT, TOP):
        h = but(idle(), word={(5, 0): link})
        yield "the link of one that isn't taken", CHAIN, (0, 0, 1), h, (0, 4, 1)
        for n in (2, 3):
            h = but(idle(), word={(5, 0): link})
            yield "a link that is no block and not 0", CHAIN, (0, 0, n), h, (8, 0, n)
    for link in (0, 2, 4, 5, 7):
        h = but(idle(), word={(5, 0): link})
        yield "the last one's link is 0 or a block", CHAIN, (0, 0, 2), h, (0, 4, 2)
    for link in (0, 2, 4, 5):
        h = but(idle(), word={(5, 0): link})
        yield "the list ends, leads elsewhere, or comes again", CHAIN, (0, 0, 3), h, (8, 0, 3)
    for link in (4, 5, 6):
        h = but(idle(), word={(6, 0): link})
        yield "the fourth is an earlier one", CHAIN, (0, 0, 4), h, (8, 0, 4)
        h = but(idle(), word={(7, 0): link})
        yield "a ring of just four", CHAIN, (0, 0, 4), h, (0, 4, 4)
    h = but(idle(), word={(4, 3): 9, (5, 7): 9}, byte={4: 8, 5: 255})
    yield "other words and bits stay", CHAIN, (0, 0, 2), h, (0, 4, 2)


# ----------------------------------------------------------- the longest object

def fresh(M):
    h = machine.empty_heap(M)
    machine.format(h, M, 1)
    return h


def longest():
    """256 units: a cycle begins, the turn ends it, 128 times over. All blocks are
    taken, all white, and the mark is 257. Field 1,791 is word 6 of block 257."""
    yield "256 blocks", CHAIN, (0, 0, 256), fresh(256), (0, 2, 256)
    yield "255 are free", CHAIN, (0, 0, 256), fresh(255), (7, 0, 256)
    h = fresh(256)
    chains.allocate_chain(h, 0, 0, 256)
    yield "the last field", READ, (2, 1791), but(h, word={(257, 6): 9}), (0, 9, 0, False)


# -------------------------------------------------------------------- the mark

def handed_out():
    """Each block of a chain raises the mark, whatever the list's order."""
    for make in (idle, dropped, dooming, marking):
        yield "a chain raises the mark to its highest block", CHAIN, (0, 0, 2), make(), (
            0, {idle: 4, dropped: 4, dooming: 3, marking: 5}[make], 2)
    h = but(idle(), free_head=7, word={(7, 0): 4, (4, 0): 5, (5, 0): 6, (6, 0): 0})
    yield "the first is the highest", CHAIN, (0, 0, 3), h, (0, 7, 3)
    h = but(idle(), free_head=7, word={(7, 0): 6, (6, 0): 5, (5, 0): 4, (4, 0): 0}, mark=5)
    yield "a falling list", CHAIN, (0, 0, 4), h, (0, 7, 4)
    yield "with mark 1 nothing is swept and freed", CHAIN, (0, 0, 3), but(dropped(), mark=1), (0, 4, 3)
    for mark in (2, 4, 6, 7):
        yield "with a mark 2 is freed first", CHAIN, (0, 0, 3), but(dropped(), mark=mark), (0, 2, 3)
    yield "7 leaves the mark", CHAIN, (0, 0, 5), idle(), (7, 0, 5)
    yield "8 leaves the mark", CHAIN, (0, 0, 3), but(idle(), {6: WHITE}), (8, 0, 3)


# --------------------------------------------------------------------- fields

def at_fields(clause, block, k, heap, no):
    """The three calls on a field, all refused by `no` or, for 0, all done; the
    field then holds the number 0."""
    yield clause, READ, (block, k), heap(), (no, 0, 0, False)
    yield clause, NUMBER, (block, k, 77), heap(), (no, 0, 0)
    yield clause, REFERENCE, (block, k, 0), heap(), (no, 0, 0)


def fields():
    for k in (*range(7), *range(7, 14)):
        yield from at_fields("words 0 to 6 of each block", 2, k, idle, 0)
    for k in (14, 20, 21, 1791):
        yield from at_fields("null ends the object", 2, k, idle, 3)
    for k in (1792, 1793, 4096, TOP):
        yield from at_fields("k above 1,791", 2, k, idle, 3)
    for block in (0, 1, OUT, TOP):
        yield from at_fields("no such block", block, 0, idle, 3)
    h = but(idle(), word={(3, 0): 9})
    yield "field 7 is word 0 of the second block", READ, (2, 7), h, (0, 9, 0, False)
    yield "field 13 is word 6 of it", READ, (2, 13), but(idle(), word={(3, 6): 9}), (0, 9, 0, False)
    h = but(idle(), word={(2, 6): 9})
    yield "field 6 is word 6 of the first", READ, (2, 6), h, (0, 9, 0, False)
    yield "a reference", READ, (2, 8), but(idle(), word={(3, 1): 2}, byte={3: 130}), (0, 2, 0, True)
    for k, block, word in [(14, 2, 0), (1784, 2, 6), (1785, 3, 0), (1791, 3, 6)]:
        ring = but(idle(), word={(3, 7): 2, (block, word): 5})
        yield "an object that runs in a ring", READ, (2, k), ring, (0, 5, 0, False)
    itself = but(idle(), word={(2, 7): 2, (2, 1): 5})
    yield "a block that names itself", READ, (2, 1786), itself, (0, 5, 0, False)


def walked():
    for k in (0, 6, 7, 14):
        yield from at_fields("8 for the first block", 2, k, lambda: but(idle(), {2: OUT}), 8)
        yield from at_fields("5 for the first block", 4, k, idle, 5)
        yield from at_fields("5 for the first block, doomed", 2, k, dooming, 5)
        later = 0 if k < 7 else 8
        yield from at_fields("8 for the second block", 2, k,
                             lambda: but(idle(), {3: TOP - 2}), later)
        later = 0 if k < 7 else 5
        yield from at_fields("5 for the second block", 2, k, lambda: but(idle(), {3: FREE}), later)
        yield from at_fields("5 for the second block, doomed", 2, k,
                             lambda: but(dooming(), position=3), later)
        later = 0 if k < 7 else 3
        yield from at_fields("word 7 is no reference", 2, k,
                             lambda: but(idle(), byte={2: 0}), later)
        yield from at_fields("word 7 is null", 2, k, lambda: but(idle(), word={(2, 7): 0}), later)
    for name in (1, OUT, TOP):
        yield from at_fields("word 7 names no block", 2, 7,
                             lambda: but(idle(), word={(2, 7): name}), 8)
        yield from at_fields("a number in word 7, before 8", 2, 7,
                             lambda: but(idle(), word={(2, 7): name}, byte={2: 0}), 3)
        yield from at_fields("word 7 is not followed", 2, 6,
                             lambda: but(idle(), word={(2, 7): name}), 0)


def targets():
    for t in (1, OUT, TOP):
        yield "4 before the walk", REFERENCE, (2, 14, t), idle(), (4, 0, 0)
        yield "4 before the walk", REFERENCE, (4, 0, t), idle(), (4, 0, 0)
        yield "4 before 8", REFERENCE, (2, 7, t), but(idle(), {2: OUT}), (4, 0, 0)
        yield "3 for the field before 4", REFERENCE, (2, 1792, t), idle(), (3, 0, 0)
        yield "3 for the block before 4", REFERENCE, (OUT, 0, t), idle(), (3, 0, 0)
    for k in (0, 7):
        yield "the target is free", REFERENCE, (2, k, 4), idle(), (6, 0, 0)
        yield "8 for the target", REFERENCE, (2, k, 5), but(idle(), {5: OUT}), (8, 0, 0)
        yield "a live target", REFERENCE, (2, k, 3), idle(), (0, 0, 0)
        yield "a white target while marking is greyed", REFERENCE, (2, k, 4), marking(), (0, 0, 0)
        yield "no barrier when idle", REFERENCE, (2, k, 2), idle(), (0, 0, 0)
    yield "the target is doomed", REFERENCE, (2, 0, 3), but(dooming(), position=3), (6, 0, 0)
    yield "3 of the walk before 6", REFERENCE, (2, 14, 4), idle(), (3, 0, 0)
    yield "5 of the walk before 6", REFERENCE, (2, 7, 4), but(idle(), {3: FREE}), (5, 0, 0)
    yield "5 of the walk before 8", REFERENCE, (2, 7, 5), but(idle(), {3: FREE, 5: OUT}), (5, 0, 0)


# ---------------------------------------------------------- lengths, registers

EVERY = [(CHAIN, (0, 0, 2)), (READ, (2, 0)), (NUMBER, (2, 0, 7)), (REFERENCE, (2, 0, 0))]
WORSE = [(CHAIN, (1, 8, 0)), (READ, (1, TOP)), (NUMBER, (1, TOP, 7)), (REFERENCE, (1, TOP, 1))]


def entry():
    for name, numbers in [*EVERY, *WORSE]:
        more = (False,) if name == READ else ()
        for h in [lent(0, 1, 0, 0, 0), lent(1, 1, 8, 1, 0), lent(1, 1, 8, 0, 1),
                  lent(1, 1, 7, 1, 1), lent(1, 65536, 8, 1, 1), lent(16385, 1, 8, 1, 1),
                  lent(536870913, 1, 8, 1, 1), lent(2, 1, 8, 1, 1)]:
            yield "a length, M or U that does not fit", name, numbers, h, (1, 0, 0, *more)
        for h in [but(idle(), phase=3), but(idle(), grey_head=2), but(idle(), free_head=1),
                  but(idle(), root=OUT), but(idle(), free_count=7), but(dooming(), position=1),
                  but(idle(), position=2), but(idle(), mark=0), but(idle(), mark=OUT),
                  but(dooming(), position=4), but(dooming(), mark=1)]:
            yield "registers not legal", name, numbers, h, (2, 0, 0, *more)


def cases():
    for part in (units_and_holder, pace_0, taking, longest, handed_out, fields, walked, targets, entry):
        yield from part()
