"""Cases worked out by hand from document 01's table of refusals and the
paragraph under it, one sentence at a time; and from document 02's request L7,
what it says of the mark.

Each case is (sentence, letter, numbers, heap, the three numbers it must give).
check.py runs them on the machine; vectors.py puts them among heapprobe's cases.
All heaps but the first few have four blocks, so 6 is no block and no colour.
"""

import machine
from machine import BLACK, FREE, WHITE

OUT = 6                 # M + 2, for M = 4
TOP = 4294967295


def idle():
    """Idle, pace 1: root 2 names 3, 3 names 4, all white; 5 is free. The mark is
    4. Three units begin a cycle, turn and sweep 2; two more sweep 3 and 4."""
    h = machine.empty_heap(4)
    machine.format(h, 4, 1)
    machine.allocate(h, 0, 0)
    machine.allocate(h, 2, 0)
    machine.allocate(h, 3, 0)
    machine.work(h, 2)
    return h


def marking():
    """Two units on: 2 is black, 3 is the only grey block, 4 is white."""
    h = idle()
    machine.work(h, 2)
    return h


def sweeping():
    """Five units on: 2, 3, 4 are black, the position is 2."""
    h = idle()
    machine.work(h, 5)
    return h


def garbage():
    """Idle; 2 is the root and names nothing, so 3 and 4 are out of reach."""
    h = idle()
    machine.store_reference(h, 2, 0, 0)
    return h


def dooming():
    """Three units on from garbage(): position 2; 3 and 4 are doomed."""
    h = garbage()
    machine.work(h, 3)
    return h


def all_free():
    """As Format leaves it, at pace 1."""
    h = machine.empty_heap(4)
    machine.format(h, 4, 1)
    return h


def but(h, colour={}, word={}, byte={}, **registers):
    """The heap with some fields changed."""
    for block, value in colour.items():
        h.colours[block - 2] = value
    for (block, w), value in word.items():
        h.words[8 * (block - 2) + w] = value
    for block, value in byte.items():
        h.bytes[block - 2] = value
    for name, value in registers.items():
        setattr(h, name, value)
    return h


def lent(M, U, lw, lc, lb):
    """An idle heap's registers over buffers of the given lengths."""
    return machine.heap([M, U, 0, 1, 0, 0, 0, 0, 7, 1], [0] * lw, [0] * lc, [0] * lb)


CALLS = {"R": (2, 0), "N": (2, 0, 7), "S": (2, 0, 0), "T": (0,), "A": (0, 0), "W": (1,)}


def refused_1():
    for letter, numbers in CALLS.items():
        for h in [lent(0, 1, 0, 0, 0), lent(0, 1, 8, 1, 1), lent(1, 1, 8, 1, 0),
                  lent(1, 1, 8, 0, 1), lent(1, 1, 7, 1, 1), lent(1, 1, 9, 1, 1),
                  lent(1, 1, 0, 0, 0), lent(1, 65536, 8, 1, 1), lent(1, TOP, 8, 1, 1),
                  lent(536870913, 1, 8, 1, 1), lent(536870912, 1, 0, 0, 0),
                  lent(536870920, 1, 64, 8, 8), lent(16385, 1, 8, 1, 1),
                  lent(TOP, 1, 8, 1, 1), lent(2, 1, 8, 1, 1)]:
            yield "a length, M or U that does not fit", letter, numbers, h, (1, 0, 0)
    for M, U, lw, lc, lb in [(0, 1, 0, 0, 0), (1, 65536, 8, 1, 1), (1, 1, 7, 1, 1),
                             (1, 1, 8, 2, 1), (1, 1, 8, 1, 0), (536870913, 1, 8, 1, 1),
                             (536870912, 1, 0, 0, 0), (16385, 1, 8, 1, 1), (2, 1, 8, 1, 1)]:
        h = but(lent(1, 1, lw, lc, lb), phase=9, cycle=9)
        yield "Format of what does not fit", "F", (M, U), h, (1, 0, 0)
    for M, U in [(1, 0), (1, 65535)]:
        wild = machine.heap([TOP] * 10, [TOP] * 8, [TOP], [255])
        yield "Format does not test registers", "F", (M, U), wild, (0, 0, 0)


def refused_2():
    for letter, numbers in {**CALLS, "W": (65536,), "R": (1, 8), "S": (1, 8, 1),
                            "T": (1,)}.items():
        for h in [but(idle(), phase=3), but(idle(), phase=TOP), but(idle(), grey_head=0),
                  but(idle(), grey_head=2), but(sweeping(), grey_head=2),
                  but(marking(), grey_head=0), but(marking(), grey_head=OUT),
                  but(idle(), free_head=1), but(idle(), free_head=OUT),
                  but(idle(), root=1), but(idle(), root=OUT), but(idle(), root=TOP),
                  but(idle(), free_count=5), but(sweeping(), position=0),
                  but(sweeping(), position=1), but(sweeping(), position=OUT),
                  but(idle(), position=2), but(marking(), position=2)]:
            yield "registers not legal", letter, numbers, h, (2, 0, 0)
        for h in [but(make(), mark=mark) for make in (idle, marking, sweeping) for mark in (0, OUT, TOP)]:
            yield "a mark outside 1 to M + 1", letter, numbers, h, (2, 0, 0)
        for position, mark in ((5, 4), (3, 2), (2, 1), (4, 3)):
            h = but(sweeping(), position=position, mark=mark)
            yield "a position above the mark while sweeping", letter, numbers, h, (2, 0, 0)
    for letter, numbers, answer in [("R", (2, 0), (0, 3, 1)), ("N", (2, 1, 7), (0, 0, 0)), ("T", (0,), (0, 0, 0)),
                                    ("S", (2, 0, 0), (0, 0, 0)), ("A", (0, 0), (0, 5, 1)), ("W", (1,), (0, 0, 1))]:
        for mark in (1, 2, 3, 4, 5):
            yield "a mark from 1 to M + 1", letter, numbers, but(idle(), mark=mark), answer
        yield "a position at the mark", letter, numbers, but(sweeping(), position=2, mark=2), answer


def refused_3_4_9():
    for n in (65536, TOP):
        yield "Work: n above 65,535", "W", (n,), idle(), (9, 0, 0)
        yield "9 before 8", "W", (n,), but(idle(), colour={2: BLACK}), (9, 0, 0)
    yield "no units", "W", (0,), but(idle(), colour={2: BLACK}), (0, 0, 0)
    for block, word in [(0, 0), (1, 0), (OUT, 0), (TOP, 0), (2, 8), (2, TOP), (0, 1)]:
        yield "block or word out of bounds", "R", (block, word), idle(), (3, 0, 0)
        yield "block or word out of bounds", "N", (block, word, 7), idle(), (3, 0, 0)
        yield "3 before 4", "S", (block, word, 1), idle(), (3, 0, 0)
        if (block, word) != (0, 0):
            damaged = but(idle(), colour={2: BLACK})
            yield "3 before the units", "A", (block, word), damaged, (3, 0, 0)
    for target in (1, OUT, TOP):
        yield "target neither 0 nor a block", "T", (target,), idle(), (4, 0, 0)
        yield "4 before 8", "S", (2, 0, target), but(idle(), colour={2: OUT}), (4, 0, 0)


def refused_block_and_target():
    for colour in (OUT, TOP - 2):
        bad = {2: colour}
        yield "an illegal colour on the block", "R", (2, 0), but(idle(), bad), (8, 0, 0)
        yield "an illegal colour on the block", "N", (2, 0, 1), but(idle(), bad), (8, 0, 0)
        yield "an illegal colour on the block", "S", (2, 0, 5), but(idle(), bad), (8, 0, 0)
        yield "an illegal colour on the block", "L", (2,), but(idle(), bad), (0, 0, 0)
        yield "an illegal colour on the target", "S", (3, 0, 2), but(idle(), bad), (8, 0, 0)
        yield "an illegal colour on the target", "T", (2,), but(idle(), bad), (8, 0, 0)
        yield "5 for the block before 8 for the target", "S", (5, 0, 2), but(idle(), bad), (5, 0, 0)
    yield "a grey colour is legal, also when idle", "R", (2, 0), but(idle(), {2: 5}), (0, 3, 1)
    yield "a grey colour is legal, also when idle", "L", (2,), but(idle(), {2: 1}), (8, 3, 0)
    for letter, rest in [("R", (0,)), ("N", (0, 1)), ("S", (0, 0)), ("S", (0, 5))]:
        yield "the block is free", letter, (5, *rest), idle(), (5, 0, 0)
        yield "the block is doomed", letter, (3, *rest), dooming(), (5, 0, 0)
    yield "the block is free", "L", (5,), idle(), (0, 0, 0)
    yield "the block is doomed", "L", (3,), dooming(), (0, 0, 0)
    yield "white below the position isn't doomed", "R", (3, 0), but(dooming(), position=4), (0, 4, 1)
    yield "white while marking isn't doomed", "R", (4, 0), marking(), (0, 0, 0)
    for letter, rest in [("S", (2, 1)), ("T", ())]:
        yield "the target is free", letter, (*rest, 5), idle(), (6, 0, 0)
        yield "the target is doomed", letter, (*rest, 3), dooming(), (6, 0, 0)
        yield "a white target while marking", letter, (*rest, 4), marking(), (0, 0, 0)
        yield "a white target when idle", letter, (*rest, 4), idle(), (0, 0, 0)


def refused_in_a_unit():
    for colour in (BLACK, FREE, 1, 3, OUT):
        yield "a root neither 0 nor white", "W", (3,), but(idle(), {2: colour}), (8, 0, 0)
        yield "a root neither 0 nor white", "A", (0, 0), but(idle(), {2: colour}), (8, 0, 0)
    yield "a root that is free", "W", (1,), but(idle(), root=5), (8, 0, 0)
    yield "a root of 0", "W", (1,), but(idle(), root=0), (0, 0, 1)
    yield "the cycle number goes back to 0", "W", (1,), but(idle(), cycle=TOP), (0, 0, 1)
    for colour in (WHITE, BLACK, FREE, OUT):
        yield "a grey head whose colour isn't grey", "W", (2,), but(marking(), {3: colour}), (8, 0, 0)
    yield "a grey list in a ring", "W", (9,), but(marking(), {3: 3}), (8, 0, 2)
    for name in (1, OUT, TOP, 5):
        h = but(marking(), word={(3, 0): name})
        yield "a reference that is no allocated block", "W", (1,), h, (8, 0, 0)
        h = but(marking(), word={(3, 7): name}, byte={3: 129})
        yield "a bad reference after a good one", "W", (1,), h, (8, 0, 0)
        h = but(marking(), word={(4, 0): name}, byte={4: 1})
        yield "the units finished before it stand", "W", (9,), h, (8, 0, 1)
        h = but(marking(), word={(3, 1): name})
        yield "a number names nothing", "W", (1,), h, (0, 0, 1)
    yield "a reference to an illegal colour", "W", (1,), but(marking(), {4: OUT}), (8, 0, 0)
    yield "a reference to itself", "W", (2,), but(marking(), word={(3, 0): 3}), (0, 0, 2)
    for colour in (1, 2, 5, OUT):
        yield "a grey or illegal colour under the sweep", "W", (2,), but(sweeping(), {2: colour}), (8, 0, 0)
        yield "the units finished before it stand", "W", (9,), but(sweeping(), {4: colour}), (8, 0, 2)
    yield "free count already M when freeing", "W", (1,), but(sweeping(), {2: WHITE}, free_count=4), (8, 0, 0)
    yield "free count M and nothing to free", "W", (1,), but(sweeping(), free_count=4), (0, 0, 1)
    yield "freeing onto an empty list", "W", (1,), but(dooming(), position=3, free_head=0, free_count=0), (0, 0, 1)


def refused_in_allocation():
    yield "takes the first free block", "A", (2, 1), idle(), (0, 5, 1)
    yield "takes the first free block", "A", (0, 0), idle(), (0, 5, 1)
    yield "the new block's byte is not touched", "A", (2, 1), but(idle(), byte={5: 255}), (0, 5, 1)
    for colour in (WHITE, BLACK, 1, OUT):
        yield "a first free block not coloured free", "A", (2, 1), but(idle(), {5: colour}), (8, 0, 1)
    yield "a first free block not coloured free", "A", (2, 1), but(idle(), free_head=4), (8, 0, 1)
    for link in (1, OUT, TOP):
        yield "a link that is no block and not 0", "A", (2, 1), but(idle(), word={(5, 0): link}), (8, 0, 1)
    for link in (2, 5):
        yield "a link is a block, whichever", "A", (2, 1), but(idle(), word={(5, 0): link}), (0, 5, 1)
    yield "free head 0 while the count isn't", "A", (2, 1), but(idle(), free_head=0), (8, 0, 1)
    yield "the reverse", "A", (2, 1), but(idle(), free_count=0), (8, 0, 1)
    empty = {"free_head": 0, "free_count": 0}
    yield "free head and free count both 0", "A", (2, 1), but(idle(), **empty), (7, 0, 1)
    yield "free head and free count both 0", "A", (0, 0), but(idle(), **empty), (7, 0, 1)
    yield "the holder is free", "A", (5, 0), idle(), (5, 0, 1)
    yield "5 for the block before the free list", "A", (5, 0), but(idle(), **empty), (5, 0, 1)
    yield "5 for the block before the free list", "A", (5, 0), but(idle(), free_head=0), (5, 0, 1)
    yield "8 for the block before the free list", "A", (4, 0), but(idle(), {4: OUT}, **empty), (8, 0, 1)
    yield "the units before 5", "A", (5, 0), but(idle(), {2: BLACK}), (8, 0, 0)
    yield "damage in the third unit", "A", (2, 1), but(idle(), word={(3, 0): OUT}, U=3), (8, 0, 2)
    yield "the holder is still allocated", "A", (3, 1), but(garbage(), U=2), (0, 5, 2)
    yield "the holder is doomed by the units", "A", (3, 1), but(garbage(), U=3), (5, 0, 3)
    yield "the holder is freed by the units", "A", (3, 1), but(garbage(), U=5), (5, 0, 5)
    yield "the first free block is the one just freed", "A", (2, 1), but(garbage(), U=5), (0, 3, 5)
    for count, units in [(4, 2), (3, 4), (2, 4), (1, 8)]:
        yield "pace 0", "A", (2, 1), but(idle(), U=0, free_count=count), (0, 5, units)
    yield "pace 0, free count 0 counted as 1", "A", (2, 1), but(idle(), U=0, **empty), (7, 0, 8)
    yield "pace 0, free count 0 counted as 1", "A", (2, 1), but(idle(), U=0, free_count=0), (8, 0, 8)


def the_mark():
    """Where a sweep ends. What stands above the mark is looked at by no unit, on a
    damaged heap neither."""
    yield "the sweep ends after the mark", "W", (3,), sweeping(), (0, 0, 3)
    yield "after that a cycle begins", "W", (4,), sweeping(), (0, 0, 4)
    yield "a mark of M + 1: the free block 5 too", "W", (4,), but(sweeping(), mark=5), (0, 0, 4)
    for mark in (2, 3):
        yield "the sweep ends after a lower mark", "W", (mark - 1,), but(sweeping(), mark=mark), (0, 0, mark - 1)
        h = but(sweeping(), {4: OUT}, mark=mark)
        yield "a colour above the mark is not met", "W", (mark - 1,), h, (0, 0, mark - 1)
    yield "a colour at the mark is met", "W", (9,), but(sweeping(), {4: OUT}), (8, 0, 2)
    for n in (1, 2):
        yield "mark 1: the turn ends the cycle", "W", (n,), but(idle(), root=0, mark=1), (0, 0, n)
    yield "mark 1: cycles of two units", "W", (65535,), but(idle(), root=0, mark=1), (0, 0, 65535)
    yield "mark 1, grey blocks are marked first", "W", (3,), but(marking(), mark=1), (0, 0, 3)
    yield "a root that no sweep made white", "W", (9,), but(marking(), mark=1), (8, 0, 3)
    yield "a take while sweeping raises it", "A", (2, 1), sweeping(), (0, 5, 1)
    yield "a take while marking raises it", "A", (2, 1), marking(), (0, 5, 1)
    yield "a take while idle raises it", "A", (2, 1), but(sweeping(), U=3), (0, 5, 3)
    yield "a take at the mark leaves it", "A", (2, 1), but(idle(), mark=5), (0, 5, 1)
    h = but(garbage(), U=6)
    yield "a take below the mark leaves it", "A", (2, 1), h, (0, 4, 6)
    yield "7 leaves it", "A", (2, 1), but(idle(), free_head=0, free_count=0), (7, 0, 1)
    yield "5 leaves it", "A", (5, 1), idle(), (5, 0, 1)


def audited():
    for make in (idle, marking, sweeping, garbage, dooming):
        yield "a heap reached by calls", "C", (), make(), (0, 1, 0)
    yield "any cycle number", "C", (), but(idle(), cycle=TOP), (0, 1, 0)
    for make in (idle, marking, sweeping, garbage, dooming):
        yield "a mark above all that is allocated", "C", (), but(make(), mark=5), (0, 1, 0)
        for mark in (0, 1, 2, 3, OUT, TOP):
            yield "an allocated block above the mark", "C", (), but(make(), mark=mark), (0, 0, 0)
    yield "the last block above the mark", "C", (), but(idle(), {5: WHITE}, free_head=0, free_count=0), (0, 0, 0)
    h = but(idle(), {5: WHITE}, free_head=0, free_count=0, mark=5)
    yield "the last block at the mark", "C", (), h, (0, 1, 0)
    for mark in range(1, 6):
        yield "a free heap, any mark", "C", (), but(all_free(), mark=mark), (0, 1, 0)
    yield "references of doomed blocks", "C", (), but(dooming(), word={(3, 0): TOP}), (0, 1, 0)
    yield "free blocks doomed ones name", "C", (), but(dooming(), word={(3, 0): 5}), (0, 1, 0)
    yield "black blocks doomed ones name", "C", (), but(dooming(), {4: BLACK}), (0, 1, 0)
    yield "numbers are no references", "C", (), but(idle(), word={(3, 1): 5}), (0, 1, 0)
    for w in range(8):
        for h in [but(marking(), word={(2, w): 4}, byte={2: 1 | 2**w}),
                  but(marking(), {3: BLACK}, word={(3, w): 4}, byte={3: 2**w}, grey_head=1)]:
            yield "a black block names a white one", "C", (), h, (0, 0, 0)
        h = but(marking(), word={(2, w): 4}, byte={2: 255 - 2**w})
        yield "a number names nothing", "C", (), h, (0, 1, 0)
    for h in [but(idle(), U=65536), but(idle(), M=5), but(idle(), phase=3),
              but(idle(), {2: OUT}), but(idle(), {2: BLACK}), but(idle(), {2: 1}),
              but(marking(), grey_head=1), but(marking(), {3: 3}), but(marking(), {3: 2}),
              but(marking(), {4: 1}), but(marking(), {2: WHITE}), but(marking(), {2: 3}),
              but(marking(), word={(2, 0): 4}), but(sweeping(), position=3),
              but(idle(), free_count=0), but(idle(), free_head=0), but(idle(), free_head=2),
              but(idle(), word={(5, 0): 5}), but(idle(), word={(5, 0): 2}),
              but(idle(), word={(5, 7): 1}), but(idle(), byte={5: 128}),
              but(idle(), root=5), but(dooming(), root=3), but(idle(), word={(3, 0): 5}),
              but(idle(), word={(3, 0): OUT}), but(idle(), word={(3, 0): 1}),
              but(dooming(), word={(2, 0): 4}), but(dooming(), {3: BLACK}),
              lent(536870913, 1, 8, 1, 1), lent(0, 0, 0, 0, 0)]:
        yield "not well-formed", "C", (), h, (0, 0, 0)


def cases():
    for part in (refused_1, refused_2, refused_3_4_9, refused_block_and_target,
                 refused_in_a_unit, refused_in_allocation, the_mark, audited):
        yield from part()
