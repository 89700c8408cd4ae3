"""Cases of Why worked out by hand, one clause at a time.

Each case is (clause, heap, lengths of path, queue and came, block, the answer, the
path). The answer is (refusal, reason, pairs, state); the path is flat, block and
word in turn. check_whys.py runs them on the model; calls.py puts them among the
cases of tests/c.
"""

import machine
from damage import OUT, TOP, but, dooming, garbage, idle, lent, marking, sweeping
from machine import BLACK, FREE, WHITE
from states import IS_BLACK, IS_GREY, LIVE_WHITE
from whys import DOOMED, KEPT, REACHABLE
from whys import FREE as IS_FREE


def case(clause, h, block, answer, path=(), lengths=None):
    """A case: in buffers just long enough, where no lengths are given."""
    return clause, h, lengths or (2 * h.M, h.M, h.M), block, answer, list(path)


def free(clause, h, block):
    return case(f"{clause}, free {block}", h, block, (0, IS_FREE, 0, 0))


def doomed(clause, h, block):
    return case(f"{clause}, doomed {block}", h, block, (0, DOOMED, 0, 0))


def reached(clause, h, block, *path):
    return case(f"{clause}, path to {block}", h, block, (0, REACHABLE, len(path) // 2, 0), path)


def kept(clause, h, block, state):
    return case(f"{clause}, kept {block}", h, block, (0, KEPT, 0, state))


def graph(M, references, root=2, idle_free=()):
    """Idle: all blocks white but some, which are free in the order given. Each
    (block, word) of `references` holds a reference. All were handed out."""
    h = machine.heap([M, 1, 0, 1, 0, len(idle_free), 0, root, 3, M + 1], [0] * 8 * M, [WHITE] * M, [0] * M)
    for block, following in zip(idle_free, [*idle_free[1:], 0]):
        but(h, {block: FREE}, {(block, 0): following})
        h.free_head = h.free_head or block
    for (block, word), target in references.items():
        but(h, word={(block, word): target})
        h.bytes[block - 2] |= 2**word
    return h


# -------------------------------------------------------------------- reasons

def cut(h):
    """The heap with nothing in word 0 of its root: what hung there is out of reach."""
    machine.store_reference(h, 2, 0, 0)
    return h


def worked(h, units):
    machine.work(h, units)
    return h


def phases():
    """damage.py's heaps: 2 is the root, 2, 3 and 4 a list by word 0, 5 is free."""
    for name, h in [("idle", idle), ("marking", marking), ("sweeping", sweeping)]:
        yield reached(name, h(), 2)
        yield reached(name, h(), 3, 2, 0)
        yield reached(name, h(), 4, 2, 0, 3, 0)
        yield free(name, h(), 5)
    yield reached("garbage", garbage(), 2)
    yield kept("garbage, idle", garbage(), 3, LIVE_WHITE)
    yield kept("garbage, idle", garbage(), 4, LIVE_WHITE)
    yield free("garbage, idle", garbage(), 5)
    yield reached("dooming", dooming(), 2)
    yield doomed("dooming", dooming(), 3)
    yield doomed("dooming", dooming(), 4)
    yield free("dooming", dooming(), 5)
    half = lambda: worked(dooming(), 2)
    yield reached("two blocks swept", half(), 2)
    yield free("two blocks swept", half(), 3)
    yield doomed("two blocks swept", half(), 4)


def colours():
    """Out of reach and not doomed, of each colour."""
    yield kept("let go while marking", cut(marking()), 3, IS_GREY)
    yield kept("let go while marking", cut(marking()), 4, LIVE_WHITE)
    yield reached("let go while marking", cut(marking()), 2)
    yield kept("let go while sweeping", cut(sweeping()), 3, IS_BLACK)
    yield kept("let go while sweeping", cut(sweeping()), 4, IS_BLACK)
    half = lambda: cut(worked(sweeping(), 2))
    yield kept("let go behind the sweep", half(), 3, LIVE_WHITE)
    yield kept("let go before the sweep", half(), 4, IS_BLACK)
    last = lambda: cut(but(marking(), {2: 3, 3: 1}, grey_head=2))
    yield kept("grey, and the last of its list", last(), 3, IS_GREY)
    first = lambda: cut(but(marking(), {2: 1, 3: 2}, grey_head=3))
    yield kept("grey, and the first of its list", first(), 3, IS_GREY)
    bare = lambda: but(idle(), root=0)
    for block in (2, 3, 4):
        yield kept("no root", bare(), block, LIVE_WHITE)
    yield free("no root", bare(), 5)


def other_heaps():
    """What free, doomed and kept blocks hold leads nowhere."""
    h = lambda: graph(4, {(2, 1): 2}, idle_free=(4, 3, 5))
    for block in (3, 4, 5):
        yield free("a free list", h(), block)
    wild = lambda: but(dooming(), word={(3, 0): 2, (3, 1): 5, (4, 0): OUT, (4, 1): 3}, byte={3: 3, 4: 3})
    yield reached("doomed blocks name anything", wild(), 2)
    yield doomed("doomed blocks name anything", wild(), 3)
    yield doomed("doomed blocks name anything", wild(), 4)
    yield free("doomed blocks name anything", wild(), 5)
    ring = lambda: graph(4, {(2, 0): 3, (4, 0): 5, (5, 0): 4, (4, 1): 2, (5, 1): 3, (4, 2): 4})
    for block in (4, 5):
        yield kept("a ring that names the list", ring(), block, LIVE_WHITE)
    yield reached("a ring that names the list", ring(), 3, 2, 0)


# ---------------------------------------------------------------------- paths

def least():
    diamond = lambda: graph(4, {(2, 0): 3, (2, 1): 4, (3, 5): 5, (4, 0): 5})
    yield reached("the first word counts first", diamond(), 5, 2, 0, 3, 5)
    turned = lambda: graph(4, {(2, 0): 4, (2, 1): 3, (4, 5): 5, (3, 0): 5})
    yield reached("words count, not blocks", turned(), 5, 2, 0, 4, 5)
    short = lambda: graph(4, {(2, 0): 3, (3, 0): 4, (4, 0): 5, (2, 7): 5})
    yield reached("a shorter path with a larger word", short(), 5, 2, 7)
    yield reached("its neighbour", short(), 4, 2, 0, 3, 0)
    longer = lambda: graph(5, {(2, 0): 3, (3, 0): 4, (4, 0): 5, (5, 0): 6, (2, 6): 5, (2, 7): 4})
    yield reached("shorter, by the larger of two words", longer(), 4, 2, 7)
    yield reached("shorter, by the smaller of two words", longer(), 5, 2, 6)
    yield reached("shorter, and then one more", longer(), 6, 2, 6, 5, 0)
    for words in ((3, 6), (0, 7), (6, 7)):
        twice = graph(2, {(2, words[0]): 3, (2, words[1]): 3})
        yield reached(f"the same block in two words {words}", twice, 3, 2, words[0])
    last = lambda: graph(3, {(2, 1): 3, (3, 2): 4, (3, 4): 4})
    yield reached("the last word counts too", last(), 4, 2, 1, 3, 2)
    # Three pairs lead to 7: by words 1 0 7 (3, 5) and by words 1 1 0 (3, 6), and by 2 0 0 (4, 5).
    three = lambda: graph(6, {(2, 1): 3, (2, 2): 4, (3, 1): 6, (3, 0): 5, (4, 0): 5, (5, 7): 7, (6, 0): 7})
    yield reached("the middle word before the last", three(), 7, 2, 1, 3, 0, 5, 7)
    yield reached("the block before it", three(), 5, 2, 1, 3, 0)
    # 5 is met first from 3, by the words 0 7, and then from 4, by 1 0; so the path to 6 goes by 3.
    met = lambda: graph(5, {(2, 0): 3, (2, 1): 4, (3, 7): 5, (4, 0): 5, (5, 3): 6})
    yield reached("a path goes on the least one", met(), 6, 2, 0, 3, 7, 5, 3)
    # 5 and 6 have two pairs each: 6 by the words 0 1, 5 by 1 0. So 7 is by 6, whose number is the larger.
    level = lambda: graph(6, {(2, 0): 4, (2, 1): 3, (4, 1): 6, (3, 0): 5, (6, 7): 7, (5, 0): 7})
    yield reached("two pairs each, words before blocks", level(), 7, 2, 0, 4, 1, 6, 7)


def words_and_numbers():
    """A word is followed where its bit is set and it isn't null."""
    for word in range(8):
        yield reached(f"the word {word}", graph(2, {(2, word): 3}), 3, 2, word)
    numbers = lambda: but(graph(2, {(2, 5): 3}), word={(2, 0): 3, (2, 1): 3, (2, 7): 3})
    yield reached("numbers that look like blocks", numbers(), 3, 2, 5)
    alone = but(graph(2, {}), word={(2, w): 3 for w in range(8)})
    yield kept("only numbers that look like it", alone, 3, LIVE_WHITE)
    nulls = graph(2, {(2, 0): 0, (2, 1): 0, (2, 6): 3, (2, 7): 0})
    yield reached("null references", nulls, 3, 2, 6)
    full = {(2, w): 2 for w in range(7)}
    yield reached("seven words that name their block", graph(2, {**full, (2, 7): 3}), 3, 2, 7)
    yield reached("eight words that name their block", graph(2, {**full, (2, 7): 2}), 2)


def rings():
    ring = lambda: graph(3, {(2, 0): 3, (3, 0): 4, (4, 0): 2, (4, 1): 3})
    yield reached("the root in a ring", ring(), 2)
    yield reached("a ring", ring(), 3, 2, 0)
    yield reached("a ring", ring(), 4, 2, 0, 3, 0)
    for root, path in ((3, (3, 0, 4, 0)), (4, (4, 0))):
        yield reached(f"the ring from {root}", but(ring(), root=root), 2, *path)
        yield reached(f"the ring from {root}", but(ring(), root=root), root)
    high = graph(4, {(5, 3): 4, (4, 2): 3, (3, 1): 2}, root=5)
    yield reached("from the last block to the first", high, 2, 5, 3, 4, 2, 3, 1)


def longest():
    """A list of all M blocks: M - 1 pairs at most. The root comes first; by word b mod 8."""
    for M in (1, 2, 3, 8, 60):
        h = lambda: graph(M, {(b, b % 8): b + 1 for b in range(2, M + 1)})
        for block in {2, M // 2 + 2, M + 1}:
            path = [number for b in range(2, block) for number in (b, b % 8)]
            yield reached(f"a list of {M}", h(), block, *path)
    yield free("one block", graph(1, {}, 0, idle_free=(2,)), 2)
    yield kept("one block, no root", graph(1, {(2, 0): 2}, 0), 2, LIVE_WHITE)


def buffers():
    """Longer buffers end as 0 to their ends, for every answer that is no refusal."""
    told = [(idle, 2, (0, REACHABLE, 0, 0), ()), (idle, 4, (0, REACHABLE, 2, 0), (2, 0, 3, 0)),
            (idle, 5, (0, IS_FREE, 0, 0), ()), (dooming, 3, (0, DOOMED, 0, 0), ()),
            (garbage, 4, (0, KEPT, 0, LIVE_WHITE), ())]
    for h, block, answer, path in told:
        for lengths in ((8, 4, 4), (9, 4, 4), (8, 5, 4), (8, 4, 5), (10, 6, 7), (23, 4, 19), (40, 40, 40)):
            yield case(f"lengths {lengths}", h(), block, answer, path, lengths)


# ------------------------------------------------------------------- refusals

ENOUGH = (8, 4, 4)
SHORT = [(7, 4, 4), (8, 3, 4), (8, 4, 3), (0, 4, 4), (8, 0, 4), (8, 4, 0), (4, 4, 4), (7, 3, 3), (0, 0, 0),
         (7, 9, 9), (99, 3, 99), (99, 99, 3)]
NO_BLOCKS = (0, 1, OUT, OUT + 1, 16385, 2**29 + 2, 2**31, TOP - 1, TOP)


def refused(clause, no, h, block, lengths=ENOUGH):
    return case(f"{no} {clause}", h, block, (no, 0, 0, 0), (), lengths)


def misfits():
    """M, U or a length doesn't fit. No register and no block stands before this."""
    yield "zeroes", lambda: machine.empty_heap(0)
    for wrong in (dict(M=0), dict(M=3), dict(M=5), dict(M=16385), dict(M=TOP), dict(U=65536), dict(U=TOP)):
        yield f"{wrong}", lambda wrong=wrong: but(idle(), **wrong)
    for lengths in ((31, 4, 4), (33, 4, 4), (32, 3, 4), (32, 5, 4), (32, 4, 3), (32, 4, 5), (0, 0, 0)):
        yield f"lengths {lengths}", lambda lengths=lengths: lent(4, 1, *lengths)


def unaccepted():
    """Heaps that fit and that the audit turns down: registers first."""
    for wrong in (dict(phase=3), dict(grey_head=2), dict(grey_head=0), dict(free_head=OUT), dict(free_head=1),
                  dict(free_count=5), dict(position=2), dict(root=1), dict(root=OUT), dict(root=TOP),
                  dict(mark=0), dict(mark=OUT)):
        yield f"{wrong}", lambda wrong=wrong: but(idle(), **wrong)
    for wrong in (dict(position=0), dict(position=5), dict(position=OUT), dict(grey_head=2)):
        yield f"sweeping, {wrong}", lambda wrong=wrong: but(dooming(), **wrong)
    yield "a colour outside", lambda: but(idle(), {4: OUT})
    yield "a block above the mark", lambda: but(idle(), mark=3)
    yield "grey while idle", lambda: but(idle(), {4: 1})
    yield "black while idle", lambda: but(idle(), {4: BLACK})
    yield "black behind the sweep", lambda: but(worked(sweeping(), 2), {2: BLACK})
    yield "a white root while marking", lambda: but(marking(), {2: WHITE})
    yield "black names white", lambda: but(marking(), {3: WHITE}, grey_head=1)
    yield "a grey block in no list", lambda: but(marking(), {4: 1})
    yield "the free count", lambda: but(idle(), free_count=0)
    yield "the free list", lambda: but(idle(), word={(5, 0): 5})
    yield "a free block's word 1", lambda: but(idle(), word={(5, 1): 1})
    yield "a free block's byte", lambda: but(idle(), byte={5: 2})
    yield "a free root", lambda: but(idle(), root=5)
    yield "a doomed root", lambda: but(dooming(), root=3)
    yield "a reference to a free block", lambda: but(idle(), word={(4, 0): 5}, byte={4: 1})
    yield "a reference to no block", lambda: but(idle(), word={(4, 0): OUT}, byte={4: 1})
    yield "a reference to a doomed block", lambda: but(dooming(), word={(2, 1): 4}, byte={2: 3})
    yield "a block out of reach names none", lambda: but(garbage(), word={(4, 7): 1}, byte={4: 128})


def in_order():
    """Each refusal by itself, and before each of those after it."""
    for what, h in misfits():
        yield refused(what, 1, h(), 2)
        yield refused(f"{what} before 10", 1, but(h(), phase=3), 2)
        yield refused(f"{what} before 3", 1, h(), 0)
        yield refused(f"{what} before 13", 1, h(), 2, (7, 3, 3))
        yield refused(f"{what} before all others", 1, but(h(), phase=3), TOP, (0, 0, 0))
    for what, h in unaccepted():
        for block in (2, 5):
            yield refused(what, 10, h(), block)
        for block in (1, OUT):
            yield refused(f"{what} before 3", 10, h(), block)
        for lengths in SHORT[:3]:
            yield refused(f"{what} before 13", 10, h(), 4, lengths)
        yield refused(f"{what} before 3 and 13", 10, h(), TOP, (0, 0, 0))
    for h in (idle, marking, sweeping, garbage, dooming):
        for block in NO_BLOCKS:
            yield refused("no block", 3, h(), block)
        for lengths in SHORT:
            yield refused("no block before 13", 3, h(), OUT, lengths)
            yield refused(f"lengths {lengths}", 13, h(), 3, lengths)
        for block in (2, 4, 5):
            yield refused("a short buffer for any reason", 13, h(), block, (7, 4, 4))
    one = lambda: graph(1, {})
    yield refused("the number after the only block", 3, one(), 3, (2, 1, 1))
    for lengths in ((1, 1, 1), (2, 0, 1), (2, 1, 0), (0, 0, 0)):
        yield refused(f"one block, lengths {lengths}", 13, one(), 2, lengths)


def cases():
    for part in (phases, colours, other_heaps, least, words_and_numbers, rings, longest, buffers, in_order):
        yield from part()
