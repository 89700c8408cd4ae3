"""Document 02's request L5: one answer for what a block is. The call State, and
cases of it worked out by hand.

It is told of any number: a number that is no block is outside the layout.
"""

import machine
from damage import OUT, TOP, all_free, but, dooming, garbage, idle, lent, marking, sweeping
from machine import BLACK, FREE, WHITE

# "value 1 live white, 2 doomed, 3 grey, 4 black, 5 free, 6 outside"
LIVE_WHITE, DOOMED, IS_GREY, IS_BLACK, IS_FREE, OUTSIDE = 1, 2, 3, 4, 5, 6


def state_of(h, number):
    """One of six: live white, doomed, grey, black, free, outside the layout."""
    if not machine.is_block(h, number):
        return OUTSIDE
    if not machine.is_legal_colour(h, machine.colour(h, number)):
        return OUTSIDE
    if machine.colour(h, number) == FREE:
        return IS_FREE
    if machine.colour(h, number) == BLACK:
        return IS_BLACK
    if machine.is_grey(h, machine.colour(h, number)):
        return IS_GREY
    return DOOMED if machine.doomed(h, number) else LIVE_WHITE


def state(h, number):
    """Refusals 1 and 2, else the state. It changes nothing."""
    no = machine.refusal_of_heap(h)
    return (no, 0, 0) if no else (0, state_of(h, number), 0)


# ------------------------------------------------------------ cases by hand
# Each is (what it shows, heap, number, the answer). The heaps are damage.py's,
# of four blocks, so that 2 to 5 are blocks and 6 is none.

def told(what, h, *states):
    """The states of the blocks 2, 3, 4 and 5, a case each."""
    for number, found in enumerate(states, 2):
        yield f"{what}, block {number}", h, number, (0, found, 0)


def phases():
    """Each state in each phase."""
    yield from told("fresh", all_free(), IS_FREE, IS_FREE, IS_FREE, IS_FREE)
    yield from told("idle", idle(), LIVE_WHITE, LIVE_WHITE, LIVE_WHITE, IS_FREE)
    yield from told("idle, garbage", garbage(), LIVE_WHITE, LIVE_WHITE, LIVE_WHITE, IS_FREE)
    yield from told("marking", marking(), IS_BLACK, IS_GREY, LIVE_WHITE, IS_FREE)
    yield from told("sweeping", sweeping(), IS_BLACK, IS_BLACK, IS_BLACK, IS_FREE)
    yield from told("sweeping, garbage", dooming(), IS_BLACK, DOOMED, DOOMED, IS_FREE)
    yield from told("a grey block that isn't the last", but(marking(), {2: 3}, grey_head=2),
                    IS_GREY, IS_GREY, LIVE_WHITE, IS_FREE)


def positions():
    """All white: doomed from the position on, itself included."""
    for position in range(2, 6):
        h = but(idle(), {b: WHITE for b in range(2, 6)}, phase=2, position=position, mark=5)
        yield from told(f"position {position}", h,
                        *(LIVE_WHITE if b < position else DOOMED for b in range(2, 6)))
    swept = dooming()
    machine.work(swept, 2)
    yield from told("two blocks swept", swept, LIVE_WHITE, IS_FREE, DOOMED, IS_FREE)
    machine.work(swept, 1)
    yield from told("all swept", swept, LIVE_WHITE, IS_FREE, IS_FREE, IS_FREE)
    for mark in (4, 5):
        h = but(dooming(), {5: WHITE}, position=3, mark=mark)
        yield from told("the mark is not asked", h, IS_BLACK, DOOMED, DOOMED, DOOMED)


def no_blocks():
    """A number that is no block is outside the layout, in every phase."""
    for h in (all_free(), idle(), marking(), dooming()):
        for number in (0, 1, OUT, 16384, 16385, 16386, 2**29 + 2, 2**31, TOP - 1, TOP):
            yield f"the number {number} in phase {h.phase}", h, number, (0, OUTSIDE, 0)
    one = machine.empty_heap(1)
    machine.format(one, 1, 1)
    yield "the only block", one, 2, (0, IS_FREE, 0)
    yield "the number after the only block", one, 3, (0, OUTSIDE, 0)


def illegal_colours():
    """A colour word that is none of the five is outside the layout, on its
    block alone, in every phase; the colours of another phase are told."""
    for h in (idle, marking, dooming):
        for word in (OUT, 16386, 2**31, TOP - 2):
            found = but(h(), {4: word})
            yield f"the colour word {word} in phase {found.phase}", found, 4, (0, OUTSIDE, 0)
            yield f"beside the colour word {word}", found, 5, (0, IS_FREE, 0)
    for word, found in ((1, IS_GREY), (2, IS_GREY), (5, IS_GREY), (BLACK, IS_BLACK), (FREE, IS_FREE)):
        for h in (idle, marking, dooming):
            yield f"the colour word {word} on 4", but(h(), {4: word}), 4, (0, found, 0)
    behind = but(dooming(), {2: BLACK}, position=4)
    yield "black behind the position", behind, 2, (0, IS_BLACK, 0)


def refused():
    """1 and then 2 come before the state, for blocks and for other numbers."""
    for number in (0, 2, 3, OUT, TOP):
        yield "a record of zeroes", machine.empty_heap(0), number, (1, 0, 0)
        yield "M 0", but(idle(), M=0), number, (1, 0, 0)
        yield "M 16385", but(idle(), M=16385), number, (1, 0, 0)
        yield "U 65536", but(idle(), U=65536), number, (1, 0, 0)
        for lengths in ((31, 4, 4), (33, 4, 4), (32, 3, 4), (32, 5, 4), (32, 4, 3), (32, 4, 5),
                        (0, 0, 0)):
            yield f"lengths {lengths}", lent(4, 1, *lengths), number, (1, 0, 0)
        yield "a length before a register", but(lent(4, 1, 32, 4, 5), phase=3), number, (1, 0, 0)
        for wrong in (dict(phase=3), dict(grey_head=2), dict(grey_head=0), dict(free_head=OUT),
                      dict(free_head=1), dict(free_count=5), dict(position=2), dict(root=1),
                      dict(root=OUT), dict(mark=0), dict(mark=OUT)):
            yield f"{wrong}", but(idle(), **wrong), number, (2, 0, 0)
        for wrong in (dict(position=0), dict(position=1), dict(position=OUT), dict(grey_head=2),
                      dict(position=5), dict(mark=1), dict(mark=TOP)):
            yield f"sweeping, {wrong}", but(dooming(), **wrong), number, (2, 0, 0)
        yield "marking, grey head 6", but(marking(), grey_head=OUT), number, (2, 0, 0)
    yield "a register before a colour word", but(idle(), {2: OUT}, phase=3), 2, (2, 0, 0)


def by_hand():
    for cases in (phases, positions, no_blocks, illegal_colours, refused):
        yield from cases()
