"""Cases of the export of objects, worked out by hand, one clause at a time.

Each case is (clause, heap, length of the buffer, start, fields, link, rows,
reason, refusal). The rows are those that must be written, each as the blocks
whose words 0 to 6 it is. check_chains.py runs them on the model; calls.py puts
them among the cases of tests/c.
"""

import chains
import machine
from damage import but, lent
from exports import CIRCLE, COMPLETE, NO_REFERENCE, NO_ROOM, REFUSED
from machine import BLACK, FREE

TOP = 4294967295
OUT = 8                         # M + 2, for M = 6: no block and no colour
FIELDS, LINK = 14, 9            # two blocks a row; field 9 is word 2 of the second
LONG = 7 * FIELDS               # a row more than there are blocks
ONE, TWO, THREE = (2, 3), (4, 5), (6, 7)
ALL = [ONE, TWO, THREE]


def three():
    """Idle: the list of the objects 2, 4, 6 by field 9. The block behind each is
    its second. Field k of the object b is the number 100b + k otherwise, word 7 of
    its second block null."""
    h = machine.empty_heap(6)
    machine.format(h, 6, 1)
    for first in (2, 4, 6):
        holder = (0, 0) if first == 2 else (first - 1, LINK % 7)
        chains.allocate_chain(h, *holder, 2)
        for k in {*range(FIELDS)} - {LINK}:
            chains.store_field_number(h, first, k, 100 * first + k)
        chains.store_field_reference(h, first, LINK, 0)
    machine.work(h, 6)          # of the second cycle four were done, the turn last: six sweep all blocks
    return h


def sweeping(position, *white):
    """The same at a sweep's position: these blocks from there on are doomed, the
    others are black."""
    colours = {b: BLACK for b in range(position, 8) if b not in white}
    return but(three(), colours, phase=2, position=position)


def export(clause, rows, reason, refusal=0, h=None, room=LONG, start=2, fields=FIELDS, link=LINK):
    """A case: of the list in a buffer that is long enough, where nothing else is
    given."""
    return clause, h or three(), room, start, fields, link, rows, reason, refusal


# ------------------------------------------------------------------- complete

def by_field_0():
    """The same list by field 0, which is in the rows' first blocks."""
    h = three()
    for first, following in ((2, 4), (4, 6), (6, 0)):
        chains.store_field_reference(h, first, 0, following)
    return h


def complete():
    for room in range(3 * FIELDS + 3):
        rows = ALL[:room // FIELDS]
        reason = COMPLETE if len(rows) == 3 else NO_ROOM
        yield export("a length of the buffer", rows, reason, room=room)
    yield export("from the second row", [TWO, THREE], COMPLETE, start=4)
    yield export("the last row", [THREE], COMPLETE, start=6)
    for fields in (10, 11, 13):
        yield export("fewer fields than the objects have", ALL, COMPLETE, fields=fields)
    for fields, rows in [(1, [(2,), (4,), (6,)]), (7, [(2,), (4,), (6,)]), (8, ALL)]:
        yield export("the link in field 0", rows, COMPLETE, h=by_field_0(), fields=fields, link=0)
        yield export("no room by the fields of a row", rows[:2], NO_ROOM, h=by_field_0(),
                     fields=fields, link=0, room=3 * fields - 1)
    h = but(by_field_0(), {3: OUT, 5: FREE}, byte={6: 1})
    yield export("what is behind a row's fields doesn't count", [(2,), (4,), (6,)], COMPLETE, h=h,
                 fields=7, link=0)
    for name in (1, 3, OUT):
        h = but(three(), word={(5, 7): name})
        yield export("word 7 of a row's last block isn't followed", ALL, COMPLETE, h=h)
    h = but(three(), word={(2, 7): 5})
    yield export("rows that share a block", [(2, 5), THREE], COMPLETE, h=h)
    h = but(three(), word={(4, 2): 0}, byte={4: 132})
    yield export("rows of one block, from a second one on", [(3,), (4,)], COMPLETE, h=h, start=3,
                 fields=3, link=2)
    for fields, blocks in [(14, (2, 3)), (15, (2, 3, 2)), (28, (2, 3, 2, 3))]:
        h = but(three(), word={(3, 7): 2, (3, 2): 0})
        yield export("an object that runs in a ring", [blocks], COMPLETE, h=h, fields=fields)
    for fields in (14, 1792):
        h = but(three(), word={(2, 7): 2, (2, 2): 0}, byte={2: 132})
        yield export("a block that names itself", [(2,) * (fields // 7)], COMPLETE, h=h,
                     fields=fields, room=fields)


def two_long():
    """Two rows of 1,792 fields, in the blocks 2 to 257 and 258 to 513, linked by the
    last field, which is word 6 of the last block."""
    h = machine.empty_heap(512)
    machine.format(h, 512, 1)
    chains.allocate_chain(h, 0, 0, 256)
    chains.allocate_chain(h, 257, 6, 256)
    chains.store_field_reference(h, 258, 1791, 0)
    for block in (2, 257, 258, 513):
        machine.store_number(h, block, 3, 1000 + block)
    return h


def longest():
    first, second = tuple(range(2, 258)), tuple(range(258, 514))
    for room, rows, reason in [(3584, [first, second], COMPLETE), (3583, [first], NO_ROOM)]:
        yield export("1,792 fields", rows, reason, h=two_long(), room=room, fields=1792, link=1791)
    yield export("the last block of 256 is gone", [first], REFUSED, 5, h=but(two_long(), {513: FREE}),
                 room=3584, fields=1792, link=1791)


# ------------------------------------------------------------ numbers, nothing

def at_once():
    broken = [three(), but(three(), {2: OUT}), but(three(), phase=3), lent(0, 1, 0, 0, 0)]
    for h in broken:
        for start in (0, 2, OUT):
            for fields, link in [(0, 0), (1793, 0), (TOP, 0), (14, 14), (14, TOP), (1, 1), (0, TOP)]:
                yield export("numbers out of range", [], REFUSED, 3, h=h, start=start, fields=fields,
                             link=link, room=FIELDS)
        for room in (0, FIELDS):
            yield export("the empty list", [], COMPLETE, h=h, start=0, room=room)
    yield export("numbers out of range before no room", [], REFUSED, 3, fields=0, link=0, room=0)


# ------------------------------------------------------- why it isn't complete

def circles():
    """M is 6, so a circle shows after six rows."""
    for room in (6 * FIELDS, 6 * FIELDS + 1, LONG):
        h = but(three(), word={(7, 2): 2})
        yield export("six rows, and one more", [*ALL, *ALL], CIRCLE, h=h, room=room)
        h = but(three(), word={(3, 2): 2})
        yield export("a row that names itself", 6 * [ONE], CIRCLE, h=h, room=room)
    h = but(three(), word={(7, 2): 2})
    yield export("no room for the sixth row", [*ALL, ONE, TWO], NO_ROOM, h=h, room=6 * FIELDS - 1)
    for room in (0, LONG):
        for h in (lent(0, 1, 0, 0, 0), lent(0, 1, 8, 1, 1)):
            yield export("M is 0", [], CIRCLE, h=h, room=room)


def stops(clause, refusal, **changes):
    """With these changes the second row stops by this refusal; where it has no
    room, by that."""
    yield export(clause, [ONE], REFUSED, refusal, h=but(three(), **changes))
    yield export(clause + ", no room", [ONE], NO_ROOM, h=but(three(), **changes), room=2 * FIELDS - 1)


def refused():
    for start in (1, OUT, TOP):
        yield export("no block to start at", [], REFUSED, 3, start=start)
        yield from stops("a link that names no block", 3, word={(3, 2): start})
    for fields in (15, 21, 1792):
        yield export("the object has no such field", [], REFUSED, 3, fields=fields, room=fields)
    for colour in (OUT, TOP - 2):
        yield from stops("8 for the first block", 8, colour={4: colour})
        yield from stops("8 for the second block", 8, colour={5: colour})
    yield from stops("5 for the first block", 5, colour={4: FREE})
    yield from stops("5 for the second block", 5, colour={5: FREE})
    yield from stops("word 7 is no reference", 3, byte={4: 0})
    yield from stops("word 7 is null", 3, word={(4, 7): 0})
    for name in (1, OUT, TOP):
        yield from stops("word 7 names no block", 8, word={(4, 7): name})
        yield from stops("a number in word 7, before 8", 3, word={(4, 7): name}, byte={4: 0})
    yield from stops("the first block before its word 7", 5, colour={4: FREE}, byte={4: 0})
    yield from stops("word 7 before the second block", 3, colour={5: OUT}, byte={4: 0})
    yield from stops("the first block before the second", 8, colour={4: OUT, 5: FREE})
    yield export("a first block that is doomed", [ONE], REFUSED, 5, h=sweeping(4, 4))
    yield export("a second block that is doomed", [ONE], REFUSED, 5, h=sweeping(4, 5))
    yield export("white below the position", ALL, COMPLETE, h=sweeping(6))


def no_reference():
    for last, rows in [(3, []), (5, [ONE]), (7, [ONE, TWO])]:
        h = three()
        machine.store_number(h, last, LINK % 7, 2)
        yield export("a number in the link field", rows, NO_REFERENCE, h=h)
        yield export("no room before it", rows, NO_ROOM, h=h, room=14 * len(rows) + 13)
    yield export("by a field that no row is linked by", [], NO_REFERENCE, link=0)
    h = but(three(), {5: FREE}, byte={5: 0})
    yield export("a block of the row before its link", [ONE], REFUSED, 5, h=h)
    h = but(three(), {3: OUT})
    yield export("a later block before a link in the first", [], REFUSED, 8, h=h, link=0)
    yield export("a later link before a link in the first", [], REFUSED, 3, h=but(three(), byte={2: 0}),
                 link=0)
    yield export("a field that isn't there before the link", [], REFUSED, 3, fields=15, link=0)


def entry():
    for h, no in [(lent(1, 1, 8, 1, 0), 1), (lent(1, 1, 7, 1, 1), 1), (lent(1, 65536, 8, 1, 1), 1),
                  (lent(16385, 1, 8, 1, 1), 1), (lent(TOP, 1, 8, 1, 1), 1), (but(three(), phase=3), 2),
                  (but(three(), root=OUT), 2), (but(three(), position=2), 2), (but(three(), mark=OUT), 2)]:
        for start in (1, 2, TOP):
            yield export("lengths, M, U or registers", [], REFUSED, no, h=h, start=start)
        yield export("no room before that", [], NO_ROOM, h=h, room=13)


def cases():
    for part in (complete, longest, at_once, circles, refused, no_reference, entry):
        yield from part()
