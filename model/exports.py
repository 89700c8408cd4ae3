"""The exports of a list to a lent buffer, and cases of the one whose rows are
blocks, worked out by hand. Those of objects are in export_cases.py.

From what include/dergamoyne.h says of Export and Export objects: the list starts
at a block or object and goes on by the reference in one word or field of each; 0
ends it. Before each row is written come four tests, in this order: there are M
rows already; the row doesn't fit the buffer; Read refuses the link word, or Read
field one of the row's fields; the link is a number.
"""

import chains
import machine

COMPLETE, CIRCLE, NO_ROOM, REFUSED, NO_REFERENCE = range(5)


def export(h, out, start, link):
    """Writes rows of eight words to the list `out`. Answers (complete, rows,
    reason, refusal)."""
    return written(h, out, start, 8, lambda block: block_row(h, block, link))


def export_objects(h, out, start, fields, link):
    """The same of objects, the fields 0 to fields - 1 a row. Numbers out of range
    are told at once, as refused by 3 with no row: fields not 1 to 1,792, or a link
    that isn't one of them."""
    if not 1 <= fields <= chains.MOST_FIELD + 1 or link >= fields:
        return 0, 0, REFUSED, 3
    return written(h, out, start, fields, lambda first: object_row(h, first, fields, link))


def written(h, out, start, width, row_of):
    """Row by row, as many words each. row_of tells of a block why its row can't be
    written, with a refusal; or COMPLETE, the row, and where its link leads."""
    rows, block = 0, start
    while block != machine.NO_BLOCK:
        if rows == h.M:
            return 0, rows, CIRCLE, 0
        if width * rows + width > len(out):
            return 0, rows, NO_ROOM, 0
        reason, refusal, row, following = row_of(block)
        if reason != COMPLETE:
            return 0, rows, reason, refusal
        out[width * rows:width * rows + width] = row
        rows, block = rows + 1, following
    return 1, rows, COMPLETE, 0


def block_row(h, block, link):
    """A block's eight words; Read of its link word."""
    refusal, value, _, reference = machine.read(h, block, link)
    if refusal:
        return REFUSED, refusal, None, None
    if not reference:
        return NO_REFERENCE, 0, None, None
    return COMPLETE, 0, [machine.get_word(h, block, w) for w in range(8)], value


def object_row(h, first, fields, link):
    """An object's fields, read one by one in order."""
    found = []
    for k in range(fields):
        refusal, value, _, reference = chains.read_field(h, first, k)
        if refusal:
            return REFUSED, refusal, None, None
        found.append((value, reference))
    following, reference = found[link]
    if not reference:
        return NO_REFERENCE, 0, None, None
    return COMPLETE, 0, [value for value, _ in found], following


# ------------------------------------------------------------- worked by hand

LINK = 2
LONG = 32               # a row more than three


def three():
    """The list 2, 3, 4 by the links in word 2; the other words are numbers."""
    h = machine.empty_heap(3)
    machine.format(h, 3, 1)
    for block in (2, 3, 4):
        holder = (0, 0) if block == 2 else (block - 1, LINK)
        machine.allocate(h, *holder)
        machine.store_reference(h, block, LINK, 0)
        for word in {*range(8)} - {LINK}:
            machine.store_number(h, block, word, 100 * block + word)
    return h


def ended(how, *numbers):
    """three() with a call done on its last block's link."""
    h = three()
    how(h, 4, LINK, *numbers)
    return h


def illegal():
    h = three()
    h.phase = 3
    return h


def coloured(word):
    h = three()
    h.colours[1] = word
    return h


def shortened():
    h = three()
    h.colours.pop()
    return h


def by_hand():
    """(what it is, heap, length of out, start, link, answer)."""
    for room in range(LONG + 1):
        rows = min(room // 8, 3)
        answer = (1, 3, COMPLETE, 0) if room >= 24 else (0, rows, NO_ROOM, 0)
        yield "a length of the buffer", three(), room, 2, LINK, answer
    yield "the empty list", three(), 0, 0, LINK, (1, 0, COMPLETE, 0)
    yield "from the middle", three(), LONG, 3, LINK, (1, 2, COMPLETE, 0)
    yield "no block", three(), LONG, 5, LINK, (0, 0, REFUSED, 3)
    yield "no word", three(), LONG, 2, 8, (0, 0, REFUSED, 3)
    yield "a number in the link word", three(), LONG, 2, 1, (0, 0, NO_REFERENCE, 0)
    numbered, circle = ended(machine.store_number, 2), ended(machine.store_reference, 2)
    yield "a number in the last link word", numbered, LONG, 2, LINK, (0, 2, NO_REFERENCE, 0)
    yield "a circle", circle, LONG, 2, LINK, (0, 3, CIRCLE, 0)
    yield "a circle, a buffer too short", circle, 23, 2, LINK, (0, 2, NO_ROOM, 0)
    yield "a colour outside the layout", coloured(4294967293), LONG, 2, LINK, (0, 1, REFUSED, 8)
    yield "a free block", coloured(machine.FREE), LONG, 2, LINK, (0, 1, REFUSED, 5)
    yield "a length that doesn't fit", shortened(), LONG, 2, LINK, (0, 0, REFUSED, 1)
    yield "registers that are not legal", illegal(), LONG, 2, LINK, (0, 0, REFUSED, 2)
    none = machine.empty_heap(0)
    yield "a list on no blocks", none, LONG, 2, LINK, (0, 0, CIRCLE, 0)
    yield "the empty list on no blocks", none, 0, 0, LINK, (1, 0, COMPLETE, 0)
