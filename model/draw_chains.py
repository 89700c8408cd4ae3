"""Drawing at random for the calls on chained objects: sessions, and cases on
heaps damaged or not. As in draw.py everything follows from the seed.
"""

import chains
import draw
import lines
import machine
from draw import below, between, chance, one_of

TOP = 4294967295

# Each answer that each call can give on any heap.
ANSWERS = {"allocate_chain": [0, 1, 2, 3, 5, 7, 8], "read_field": [0, 1, 2, 3, 5, 8],
           "store_field_number": [0, 1, 2, 3, 5, 8],
           "store_field_reference": [0, 1, 2, 3, 4, 5, 6, 8]}

# Each (reason, refusal) that the export of objects can answer on any heap.
EXPORT_ANSWERS = [(0, 0), (1, 0), (2, 0), *((3, no) for no in (1, 2, 3, 5, 8)), (4, 0)]


def sizes(rng):
    """M and U of a session."""
    M = one_of(rng, [1, 2, 3, 4, 6, 8, 12, 20, 30])
    return M, one_of(rng, [0, 1, 1, 2, 3, 5, 8, M])


def length(rng, h):
    """How many blocks a chain is to have; seldom none, or more than there are."""
    if chance(rng, 0.03):
        return one_of(rng, [0, 256, 257, TOP])
    return one_of(rng, [1, 1, 2, 2, 3, 4, between(rng, 1, 9), max(1, min(h.free_count, 9))])


def field(rng):
    if chance(rng, 0.03):
        return one_of(rng, [1791, 1792, 1793, TOP])
    return one_of(rng, [0, 1, 6, 7, 8, 13, 14, 20, 21, below(rng, 70)])


def call(rng, h, tame=False, odd=0.04):
    """A call of a session: its name, or the letter of one of document 01's."""
    return chained(rng, h, tame, odd) if chance(rng, 0.6) else draw.call(rng, h, tame, odd)


def chained(rng, h, tame, odd):
    name = one_of(rng, [*ANSWERS, "allocate_chain", "allocate_chain"])
    if name == "allocate_chain" and chance(rng, 0.15 if h.root else 0.9):
        return name, [0, 0, length(rng, h)]
    block = draw.block_for(rng, h, odd)
    if name == "allocate_chain":
        return name, [block, draw.word_for(rng, odd), length(rng, h)]
    if name == "read_field":
        return name, [block, field(rng)]
    if name == "store_field_number":
        return name, [block, field(rng), one_of(rng, [0, 2, 3, 12345, TOP])]
    return name, [block, field(rng), draw.target_for(rng, h, tame, odd)]


# ---------------------------------------------------------------------- cases

def reached(rng):
    """A heap of 1 to 12 blocks reached by calls, with objects on it."""
    M = one_of(rng, [1, 2, 3, 4, 5, 6, 6, 8, 8, 10, 12])
    h = machine.empty_heap(M)
    machine.format(h, M, one_of(rng, [0, 1, 1, 1, 2, 3]))
    for _ in range(between(rng, 1, 14)):
        name, numbers = call(rng, h, odd=0.01)
        if len(name) == 1:
            lines.answer_of(h, name, numbers)
        elif name != "allocate_chain" or numbers[2] < 10:
            getattr(chains, name)(h, *numbers)
    return h


def damage(rng, h):
    """One thing changed, as a rule one that these calls look at: a free block's
    link or colour, the count, a word 7 or its bit."""
    blocks = range(2, len(h.colours) + 2)
    free = [b for b in blocks if machine.colour(h, b) == machine.FREE
            and 8 * (b - 1) <= len(h.words)]
    kind = below(rng, 6)
    number = lambda: one_of(rng, [0, 1, *blocks, *blocks, len(h.colours) + 2, TOP])
    if kind == 0 and free:
        machine.put_word(h, one_of(rng, free), 0, number())
    elif kind == 1 and free:
        machine.put_colour(h, one_of(rng, free), one_of(rng, [0, TOP, 1, TOP - 2]))
    elif kind == 2:
        h.free_count = below(rng, h.M + 1) if h.M < 100 else 0
    elif kind == 3 and len(h.words) >= 8:
        h.words[8 * below(rng, len(h.words) // 8) + 7] = number()
    elif kind == 4 and h.bytes:
        h.bytes[below(rng, len(h.bytes))] ^= 128
    else:
        draw.damage(rng, h)


def case(rng):
    """(call, numbers, heap): none, one or two things damaged."""
    h = reached(rng)
    name, numbers = chained(rng, h, False, 0.05)
    for _ in range(one_of(rng, [0, 0, 1, 1, 2])):
        damage(rng, h)
    if chance(rng, 0.02):
        h.root = one_of(rng, [1, TOP])
    if name == "allocate_chain" and h.U > 64:
        h.U = one_of(rng, [64, 65536])
    return name, numbers, h


# -------------------------------------------------------------------- exports

def rows_on(rng, n):
    """A heap reached by calls, with a list of objects of n blocks each on it, as many
    as there is room for; the objects, and the field by which they are linked. Its
    last link is null as a rule, else any block, or a number."""
    h = reached(rng)
    link = below(rng, 7 * n)
    objects = []
    for _ in range(between(rng, 1, 5)):
        found = [b for b in range(2, h.M + 2) if machine.read(h, b, 0)[0] == 0]
        holder = (one_of(rng, found), below(rng, 7)) if found and h.root else (0, 0)
        no, first, _ = chains.allocate_chain(h, *holder, n)
        if no == 0:
            objects.append(first)
    for first, following in zip(objects, [*objects[1:], 0]):
        for k in range(7 * n):
            if chance(rng, 0.4):
                chains.store_field_number(h, first, k, draw.small_number(rng, h.M))
        chains.store_field_reference(h, first, link, following)
    if objects and chance(rng, 0.1):
        chains.store_field_reference(h, objects[-1], link, one_of(rng, objects))
    elif objects and chance(rng, 0.1):
        chains.store_field_number(h, objects[-1], link, 0)
    return h, objects, link


def row_buffer(rng, rows, fields):
    """A buffer for so many rows: as a rule long enough, often just."""
    rows = rows + 1 if chance(rng, 0.4) else rows if chance(rng, 0.6) else below(rng, rows + 1)
    length = max(0, min(fields, 99) * rows + one_of(rng, [0, 0, 0, -1, 1, 5]))
    return [below(rng, 1000) for _ in range(length)]


def export_case(rng):
    """(numbers, heap, buffer): an export of objects from the list's start or
    elsewhere, with nothing damaged or one or two things."""
    n = one_of(rng, [1, 1, 2, 2, 2, 3])
    h, objects, link = rows_on(rng, n)
    start = objects[0] if objects else 0
    fields = 7 * n if chance(rng, 0.6) else between(rng, link + 1, 7 * n)
    rows = h.M if chance(rng, 0.3) else len(objects)
    for _ in range(one_of(rng, [0, 0, 0, 1, 1, 2])):
        damage(rng, h)
    if chance(rng, 0.15):
        start = draw.small_number(rng, h.M)
    if chance(rng, 0.05):
        fields = one_of(rng, [0, 1, 7 * n + 1, 1792, 1793, TOP])
    if chance(rng, 0.05):
        link = one_of(rng, [0, fields, fields + 1 if fields < TOP else TOP, TOP])
    return [start, fields, link], h, row_buffer(rng, min(rows, 8), fields)
