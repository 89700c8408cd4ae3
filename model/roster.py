"""The program `roster` on the second model: python3 model/roster.py prints
what it has to print.

A list of rows is stored while garbage is made, and exported (exports.py). A row
is an object of 14 fields in two blocks (chains.py): field 0 links it, the others
hold numbers.
"""

import chains
import exports
import facts
import machine

M, U, B = 16384, 28, 2
ROWS, FIELDS, GARBAGE, MARKED = 7000, 14, 2, 6144
ROOM = FIELDS * M
LINK, HELD = 0, 1
IN_USE = 1 + B * ROWS + B       # the root's block, all rows, and the garbage of a moment


REASONS = {exports.CIRCLE: "the list runs in a circle", exports.NO_ROOM: "no room for the next",
           exports.REFUSED: "a read of the next is refused by {}",
           exports.NO_REFERENCE: "the link of the next is no reference"}


def number(n, k):
    """What field k of row n holds: k in the upper half, n in the lower."""
    return 65536 * k + n


def outcome(answer):
    complete, rows, reason, refusal = answer
    if complete:
        return f"complete, rows: {rows}"
    return f"NOT complete, rows: {rows}; {REASONS[reason].format(refusal)}"


def unlike(out):
    """How many of the rows in the buffer are not what was stored."""
    wanted = [[number(n, k) for k in range(1, FIELDS)] for n in range(1, ROWS + 1)]
    return sum(out[FIELDS * i + 1:FIELDS * i + FIELDS] != row for i, row in enumerate(wanted))


class Night:
    """A heap on which calls are made and refusals counted."""

    def __init__(self):
        self.heap = machine.empty_heap(M)
        self.refused = 0
        self.rows = []
        self.out = [0] * ROOM

    def call(self, made, *numbers):
        answer = made(self.heap, *numbers)
        self.refused += answer[0] != 0
        return answer[1]

    def store_rows(self):
        last = self.heap.root
        for n in range(1, ROWS + 1):
            last = self.call(chains.allocate_chain, last, LINK, B)
            self.rows.append(last)
            self.call(chains.store_field_reference, last, LINK, 0)
            for k in range(1, FIELDS):
                self.call(chains.store_field_number, last, k, number(n, k))
            for _ in range(GARBAGE):
                self.call(chains.allocate_chain, self.heap.root, HELD, B)

    def export(self):
        return outcome(exports.export_objects(self.heap, self.out, self.rows[0], FIELDS, LINK))

    def export_short(self, rows):
        room = [0] * (FIELDS * rows)
        return outcome(exports.export_objects(self.heap, room, self.rows[0], FIELDS, LINK))

    def export_first_blocks(self):
        room = [0] * (8 * M)
        return outcome(exports.export(self.heap, room, self.rows[0], LINK))


def cycles_finished(h):
    return h.cycle - (h.phase != machine.IDLE)


def has_room(pace):
    """Demand 3's premise: K + 2N + B - 1 is at most M, with N = (2M + 2)/U rounded up."""
    return chains.has_room(-(-(2 * M + 2) // pace), M, IN_USE, B)


def yes_no(said):
    return "yes" if said else "no"


def lines():
    night = Night()
    h = night.heap
    night.call(machine.format, M, U)
    night.call(machine.allocate, 0, 0)
    night.store_rows()
    assert len(facts.reachable(h)) == IN_USE, "the blocks in use are counted wrong"
    for pace in (U, U - 1):
        yield f"{M} blocks at pace {pace} are enough for {IN_USE} in use: {yes_no(has_room(pace))}"
    yield f"rows of {FIELDS} fields stored, each followed by two objects of garbage: {ROWS}"
    yield f"calls refused: {night.refused}"
    yield f"collector cycles finished meanwhile: {cycles_finished(h)}"
    yield f"heap well-formed: {yes_no(machine.audit(h)[1] == 1)}"
    yield f"export: {night.export()}"
    yield f"rows that are not as they were stored: {unlike(night.out)}"
    yield f"into a buffer of 5000 rows: {night.export_short(5000)}"
    yield f"of the rows' first blocks alone: {night.export_first_blocks()}"
    yield from damaged(night)
    yield f"with all of that mended: {night.export()}"
    yield f"rows that are not as they were stored: {unlike(night.out)}"
    night.call(machine.store_reference, h.root, LINK, 0)
    night.call(machine.work, 65535)
    yield f"once the root let go of it and the collector came by: {night.export()}"
    yield f"calls refused, in all: {night.refused}"


def damaged(night):
    """One way at a time, and mended each time."""
    h = night.heap
    marked, following = night.rows[MARKED - 1], night.rows[MARKED]
    second = night.call(machine.read, marked, chains.LINK)

    night.call(machine.store_number, marked, LINK, following)
    yield f"with row {MARKED}'s link stored as a number: {night.export()}"
    night.call(machine.store_reference, marked, LINK, following)

    night.call(machine.store_number, marked, chains.LINK, second)
    yield f"with the reference to row {MARKED}'s second block stored as a number: {night.export()}"
    night.call(machine.store_reference, marked, chains.LINK, second)

    for which, block in (("first", marked), ("second", second)):
        colour = machine.colour(h, block)
        machine.put_colour(h, block, machine.FREE - 1)
        yield f"with the colour word of row {MARKED}'s {which} block outside the layout: {night.export()}"
        machine.put_colour(h, block, colour)

    night.call(machine.store_reference, night.rows[-1], LINK, night.rows[0])
    yield f"with the last row linked to the first: {night.export()}"
    night.call(machine.store_reference, night.rows[-1], LINK, 0)


def output():
    return "".join(line + "\n" for line in lines()).encode()


if __name__ == "__main__":
    print(output().decode(), end="")
