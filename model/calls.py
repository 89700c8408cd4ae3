"""Cases of the exported calls with what comes of them, for tests/c/cases.c.

python3 model/calls.py prints those stored in tests/c/cases.txt;
python3 model/calls.py SEED COUNT prints COUNT * 80 drawn from SEED.

A case is two lines, before the call and after it:

  NAME <numbers> <registers> <words> <colours> <bytes> <out>
  <answer> <registers> <words> <colours> <bytes> <out>

Each <list> is its length and then its numbers. The answer has its numbers in
the order of its struct in include/dergamoyne.h. `out` is the further buffer of
a call that takes one, else of length 0: words of an export, bytes of an image,
which Save writes and Load reads. Why has its three in that place: <path>, <queue>
and <came>. A new call is a line of CALLS.
"""

import itertools
import random
import sys

import chain_cases
import chains
import damage
import draw
import draw_chains
import draw_images
import draw_whys
import export_cases
import exports
import images
import machine
import probe
import states
import why_cases
import whys

TOP = 4294967295


def look(h, out, block):
    """The refusal of Read of word 0, and the index of the block's words in the
    word buffer; 4,294,967,295 on a refusal."""
    part = machine.look(h, block)
    return machine.read(h, block, 0)[0], part[0] if len(part) else TOP


def plain(call):
    """A call that takes no further buffer. Whether a word is a reference is
    answered by 1 or 0."""
    return lambda h, out, *numbers: [int(part) for part in call(h, *numbers)]


CALLS = {
    "format": plain(machine.format),
    "read": plain(machine.read),
    "look": look,
    "store_number": plain(machine.store_number),
    "store_reference": plain(machine.store_reference),
    "set_root": plain(machine.set_root),
    "allocate": plain(machine.allocate),
    "work": plain(machine.work),
    "audit": plain(machine.audit),
    "export": exports.export,
    "allocate_chain": plain(chains.allocate_chain),
    "read_field": plain(chains.read_field),
    "store_field_number": plain(chains.store_field_number),
    "store_field_reference": plain(chains.store_field_reference),
    "export_objects": exports.export_objects,
    "state": plain(states.state),
    "save": images.save,
    "load": images.load,
    "why": whys.why,
}

# The letters by which heapprobe's cases name the calls of document 01.
LETTERS = {"F": "format", "R": "read", "L": "look", "N": "store_number", "S": "store_reference",
           "T": "set_root", "A": "allocate", "W": "work", "C": "audit"}


def listed(*lists):
    return " ".join(" ".join(map(str, [len(numbers), *numbers])) for numbers in lists)


def everything(h, further):
    return machine.registers(h), h.words, h.colours, h.bytes, *further


def case(name, numbers, h, *further):
    """The two lines of a case. The heap is left as it was."""
    h, further = machine.copy(h), [list(buffer) for buffer in further or ([],)]
    before = f"{name} {listed(numbers, *everything(h, further))}"
    answer = CALLS[name](h, *further, *numbers)
    return f"{before}\n{listed(answer, *everything(h, further))}\n"


# -------------------------------------------------------------------- exports

def buffer(rng, M):
    """A buffer for an export on M blocks: as a rule long enough, often just."""
    rows = M if draw.chance(rng, 0.5) else draw.below(rng, M + 2)
    length = max(0, 8 * rows + draw.one_of(rng, [0, 0, 0, -1, 1, 7]))
    return [draw.below(rng, 1000) for _ in range(length)]


def link_up(rng, h, blocks, link):
    """A list of these blocks; its last link is 0 as a rule, else any block, or
    stays what it was."""
    last = draw.one_of(rng, [0, 0, 0, draw.one_of(rng, blocks), None])
    for block, following in zip(blocks, [*blocks[1:], last]):
        if following is not None:
            machine.store_reference(h, block, link, following)
        for word in {*range(8)} - {link}:
            if draw.chance(rng, 0.3):
                machine.store_number(h, block, word, draw.small_number(rng, h.M))


def export_case(rng):
    """A list over some allocated blocks of a heap reached by calls, with no
    field damaged or one, and an export of it from its start or elsewhere."""
    h = draw.reached_heaps(rng, 1)[0]
    link = draw.one_of(rng, [0, 0, 1, 7])
    found = [b for b in range(2, h.M + 2) if machine.read(h, b, 0)[0] == 0]
    start = 0
    if found:
        blocks = draw.shuffled(rng, found)[:1 + draw.below(rng, len(found))]
        link_up(rng, h, blocks, link)
        start = blocks[0]
    if draw.chance(rng, 0.3):
        draw.damage(rng, h)
    if draw.chance(rng, 0.15):
        start = draw.small_number(rng, h.M)
    if draw.chance(rng, 0.05):
        link = draw.one_of(rng, [2, 8, TOP])
    return case("export", [start, link], h, buffer(rng, h.M if h.M < 9 else 8))


# --------------------------------------------------------------------- states

def state_case(rng):
    """State of any number, on a heap reached by calls or drawn, at times put in
    the midst of a sweep, at times with something damaged."""
    h = draw.reached_heaps(rng, 1)[0] if draw.chance(rng, 0.6) else draw.small_heap(rng, 6)
    if draw.chance(rng, 0.3) and h.colours:
        h.phase, h.grey_head = machine.SWEEPING, machine.GREY_END
        h.position = draw.between(rng, 2, len(h.colours) + 1)
        h.mark = max(h.mark, h.position)
    if draw.chance(rng, 0.4):
        draw.damage(rng, h)
    number = draw.small_number(rng, h.M)
    if draw.chance(rng, 0.75):
        number = draw.between(rng, 2, len(h.colours) + 1)
    return case("state", [number], h)


# ------------------------------------------------------------------ all of it

def drawn(rng, count):
    """Twenty of heapprobe's cases and ten exports, so many times."""
    for _ in range(count):
        for line in draw.twenty_cases(rng):
            found = probe.case_of(line)
            if found:
                yield case(LETTERS[found[0]], found[1], found[2])
        for _ in range(10):
            yield export_case(rng)


def drawn_chains(rng, count):
    """Ten calls on chained objects, so many times."""
    for _ in range(10 * count):
        yield case(*draw_chains.case(rng))


def drawn_exports(rng, count):
    """Ten exports of objects, so many times."""
    for _ in range(10 * count):
        numbers, h, out = draw_chains.export_case(rng)
        yield case("export_objects", numbers, h, out)


def drawn_states(rng, count):
    """Ten states told, so many times."""
    for _ in range(10 * count):
        yield state_case(rng)


def drawn_images(rng, count):
    """Ten of Save and Load, so many times."""
    for _ in range(10 * count):
        name, h, further = draw_images.case(rng)
        yield case(name, [], h, further)


def drawn_whys(rng, count):
    """Ten of Why, so many times."""
    for _ in range(10 * count):
        h, *lent, block = draw_whys.case(rng)
        yield case("why", [block], h, *lent)


def images_gone_over():
    """The images worked out by hand: saved and loaded; cut at every length; with
    every byte changed. Those of nine registers: loaded, cut, and the same changes.
    And some of other counts of registers."""
    rng = random.Random(107)
    for h, image in images.by_hand():
        lent = draw_images.other_heap(rng, h.M)
        for length in (0, len(image) - 1, len(image), len(image) + 2):
            yield case("save", [], h, [7] * length)
        for cut in draw_images.cuts(image) if h.M < 3 else [image]:
            yield case("load", [], lent, cut)
        others = lambda byte: [byte ^ 1, 255] if h.M == 1 else [byte ^ 1]
        for changed in draw_images.changes(image, others):
            yield case("load", [], lent, changed)
    for h, image in images.earlier_by_hand():
        lent = draw_images.other_heap(rng, h.M)
        for cut in draw_images.cuts(image) if h.M < 3 else [image]:
            yield case("load", [], lent, cut)
        for changed in draw_images.changes(image, lambda byte: [byte ^ 1]):
            yield case("load", [], lent, changed)
        for count in (0, 1, 8, 11):
            yield case("load", [], lent, images.encode_with(h, count))


def stored():
    """Those worked out by hand, and a few drawn."""
    for _, letter, numbers, h, _ in damage.cases():
        yield case(LETTERS[letter], numbers, h)
    for _, h, room, start, link, _ in exports.by_hand():
        yield case("export", [start, link], h, [7777] * room)
    yield from drawn(random.Random(103), 10)
    for _, name, numbers, h, _ in chain_cases.cases():
        yield case(name, numbers, h)
    yield from drawn_chains(random.Random(104), 12)
    for _, h, room, start, fields, link, _, _, _ in export_cases.cases():
        yield case("export_objects", [start, fields, link], h, [7777] * room)
    yield from drawn_exports(random.Random(105), 20)
    for _, h, number, _ in states.by_hand():
        yield case("state", [number], h)
    yield from drawn_states(random.Random(106), 16)
    yield from images_gone_over()
    yield from drawn_images(random.Random(108), 30)
    for _, h, lengths, block, _, _ in why_cases.cases():
        yield case("why", [block], h, *([7777] * length for length in lengths))
    yield from drawn_whys(random.Random(109), 30)


def main(arguments):
    if arguments:
        seed, count = arguments
        found = itertools.chain(drawn(random.Random(f"calls {seed}"), int(count)),
                                drawn_chains(random.Random(f"chains {seed}"), int(count)),
                                drawn_exports(random.Random(f"exports {seed}"), int(count)),
                                drawn_states(random.Random(f"states {seed}"), int(count)),
                                drawn_images(random.Random(f"images {seed}"), int(count)),
                                drawn_whys(random.Random(f"whys {seed}"), int(count)))
    else:
        found = stored()
    sys.stdout.writelines(found)


if __name__ == "__main__":
    if len(sys.argv) not in (1, 3):
        sys.exit("usage: python3 model/calls.py [SEED COUNT]")
    main(sys.argv[1:])
