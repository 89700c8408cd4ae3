"""Tests of Save and Load against document 02's request L4: python3
model/check_images.py, as model/check.py.
"""

import os
import random
import re
import sys

import check
import damage
import draw
import draw_images
import facts
import images
import machine
from check import equal, need


OTHER_COUNTS = (0, 1, 8, 11, 255)


def loads(image, M):
    """What Load answers and leaves, in memory of M blocks; and that a refusal
    leaves it as it was."""
    h = draw_images.other_heap(random.Random(8), M)
    before, given = machine.copy(h), list(image)
    refusal, value, units = images.load(h, image)
    equal((value, units), (0, 0), "value and units of Load")
    equal(image, given, "the image")
    need(refusal == 0 or h == before, f"Load refuses by {refusal} and writes", before, h)
    return refusal, h


def images_by_hand():
    for h, image in images.by_hand():
        before, length = machine.copy(h), len(image)
        equal(length, 56 + 37 * h.M, "the length of an image")
        out = [7] * (length + 3)
        equal(images.save(h, out), (0, 0, 0), "Save")
        equal(out, image + [7, 7, 7], f"the image of {h}")
        need(h == before, "Save changes the heap", before, h)
        equal(loads(image, h.M), (0, h), "Load of the dump")
    return f"{len(images.by_hand())} dumps"


def earlier_images_by_hand():
    """An image of nine registers is four bytes shorter. It loads with the mark at
    M + 1, and is written with ten."""
    for h, image in images.earlier_by_hand():
        equal(len(image), 52 + 37 * h.M, "the length of an earlier image")
        equal(h.mark, h.M + 1, "the mark")
        need(facts.well_formed(h), "not well-formed", h)
        equal(loads(image, h.M), (0, h), "Load of the dump")
        equal(images.encode_earlier(h), image, "as an earlier release wrote it")
        out = [0] * (56 + 37 * h.M)
        equal(images.save(h, out), (0, 0, 0), "Save")
        equal((out[0], out[40:44], out[44:]), (10, images.four(h.M + 1), image[40:]), "written with ten")
        *short, whole, longer = draw_images.cuts(image)
        for cut in short + [longer]:
            equal(loads(cut, h.M)[0], 10, f"an earlier image cut to {len(cut)} bytes")
    return f"{len(images.earlier_by_hand())} dumps"


def earlier_images():
    """Any heap reached by calls: what an earlier release wrote of it gives the same
    heap, but for the mark. Other counts of registers are refused."""
    rng, lower = random.Random(34), 0
    for _ in range(500):
        h = draw.reached_heaps(rng, 1)[0]
        lower += h.mark < h.M + 1
        image = images.encode_earlier(h)
        found = machine.copy(h)
        found.mark = h.M + 1
        equal(loads(image, h.M), (0, found), "Load of an earlier image")
        for count in OTHER_COUNTS:
            equal(loads(images.encode_with(h, count), h.M)[0], 10, f"{count} registers")
    need(lower > 100, f"only {lower} had a lower mark")
    return "500 heaps"


def the_documented_dump():
    """The dump of docs/IMAGE.md: each line's place is that of its first byte, and
    all of it is the image of one block."""
    path = os.path.join(os.path.dirname(__file__), "..", "docs", "IMAGE.md")
    found = []
    for place, dump in re.findall(r"^ +(\d+)  ((?:[0-9a-f]{2} ?)+)(?:  .*)?$", open(path).read(), re.M):
        equal(int(place), len(found), "a place in the dump of docs/IMAGE.md")
        found += bytes.fromhex(dump)
    equal(found, images.encode(images.one_block()), "the dump of docs/IMAGE.md")
    return f"{len(found)} bytes"


def load_of_save():
    """Loading what was saved gives the same heap, in every phase; the output past
    the image keeps its bytes."""
    rng, phases = random.Random(31), {}
    for _ in range(1500):
        h = draw.reached_heaps(rng, 1)[0]
        before = machine.copy(h)
        length = images.length_of(h.M)
        out = [draw.below(rng, 256) for _ in range(length + draw.below(rng, 4))]
        rest = out[length:]
        equal(images.save(h, out), (0, 0, 0), f"Save of {h}")
        need(h == before, "Save changes the heap", before, h)
        equal(out[length:], rest, "the output past the image")
        equal(loads(out[:length], h.M), (0, h), "Load of what Save wrote")
        if rest:
            equal(loads(out, h.M)[0], 10, "Load with something after the image")
        phases[h.phase] = phases.get(h.phase, 0) + 1
    need(len(phases) == 3 and min(phases.values()) > 100, f"phases: {phases}")
    return f"1500 heaps, {phases}"


def cut_images():
    count = 0
    for h, image in images.by_hand():
        *short, whole, longer = draw_images.cuts(image)
        for cut in short + [longer]:
            equal(loads(cut, h.M)[0], 10, f"an image cut to {len(cut)} bytes")
        equal(loads(whole, h.M)[0], 0, "the whole image")
        count += len(short) + 1
    return f"{count} lengths"


def changed_images():
    """Each byte of a small image changed, for one block to each other value: refused
    by 10, or the image of another well-formed heap, whose own image it is."""
    refused = loaded = 0
    for h, image in images.by_hand():
        others = range(256) if h.M == 1 else [0, 1, 2, 3, 4, 5, 254, 255]
        for changed in draw_images.changes(image, lambda byte: others):
            refusal, found = loads(changed, h.M)
            need(refusal in (0, 10), f"Load answers {refusal}")
            if refusal:
                refused += 1
                continue
            need(facts.well_formed(found), "Load gives a heap that isn't well-formed", found)
            out = [0] * len(image)
            equal(images.save(found, out), (0, 0, 0), "Save of what was loaded")
            equal(out, changed, "its image")
            loaded += 1
    need(refused and loaded, f"{refused} refused, {loaded} loaded")
    return f"{refused} refused, {loaded} images of other heaps"


def other_lengths():
    """13 for lent buffers of other lengths, 10 before 13; the old registers and the
    buffers' contents are not looked at."""
    for h, image in images.by_hand():
        M = h.M
        for words, colours, bytes_ in [(8 * M + 1, M, M), (8 * M - 1, M, M), (8 * M, M + 1, M), (8 * M, M - 1, M),
                                       (8 * M, M, M + 1), (8 * M, M, M - 1), (0, 0, 0), (8 * M + 8, M + 1, M + 1)]:
            for phase in (0, 9):
                lent = damage.but(damage.lent(M, 1, words, colours, bytes_), phase=phase)
                before = machine.copy(lent)
                equal(images.load(lent, image), (13, 0, 0), "other lengths")
                equal(images.load(lent, image[:-1]), (10, 0, 0), "10 before 13")
                need(lent == before, "a refusal writes", before, lent)
        for length in range(len(image)):
            out = [5] * length
            equal(images.save(h, out), (13, 0, 0), "too short an output")
            equal(out, [5] * length, "a refusal writes")
    return "13 where it should be"


def largest_images():
    """The largest heap's image loads, and one of a block more is a bad image."""
    for M, refusal in [(16384, 0), (16385, 10)]:
        h = machine.empty_heap(16384)
        machine.format(h, 16384, 1)
        if M > 16384:               # the same heap with a block more
            machine.put_word(h, 16385, 0, 16386)
            h.words += [0] * 8
            h.colours.append(machine.FREE)
            h.bytes.append(0)
            h.M = h.free_count = M
        equal(loads(images.encode(h), M)[0], refusal, f"{M} blocks")
    return "16384 and one more"


def drawn_cases():
    """Any heap and any bytes: Save refuses by 1, 10 and 13 exactly where facts.py
    says so; Load answers 0 exactly on images that Save could have written, now or in
    an earlier release; a refusal writes nothing. Each answer is met."""
    rng, met, earlier = random.Random(32), {}, 0
    for _ in range(6000):
        name, h, further = draw_images.case(rng)
        before, given = machine.copy(h), list(further)
        refusal, value, units = getattr(images, name)(h, further)
        equal((value, units), (0, 0), "value and units")
        need(refusal == 0 or (h == before and further == given), f"{name} refuses and writes", before, h)
        if name == "save":
            need(h == before, "Save changes the heap", before, h)
            wanted = (1 if not facts.lengths_M_and_U_fit(h) else 10 if not facts.well_formed(h)
                      else 13 if len(given) < images.length_of(h.M) else 0)
            equal(refusal, wanted, f"Save of {h} to {len(given)} bytes")
        elif refusal != 10:
            found = images.decode(given)
            need(facts.well_formed(found), "an image of no well-formed heap", found)
            if given[0] == 9:
                equal((images.encode_earlier(found), found.mark), (given, found.M + 1), "its image, and the mark")
                earlier += 1
            else:
                equal(images.encode(found), given, "its image")
            equal(refusal == 0, images.lengths(found) == images.lengths(h), f"13 or 0 for {images.lengths(h)}")
            need(refusal != 0 or h == found, "Load gives another heap", h, found)
        met[name, refusal] = met.get((name, refusal), 0) + 1
    missing = [(name, no) for name, answers in draw_images.ANSWERS.items() for no in answers
               if (name, no) not in met]
    need(not missing, f"never answered: {missing}")
    need(earlier > 100, f"only {earlier} earlier images")
    return ", ".join(f"{name} {no}: {count}" for (name, no), count in sorted(met.items()))


def sessions_go_on():
    """A session that is saved and loaded at any point goes on as one that isn't."""
    rng, calls = random.Random(33), 0
    for _ in range(300):
        h = draw.reached_heaps(rng, 1)[0]
        out = [0] * images.length_of(h.M)
        images.save(h, out)
        spare = draw_images.other_heap(rng, h.M)
        equal(images.load(spare, out), (0, 0, 0), "Load")
        for _ in range(12):
            letter, numbers = draw.call(rng, h)
            answers = [draw.lines.answer_of(heap, letter, numbers) for heap in (h, spare)]
            equal(answers[0], answers[1], f"{letter} {numbers}")
            need(h == spare, "the heaps part", h, spare)
            need(facts.well_formed(spare), "not well-formed", spare)
            calls += 1
    return f"{calls} calls"


TESTS = [images_by_hand, earlier_images_by_hand, earlier_images, the_documented_dump, load_of_save, cut_images, changed_images, other_lengths,
         largest_images, drawn_cases, sessions_go_on]

if __name__ == "__main__":
    sys.exit(check.main(TESTS))
