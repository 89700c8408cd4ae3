"""What dergamoyne-heap has to print of an image, from the model alone.

    python3 model/looks.py midway DIRECTORY            of the heap of examples/c/midway.c
    python3 model/looks.py drawn SEED COUNT DIRECTORY  of COUNT images drawn from SEED
    python3 model/looks.py spoiled SEED COUNT DIRECTORY
    python3 model/looks.py largest DIRECTORY           largest.image and largest.list, of 16,384 blocks
    python3 model/looks.py pictures DIRECTORY          compares each NAME.svg with NAME.image

The first two write into the directory, for each image NAME.image:

    NAME.check  what `check` prints behind the file's name    NAME.list  what `list` prints
    NAME.why    what `why` prints of each block in turn       NAME.page  what the page shows of each block in turn
    NAME.STATE  what `list --state STATE` prints

The third writes images that were cut, made longer or changed, and files of random
bytes; NAME.check has "accepted", or the word for what is wrong.
"""

import os
import random
import re
import sys
from xml.etree import ElementTree

import draw
import draw_images
import draw_whys
import images
import machine
import states
import whys

STATES = {states.LIVE_WHITE: "live white", states.DOOMED: "doomed", states.IS_GREY: "grey",
          states.IS_BLACK: "black", states.IS_FREE: "free"}
PHASES = ("idle", "marking", "sweeping")
REASONS = {
    whys.FREE: "it is not in use",
    whys.DOOMED: "nothing leads to it, and the sweep is about to free it",
    whys.REACHABLE: "references lead to it from the root",
    whys.KEPT: "nothing leads to it, but the collector has not found that out yet"}
OUTLOOKS = {
    whys.FREE: "There is nothing to do.",
    whys.DOOMED: "It is free by the end of this cycle.",
    whys.REACHABLE: "It stays as long as one path leads to it. This is the shortest.",
    whys.KEPT: "It is free by the end of the next cycle that begins, unless a store or a root change "
               "names a block that nothing leads to."}


def blocks(h):
    return range(2, h.M + 2)


def state_text(h, block):
    return STATES[states.state_of(h, block)]


def is_readable(h, block):
    return machine.refusal_of_block(h, block) == 0


# ---------------------------------------------------------------- check, list

def check_text(h):
    return f"accepted: {h.M} blocks, {h.free_count} of them free; {PHASES[h.phase]} in cycle {h.cycle}\n"


def registers_text(h):
    """"none" stands for the number that means none."""
    none = {"grey head": 1, "free head": 0, "position": 0, "root": 0, "mark": 1}
    names = ("blocks", "pace", "phase", "grey head", "free head", "free count", "position", "root",
             "cycle", "mark")
    for name, value in zip(names, machine.registers(h)):
        text = PHASES[value] if name == "phase" else "none" if none.get(name) == value else value
        yield f"{name:10}  {text}"


def word_text(h, block, word):
    value = machine.get_word(h, block, word)
    if machine.is_reference(h, block, word):
        return f"{word} -> {value or 'none'}"
    return f"{word} = {value}" if value else None


def block_text(h, block):
    if not is_readable(h, block):
        return f"{block:5}  {state_text(h, block)}"
    words = [text for text in (word_text(h, block, w) for w in range(8)) if text]
    return f"{block:5}  {state_text(h, block):10}  {', '.join(words) or 'all 0'}"


def list_text(h):
    counts = [f"{text:10}  {sum(state_text(h, b) == text for b in blocks(h))}" for text in STATES.values()]
    lines = [*registers_text(h), "", *counts, "", "block  state       words",
             *(block_text(h, b) for b in blocks(h))]
    return "\n".join(lines) + "\n"


def state_list_text(h, text):
    return "".join(block_text(h, b) + "\n" for b in blocks(h) if state_text(h, b) == text)


# ------------------------------------------------------------------ why, page

def hops(h, block):
    """(block, word, the block it names) on the path."""
    reason, path = whys.reason(h, block)
    return [(at, word, machine.get_word(h, at, word)) for at, word in path]


def why_text(h, block):
    reason, _ = whys.reason(h, block)
    if block == h.root:
        return f"block {block} is {state_text(h, block)}: it is the root\nIt stays as long as it is.\n"
    lines = [f"block {block} is {state_text(h, block)}: {REASONS[reason]}"]
    for at, word, target in hops(h, block):
        root = ", the root," if at == h.root else ""
        lines.append(f"    word {word} of block {at}{root} names block {target}")
    return "\n".join([*lines, OUTLOOKS[reason]]) + "\n"


def names_of(h, block):
    """The words that name a block."""
    return [(at, word) for at in blocks(h) if is_readable(h, at)
            for word, target in whys.named(h, at) if target == block]


def page_word_text(h, block, word):
    value = machine.get_word(h, block, word)
    if not machine.is_reference(h, block, word):
        return f"{word} number {value}"
    return f"{word} reference to " + (f"block {value}" if value else "none")


def page_text(h, block):
    """The text of a block's part of the page, a line for each heading, paragraph,
    item or row."""
    root = block == h.root
    lines = [f"Block {block}", state_text(h, block) + (", the root" if root else ""), "Why it is here",
             "it is the root" if root else REASONS[whys.reason(h, block)[0]]]
    lines += [f"word {word} of block {at} names block {target}" for at, word, target in hops(h, block)]
    if is_readable(h, block):
        lines += ["Its words", "word holds", *(page_word_text(h, block, w) for w in range(8))]
    lines.append("What names it")
    names = names_of(h, block)
    lines += [f"word {word} of block {at}" for at, word in names]
    if not names:
        lines.append("no word, but it is the root" if root else "nothing")
    return "\n".join(lines) + "\n"


def write_image(image, directory, name):
    with open(os.path.join(directory, name + ".image"), "wb") as file:
        file.write(bytes(image))


def write_text(text, directory, name):
    with open(os.path.join(directory, name), "w", encoding="ascii", newline="\n") as file:
        file.write(text)


def write_looks(h, image, directory, name):
    write_image(image, directory, name)
    write_text(check_text(h), directory, name + ".check")
    write_text(list_text(h), directory, name + ".list")
    write_text("".join(why_text(h, b) for b in blocks(h)), directory, name + ".why")
    write_text("".join(page_text(h, b) for b in blocks(h)), directory, name + ".page")
    for text in STATES.values():
        write_text(state_list_text(h, text), directory, name + "." + text.replace(" ", "-"))


def looked_at(rng):
    """A heap reached by calls. At times references are let go, and the collector
    works until it is about to free something."""
    h = draw_whys.accepted(rng)
    if draw.chance(rng, 0.5):
        held = [(b, w) for b in blocks(h) if is_readable(h, b) for w, _ in whys.named(h, b)]
        for block, word in held:
            if draw.chance(rng, 0.5):
                machine.store_reference(h, block, word, 0)
        for _ in range(4 * h.M + 8):
            machine.work(h, 1)
            if any(machine.doomed(h, b) for b in blocks(h)):
                break
    return h


def midway():
    """What examples/c/midway.c does, by the model's calls: two lists, by words 0 and 1
    of the root; word 2 names the eleventh row of the second; the second is let go;
    the collector ends its cycle and sweeps the next up to block 14; the first list
    gets a row more, and is cut behind its fifteenth."""
    h = machine.empty_heap(64)
    machine.format(h, 64, 1)
    machine.allocate(h, 0, 0)
    lists = [], []
    for n in range(20):
        for word, rows in enumerate(lists):
            add_row(h, word, rows, 100 * (word + 1) + n)
    machine.store_reference(h, h.root, 2, lists[1][10])
    machine.store_reference(h, h.root, 1, 0)
    while h.phase != machine.IDLE:
        machine.work(h, 1)
    while h.position != 14:
        machine.work(h, 1)
    add_row(h, 0, lists[0], 120)
    machine.store_reference(h, lists[0][14], 0, 0)
    return h


def add_row(h, word, rows, number):
    """A row behind the last of these, or in this word of the root."""
    holder, at = (rows[-1], 0) if rows else (h.root, word)
    rows.append(machine.allocate(h, holder, at)[1])
    machine.store_reference(h, rows[-1], 0, 0)
    machine.store_number(h, rows[-1], 1, number)


def largest():
    """The largest heap, with a list of 3,000 blocks from the root on, in mid-cycle."""
    h = machine.empty_heap(16384)
    machine.format(h, 16384, 1)
    machine.allocate(h, 0, 0)
    for block in range(2, 3001):
        machine.allocate(h, block, 1)
        machine.store_number(h, block, 2, block)
    return h


# -------------------------------------------------------------- what is wrong

def fault(image):
    """"accepted", or what is wrong: the length, the registers or the contents. The
    manual page says what each word is for."""
    if images.decode(image) is not None:
        return "accepted"
    if len(image) < 52 + 37:
        return "length"
    number = lambda at: int.from_bytes(bytes(image[at:at + 4]), "little")
    count, M = number(0), number(4)
    if count not in (9, 10) or not 1 <= M <= 16384:
        return "registers"
    if len(image) != 16 + 4 * count + 37 * M:
        return "length"
    registers = [number(4 + 4 * i) for i in range(count)]
    h = machine.heap(registers if count == 10 else [*registers, M + 1], [0] * 8 * M, [0] * M, [0] * M)
    return "contents" if machine.refusal_of_heap(h) == 0 else "registers"


def spoiled(rng):
    """A file that may be no image."""
    h = looked_at(rng)
    image = images.encode(h) if draw.chance(rng, 0.8) else images.encode_earlier(h)
    kind = draw.below(rng, 6)
    if kind == 0:
        return [draw.below(rng, 256) for _ in range(draw.below(rng, 700))]
    if kind == 1:
        place = draw.below(rng, len(image))
        image[place] ^= 1 << draw.below(rng, 8)
        return image
    if kind == 2:
        return image[:4] + [draw.below(rng, 256) for _ in image[4:]]
    return draw_images.spoiled(rng, image)


# ---------------------------------------------------------------- the picture

def squares(svg, name):
    """How many squares a picture has of a state, and the numbers in them."""
    drawn = re.findall(rf'<path class="{name}"[^>]* d="([^"]*)"', svg)
    numbers = re.findall(rf'<g class="on-{name}".*?</g>', svg, re.S)
    return (drawn[-1].count("z") if len(drawn) > 1 else 0,
            [int(n) for n in re.findall(r">(\d+)</text>", "".join(numbers))])


def compared(h, svg):
    """What is wrong with the picture of a heap, which is XML. The legend has one
    square of each state; the map comes after it."""
    ElementTree.fromstring(svg)
    for state, text in STATES.items():
        right = [b for b in blocks(h) if states.state_of(h, b) == state]
        count, numbers = squares(svg, text.split()[-1])
        if count != len(right):
            yield f"the picture has {count} blocks that are {text}, and the heap {len(right)}"
        if h.M <= 1024 and numbers != right:
            yield f"the picture's blocks that are {text}: {numbers}; the heap's: {right}"
        if f">{text} {len(right)}<" not in svg:
            yield f"the legend doesn't say {text} {len(right)}"


def read(name):
    with open(name, "rb") as file:
        return list(file.read())


def main():
    what, rest = sys.argv[1], sys.argv[2:]
    if what == "midway":
        write_looks(midway(), images.encode(midway()), rest[0], "midway")
    elif what == "largest":
        h = largest()
        write_image(images.encode(h), rest[0], "largest")
        write_text(list_text(h), rest[0], "largest.list")
    elif what == "pictures":
        for name in sorted(name.removesuffix(".svg") for name in os.listdir(rest[0]) if name.endswith(".svg")):
            with open(os.path.join(rest[0], name + ".svg"), encoding="ascii") as file:
                for line in compared(images.decode(read(os.path.join(rest[0], name + ".image"))), file.read()):
                    print(f"{name}: {line}")
    elif what == "drawn":
        rng = random.Random(int(rest[0]))
        for n in range(int(rest[1])):
            h = looked_at(rng)
            earlier = draw.chance(rng, 0.2)
            image = images.encode_earlier(h) if earlier else images.encode(h)
            write_looks(images.decode(image), image, rest[2], str(n))
    elif what == "spoiled":
        rng = random.Random(int(rest[0]))
        for n in range(int(rest[1])):
            image = spoiled(rng)
            write_image(image, rest[2], str(n))
            write_text(fault(image) + "\n", rest[2], f"{n}.check")


if __name__ == "__main__":
    main()
