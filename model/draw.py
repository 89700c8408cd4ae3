"""Drawing at random: heaps, calls, runs of lines for heaprun, cases for
heapprobe. Everything follows from the seed; only rng.random() is used, so the
same seed gives the same bytes under every Python.
"""

import facts
import lines
import machine
import probe

TOP = 4294967295
EDGES = [0, 1, 2, 7, 8, 255, 256, 1024, 1025, 16384, 16385, 65535, 65536,
         536870912, 536870913, 2147483648, TOP - 2, TOP - 1, TOP]


def below(rng, n):
    return int(rng.random() * n)


def between(rng, low, high):
    return low + below(rng, high - low + 1)


def one_of(rng, choices):
    return choices[below(rng, len(choices))]


def chance(rng, part):
    return rng.random() < part


def small_number(rng, M):
    """A number near the block numbers, or seldom an edge of 32 bits."""
    return one_of(rng, EDGES) if chance(rng, 0.05) else below(rng, M + 4)


# ---------------------------------------------------------- heaps from nothing

def small_heap(rng, most_blocks):
    """Registers, colours and words of small values, with no care whether they
    suit each other. Lists are linked up in most of the heaps, since chance
    alone seldom makes one."""
    M = between(rng, 1, most_blocks)
    phase = below(rng, 3)
    colours = [small_colour(rng, M, phase) for _ in range(M)]
    bytes_ = [one_of(rng, [0, 1, 2, 3, 129, below(rng, 256)]) for _ in range(M)]
    words = [small_number(rng, M) if chance(rng, 0.3) else 0 for _ in range(8 * M)]
    mark = small_mark(rng, colours)
    position = between(rng, 2, max(mark, 2)) if phase == 2 else 0
    root = one_of(rng, [0, *range(2, M + 2)])
    U = one_of(rng, [0, 1, 1, 2, 3, 8])
    cycle = one_of(rng, [0, 1, TOP])
    h = machine.heap([M, U, phase, 1, 0, below(rng, M + 1), position, root, cycle, mark],
                     words, colours, bytes_)
    if chance(rng, 0.8):
        link_free_blocks(rng, h)
    if chance(rng, 0.8):
        link_grey_blocks(rng, h)
    return h


def small_colour(rng, M, phase):
    usual = {0: [machine.WHITE], 1: [machine.WHITE, machine.BLACK, 1],
             2: [machine.WHITE, machine.BLACK]}[phase]
    if chance(rng, 0.05):
        return small_number(rng, M)
    return one_of(rng, [*usual, *usual, machine.FREE, machine.BLACK])


def small_mark(rng, colours):
    """The highest block that isn't free, or one above it; seldom any number, so
    that an allocated block may lie above the mark, or the mark isn't legal."""
    M = len(colours)
    highest = max([1, *(b for b in range(2, M + 2) if colours[b - 2] != machine.FREE)])
    if chance(rng, 0.1):
        return small_number(rng, M)
    return highest if chance(rng, 0.5) else between(rng, highest, M + 1)


def shuffled(rng, numbers):
    pairs = sorted((rng.random(), number) for number in numbers)
    return [number for _, number in pairs]


def link_free_blocks(rng, h):
    found = [b for b in range(2, h.M + 2) if machine.colour(h, b) == machine.FREE]
    at = 0
    for b in shuffled(rng, found):
        h.words[8 * (b - 2):8 * (b - 2) + 8] = [at] + [0] * 7
        h.bytes[b - 2] = 0
        at = b
    h.free_head, h.free_count = at, len(found)


def link_grey_blocks(rng, h):
    found = [b for b in range(2, h.M + 2) if machine.is_grey(h, machine.colour(h, b))]
    at = 1
    for b in shuffled(rng, found):
        machine.put_colour(h, b, at)
        at = b
    h.grey_head = at


# ------------------------------------------------------------------- calls

def reachable_block(rng, h):
    """A reachable block, by a walk of a few steps from the root; or 0."""
    at = h.root
    for _ in range(one_of(rng, [0, 1, 1, 2, 3, 5])):
        named = [value for value in facts.references(h, at) if value] if at else []
        if not named:
            break
        at = one_of(rng, named)
    return at


def allocated_block(rng, h):
    """Any allocated block, reachable or not; or 0."""
    start = below(rng, h.M)
    for i in range(h.M):
        b = 2 + (start + i) % h.M
        if machine.colour(h, b) != machine.FREE:
            return b
    return 0


def block_ahead(rng, h):
    """While sweeping, a block that the sweep has yet to meet, doomed if one is."""
    ahead = range(h.position, h.mark + 1)
    white = [b for b in ahead if machine.colour(h, b) == machine.WHITE]
    return one_of(rng, white or ahead)


def block_for(rng, h, odd):
    """A block to name in a call; `odd` is how often it is any number."""
    if chance(rng, odd):
        return small_number(rng, h.M)
    if h.phase == machine.SWEEPING and chance(rng, 0.12):
        return block_ahead(rng, h)
    if chance(rng, 0.6):
        return reachable_block(rng, h)
    return allocated_block(rng, h)


def word_for(rng, odd):
    if chance(rng, odd):
        return one_of(rng, [8, 9, TOP, below(rng, 300)])
    return one_of(rng, [0, 0, 0, 1, 1, 2, 7, below(rng, 8)])


def target_for(rng, h, tame, odd):
    """Nothing or a reachable block where the run is tame, else any."""
    if chance(rng, 0.2):
        return 0
    return reachable_block(rng, h) if tame else block_for(rng, h, odd)


def units_for(rng, h, odd):
    if chance(rng, odd / 3):
        return one_of(rng, [65536, TOP, 65536 + below(rng, 1000)])
    return one_of(rng, [0, 1, 1, 1, 2, 3, below(rng, h.M + 3), below(rng, 2 * h.M + 5)])


def letting_go(rng, h):
    """A call after which less is reachable, as a rule."""
    if chance(rng, 0.3):
        return "T", [0]
    return "S", [reachable_block(rng, h), one_of(rng, [0, 0, 1, below(rng, 8)]), 0]


LETTERS = "A" * 14 + "S" * 9 + "N" * 3 + "T" * 3 + "W" * 7 + "R" * 5 + "C"


def call(rng, h, tame=False, odd=0.06):
    """A letter and its numbers, for a heap formatted before."""
    if h.free_count == 0 and h.root and chance(rng, 0.25):
        return letting_go(rng, h)
    letter = one_of(rng, LETTERS)
    if letter == "A" and chance(rng, 0.15 if h.root else 0.9):
        return letter, [0, 0]
    if letter in "RA":
        return letter, [block_for(rng, h, odd), word_for(rng, odd)]
    if letter == "N":
        value = one_of(rng, [0, 2, 3, h.M + 1, 12345, one_of(rng, EDGES)])
        return letter, [block_for(rng, h, odd), word_for(rng, odd), value]
    if letter == "S":
        block, word = block_for(rng, h, odd), word_for(rng, odd)
        return letter, [block, word, target_for(rng, h, tame, odd)]
    if letter == "T":
        return letter, [target_for(rng, h, tame, odd)]
    return letter, [units_for(rng, h, odd)] if letter == "W" else []


# -------------------------------------------------------- lines for heaprun

def text(letter, numbers):
    return " ".join([letter, *map(str, numbers)]).encode()


BAD_LINES = [
    b"", b" ", b"  ", b"F", b"F ", b"F 3", b"F 3 ", b"F 3 1 ", b" F 3 1", b"F  3 1",
    b"F 3  1", b"F 3 1 1", b"F3 1", b"FF 3 1", b"F 3 1\r", b"F\t3\t1", b"F 3 1\t",
    b"F +3 1", b"F -3 1", b"F 3. 1", b"F 3,1", b"F 0x3 1", b"F 3 1e0", b"F 3 a",
    b"F 00000000003 1", b"F 3 00000000001", b"F 4294967296 1", b"F 3 4294967296",
    b"F 9999999999 1", b"F 42949672950 1", b"F 3 1\x00", b"F\x003 1", b"\x00", b"\xff",
    b"F 3 \xef\xbc\x91", b"F \xd9\xa3 1", b"f 3 1", b"r 2 0", b"c", b"G 3 1", b"L 2",
    b"X", b"3", b"3 1", b"0 0 0", b"C ", b" C", b"CC", b"C 0", b"C C", b"C\r", b"R", b"R 2",
    b"R 2 0 0", b"R 2  0", b"R 2 0 ", b"R a 0", b"R 2 4294967296", b"N 2 0", b"N 2 0 1 1",
    b"N 2 0 4294967296", b"S 2 0", b"S 2 0 0 0", b"S 2 0 -1", b"T", b"T ", b"T 0 0",
    b"T 4294967296", b"A", b"A 0", b"A 0 0 0", b"A 0 0\r", b"W", b"W 1 1", b"W 4294967296",
    b"W 65535 ", b"W -1", b"W 99999999999", b"Q 1", b"F 3 1 # three", b"W 1;W 1",
    b"C" + b" " * 39, b"C" + b" " * 40, b"W " + b"0" * 38, b"W " + b"0" * 39,
    b"W " + b"0" * 37 + b"1", b"S 0000000002 0000000000 0000000000 00000",
    b"S 0000000002 0000000000 0000000000 000000", b"A" * 40, b"A" * 41, b"C" * 5000,
    b"\xc3\x85 0 0", b"A 0\x0b0", b"A\xa00 0", b"S 2 0 0 ", b"W 1_0", b"W 1.0", b"W 0b1",
]

GOOD_BUT_ODD_LINES = [
    b"F 0000000003 0000000001", b"C", b"A 0000000000 0", b"S 0000000002 0000000007 0000000002",
    b"R 0000000002 0000000007", b"N 0000000002 0000000007 4294967295", b"R 2 7",
    b"N 2 7 0000000000", b"W 0000000003", b"W 4294967295", b"W 65536", b"W 0065536", b"W 0",
    b"T 4294967295", b"T 0000000002", b"R 4294967295 4294967295", b"A 4294967295 0", b"A 0 8",
    b"S 4294967295 4294967295 4294967295", b"C",
]

REFUSED_FORMATS = [b"F 0 1", b"F 1025 1", b"F 1 65536", b"F 1024 65536", b"F 16384 1",
                   b"F 16385 1", b"F 4294967295 1", b"F 536870913 1", b"F 1 4294967295",
                   b"F 0 0", b"F 0 65536"]


def noise(rng):
    return one_of(rng, BAD_LINES) if chance(rng, 0.7) else one_of(rng, REFUSED_FORMATS)


def run(rng, M, U, count, tame=False):
    """Format and then drawn calls, with a line of noise here and there."""
    found = [text("F", [M, U])]
    _, h = lines.step(None, found[0])
    while len(found) < count:
        found.append(noise(rng) if chance(rng, 0.015) else text(*call(rng, h, tame)))
        _, h = lines.step(h, found[-1])
    return found


def small_run(rng):
    M = one_of(rng, [1, 1, 2, 2, 3, 3, 3, 4, 4, 5, 6, 7, 8, 12, 20])
    U = one_of(rng, [0, 0, 1, 1, 1, 2, 2, 3, 4, 5, 8, 2 * M + 2, 4 * M])
    return run(rng, M, U, between(rng, 60, 260), tame=chance(rng, 0.4))


def night(rng, M, U, rows, nights):
    """Lists of rows, as the report engine builds them: each row names the next
    by word 0 and holds numbers; the list is read to its end and dropped."""
    found = [text("F", [M, U])]
    _, h = lines.step(None, found[0])

    def say(letter, *numbers):
        nonlocal h
        found.append(text(letter, numbers))
        answer, h = lines.step(h, found[-1])
        return answer

    for night_number in range(nights):
        no, at, _ = say("A", 0, 0)
        for row in range(rows):
            say("N", at, 1, row)
            if chance(rng, 0.05):
                say("W", below(rng, 3 * M))
            if chance(rng, 0.1):
                say("S", at, 2, reachable_block(rng, h))
            no, new, _ = say("A", at, 0)
            at = at if no else new
        say("C")
        at = h.root
        while at and machine.is_reference(h, at, 0):
            say("R", at, 1)
            _, at, _ = say("R", at, 0)
        say("W", below(rng, M))
        if chance(rng, 0.5):
            say("T", 0)
    return found


# ------------------------------------------------------ cases for heapprobe

def reached_heaps(rng, count):
    """Heaps of 1 to 8 blocks reached by one run of calls, in all phases."""
    M = one_of(rng, [1, 1, 2, 2, 2, 3, 3, 3, 3, 4, 4, 5, 6, 8])
    h = machine.empty_heap(M)
    machine.format(h, M, one_of(rng, [0, 1, 1, 1, 2, 3, 5]))
    h.cycle = one_of(rng, [0, 0, TOP, TOP - 1])
    tame = chance(rng, 0.3)
    found = []
    while len(found) < count:
        for _ in range(between(rng, 1, 6)):
            lines.answer_of(h, *call(rng, h, tame, odd=0.02))
        found.append(machine.copy(h))
    return found


def damage(rng, h):
    """Changes one field: a register, a colour, a word, a byte or a length."""
    kind = one_of(rng, ["register", "register", "mark", "colour", "colour", "colour",
                        "word", "word", "byte", "length"])
    if kind == "mark":
        # about the position, the ends of its range, or any
        h.mark = one_of(rng, [0, 1, 2, h.position, max(h.position, 1) - 1, len(h.colours) + 1,
                              len(h.colours) + 2, damaged_number(rng, h)])
    elif kind == "register":
        setattr(h, one_of(rng, machine.REGISTERS), damaged_number(rng, h))
    elif kind == "colour" and h.colours:
        h.colours[below(rng, len(h.colours))] = one_of(
            rng, [0, TOP, TOP - 1, 1, 2, TOP - 2, len(h.colours) + 2, damaged_number(rng, h)])
    elif kind == "word" and h.words:
        # word 0 is the link of a free block and the usual reference
        block = below(rng, len(h.words) // 8 + 1)
        place = 8 * block + one_of(rng, [0, 0, 0, 1, 2, 7])
        h.words[place % len(h.words)] = damaged_number(rng, h)
    elif kind == "byte" and h.bytes:
        h.bytes[below(rng, len(h.bytes))] = one_of(rng, [0, 1, 2, 3, 128, 255, below(rng, 256)])
    elif kind == "length" and chance(rng, 0.3):
        buffer, most = one_of(rng, [(h.words, 64), (h.colours, 8), (h.bytes, 8)])
        if buffer and chance(rng, 0.5):
            buffer.pop()
        elif len(buffer) < most:
            buffer.append(below(rng, 3))


def damaged_number(rng, h):
    return below(rng, len(h.colours) + 4) if chance(rng, 0.85) else one_of(rng, EDGES)


def probe_call(rng, h):
    """A call on any heap, damaged or not, of any lengths."""
    blocks = len(h.colours)
    near = lambda: one_of(rng, EDGES) if chance(rng, 0.03) else below(rng, blocks + 3)
    block = lambda: near() if chance(rng, 0.15) else 2 + below(rng, max(blocks, 1))
    word = lambda: one_of(rng, [0, 0, 0, 1, 2, 7, below(rng, 8), below(rng, 11)])
    letter = one_of(rng, "FRLLNSSSSTTTAAAAAAAWWWWWWWCCCR")
    if letter == "F":
        M = blocks if chance(rng, 0.7) else near()
        return letter, [M, one_of(rng, [0, 1, 10, 65535, 65536, TOP])]
    if letter == "L":
        return letter, [block()]
    if letter == "R":
        return letter, [block(), word()]
    if letter == "A":
        return letter, [0, 0] if chance(rng, 0.25) else [block(), word()]
    if letter == "N":
        return letter, [block(), word(), near()]
    if letter == "S":
        return letter, [block(), word(), 0 if chance(rng, 0.15) else block()]
    if letter == "T":
        return letter, [0 if chance(rng, 0.15) else block()]
    if letter == "W":
        n = one_of(rng, [65536, TOP]) if chance(rng, 0.03) else below(rng, 2 * blocks + 6)
        return letter, [n]
    return letter, []


def cheap(h):
    """Keeps a pace drawn as damage from costing tens of thousands of units."""
    if 1024 < h.U <= 65535:
        h.U = 1024
    return h


def bad_case(rng, h):
    """A case with its line spoiled, so that it is no case, or just about one."""
    line = probe.line_of(*probe_call(rng, h), h)
    parts = line.split(b" ")
    place = below(rng, len(parts))
    kind = below(rng, 12)
    if kind == 0:
        return line + one_of(rng, [b" ", b" 0", b"\r", b"\t", b"\x00"])
    if kind == 1:
        return b" ".join(parts[:-1])
    if kind == 2:
        return b" " + line
    if kind == 3:
        return line.replace(b" ", b"  ", 1)
    if kind == 4:
        return one_of(rng, [b"", b" ", b"C", b"C 0 0 0", b"99 0 0"])
    if kind == 5:
        return one_of(rng, [b"X", b"f", b"D", b"", b"FF"]) + line[1:]
    if kind == 6:           # an argument that the letter lacks
        return b" ".join([one_of(rng, [b"C", b"T", b"W", b"L"]), b"0", b"1", *parts[3:]])
    if kind == 7:           # a length too great or too small by one
        parts[4 + below(rng, 3)] = one_of(rng, [b"65", b"9", b"0", b"1"])
    elif kind == 8 and h.bytes:
        parts[-1] = one_of(rng, [b"256", b"255", b"4294967295", b"000000255"])
    elif kind == 9:
        parts[max(place, 1)] = one_of(rng, [b"4294967296", b"+1", b"-1", b"", b"1.", b"x"])
    elif kind == 10:        # 10 digits are a number, 11 are not
        parts[max(place, 1)] = parts[max(place, 1)].rjust(10 + below(rng, 2), b"0")
    elif kind == 11:
        return line + b" 0" * 600
    return b" ".join(parts)


def audit_case(rng):
    """The audit of a reached heap with one colour, reference, link, the position or
    the mark changed to another that is legal in itself; about half of them stay
    well-formed."""
    h = one_of(rng, reached_heaps(rng, 4))
    block = between(rng, 2, h.M + 1)
    kind = below(rng, 5)
    if kind == 4:
        h.mark = between(rng, max(h.position, 1), h.M + 1)
    elif kind == 0:
        machine.put_colour(h, block, one_of(rng, [0, TOP, TOP - 1, between(rng, 1, h.M + 1)]))
    elif kind == 1:
        word = one_of(rng, [0, 1, 2, 7])
        machine.put_word(h, block, word, one_of(rng, [0, between(rng, 2, h.M + 1)]))
        machine.put_bit(h, block, word, True)
    elif kind == 2:
        h.root = one_of(rng, [0, between(rng, 2, h.M + 1)])
    elif h.phase == machine.SWEEPING:
        h.position = between(rng, 2, h.mark)
    return probe.line_of("C", [], h)


def twenty_cases(rng):
    """Fifteen heaps reached by one run with 0, 1 or 2 fields damaged, one for
    the audit, three of small random values, and one line that may be no case."""
    found = [audit_case(rng)]
    for h in reached_heaps(rng, 15):
        for _ in range(one_of(rng, [0, 1, 1, 1, 2])):
            damage(rng, h)
        found.append(probe.line_of(*probe_call(rng, cheap(h)), h))
    for _ in range(3):
        h = small_heap(rng, 3)
        found.append(probe.line_of(*probe_call(rng, h), h))
    found.append(bad_case(rng, small_heap(rng, 3)))
    return found
