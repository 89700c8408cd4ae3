"""python3 model/vectors.py DIR writes DIR/heaprun, DIR/heapprobe and
DIR/listing, each with the input `stdin` and the model's output `stdout`,
DIR/roster, which has no input, and DIR/c/cases.txt for the tests from C.

The files follow from fixed seeds. It fails if a refusal that a call can give
is missing from them.
"""

import os
import random
import sys

import calls
import check
import damage
import draw
import lines
import machine
import probe
import roster

TOP = 4294967295


# -------------------------------------------------------------- heaprun

def before_a_first_format():
    """Every letter, every bad line and every refused F, with no heap yet."""
    calls = [b"C", b"R 2 0", b"N 2 0 7", b"S 2 0 0", b"T 0", b"A 0 0", b"W 1", b"W 65536",
             b"R 1 8", b"S 1 8 1", b"T 1", b"A 0 1", b"W 0"]
    return calls + draw.BAD_LINES + draw.REFUSED_FORMATS + calls


def edges(M, U):
    """Calls at the ends of each range, on a heap of M blocks."""
    found = [draw.text("F", [M, U])] + [b"A 0 0", b"C"]
    for block in (0, 1, 2, M + 1, M + 2, TOP):
        for word in (0, 7, 8, TOP):
            found.append(draw.text("R", [block, word]))
            found.append(draw.text("N", [block, word, TOP]))
            found.append(draw.text("S", [block, word, 2]))
            if U <= 8:
                found.append(draw.text("A", [block, word]))
    for target in (0, 1, 2, M + 1, M + 2, TOP):
        found.append(draw.text("S", [2, 3, target]))
        found.append(draw.text("T", [target]))
        found.append(b"R 2 3")
    for n in (0, 1, 65536, TOP):
        found.append(draw.text("W", [n]))
    return found + [b"C"] + draw.REFUSED_FORMATS + [b"C", b"R 2 0", b"W 1"]


def heaprun_lines():
    rng = random.Random(101)
    found = before_a_first_format()
    found += lines.lines_of(check.LISTING_IN)
    for M in (1, 2, 1024):
        for U in (0, 1, 8, 65535):
            found += edges(M, U)
    found += draw.GOOD_BUT_ODD_LINES + draw.BAD_LINES
    for _ in range(140):
        found += draw.small_run(rng)
    for U in (0, 1, 2):
        found += draw.run(rng, 1, U, 150)
    found += draw.night(rng, 1024, 10, 400, 3)      # K = 614 is kept
    found += draw.night(rng, 1024, 0, 700, 1)
    found += draw.night(rng, 100, 1, 90, 3)         # far too many rows: refused 7
    found += draw.run(rng, 1024, 3, 1500) + draw.run(rng, 300, 40, 1500, tame=True)
    found += [b"F 1024 65535", b"A 0 0", b"A 2 0", b"A 0 0", b"W 65535", b"C"]
    found += [b"F 1 65535", b"A 0 0", b"A 2 0", b"W 65535", b"W 65536", b"C"]
    found += [b"F 7 0", b"A 0 0", b"A 2 0", b"S 3 0 2", b"W 65535", b"R 2 0", b"C"]
    found += [draw.noise(rng) for _ in range(60)] + [b"R 2 0", b"C"]
    return found


def heaprun_wanted():
    """Each answer that each call can give on heaps that are well-formed."""
    return {"F": [0, 1], "R": [0, 1, 3, 5], "N": [0, 1, 3, 5], "S": [0, 1, 3, 4, 5, 6],
            "T": [0, 1, 4, 6], "A": [0, 1, 3, 5, 7], "W": [0, 1, 9], "C": [0]}


# ------------------------------------------------------------ heapprobe

def one_thing_damaged():
    """Heaps of four blocks in every phase, with each field changed in turn."""
    some = [0, 1, 2, 3, 5, 6, TOP - 1, TOP]
    changes = [lambda h: None]
    for name in machine.REGISTERS:
        changes += [lambda h, name=name, v=v: setattr(h, name, v) for v in some]
    for i in range(4):
        changes += [lambda h, i=i, v=v: h.colours.__setitem__(i, v) for v in [*some, TOP - 2]]
        changes += [lambda h, i=i, v=v: h.words.__setitem__(8 * i, v) for v in [0, 1, 2, 5, 6]]
        changes += [lambda h, i=i, v=v: h.bytes.__setitem__(i, v) for v in (0, 1, 255)]
    calls = [("W", [1]), ("W", [12]), ("A", [0, 0]), ("A", [3, 1]), ("C", []), ("R", [3, 0]),
             ("S", [2, 1, 4]), ("T", [3])]
    for make in (damage.idle, damage.marking, damage.sweeping, damage.garbage, damage.dooming):
        for change in changes:
            h = make()
            change(h)
            for letter, numbers in calls:
                yield probe.line_of(letter, numbers, h)


def long_work():
    """The greatest counts of units, on whole heaps of 1, 4 and 8 blocks."""
    for M in (1, 4, 8):
        h = machine.empty_heap(M)
        machine.format(h, M, 65535)
        h.cycle = TOP - 5
        yield probe.line_of("W", [65535], h)
        yield probe.line_of("W", [65536], h)
        yield probe.line_of("A", [0, 0], h)
        machine.allocate(h, 0, 0)
        yield probe.line_of("A", [2, 7], h)
        yield probe.line_of("A", [2, 8], h)


def long_lines():
    """The longest case, 1,057 bytes, and lines about the bound of 1,200."""
    full = b"C" + b" 0000000000" * 3 + b" 0000000064 0000000008 0000000008"
    full += b" 0000000008" + b" 0000000000" * 9 + b" 4294967295" * 72 + b" 0000000255" * 8
    return [full, full + b" ", full + b"0", full + b" " * 143, full + b" " * 144,
            b"C 0 0 0 0 0 0" + b" 0" * 10, b"C 0 0 0 0 0 0" + b" 0" * 600]


def heapprobe_lines():
    rng = random.Random(102)
    found = [probe.line_of(letter, numbers, h)
             for _, letter, numbers, h, _ in damage.cases()]
    found += one_thing_damaged()
    found += long_work()
    found += long_lines()
    for _ in range(900):
        found += draw.twenty_cases(rng)
    found += [draw.audit_case(rng) for _ in range(1000)]
    return found


def heapprobe_wanted():
    """Each answer that each call can give on any heap; for L the answer of
    Read of word 0, and for C what the audit says."""
    return {"F": [0, 1], "R": [0, 1, 2, 3, 5, 8], "L": [0, 1, 2, 3, 5, 8],
            "N": [0, 1, 2, 3, 5, 8], "S": [0, 1, 2, 3, 4, 5, 6, 8], "T": [0, 1, 2, 4, 6, 8],
            "A": [0, 1, 2, 3, 5, 7, 8], "W": [0, 1, 2, 8, 9], "C": [0, 1]}


# ------------------------------------------------------------- counting

def count(found, letter, answer):
    found[letter, answer] = found.get((letter, answer), 0) + 1


def heaprun_counts(inputs, output):
    found = {}
    for line, printed in zip(inputs, lines.lines_of(output), strict=True):
        answer = int(printed.split(b" ")[0])
        count(found, line[:1].decode() if answer != 99 else "bad", answer)
    return found


def heapprobe_counts(inputs, output):
    found = {}
    for line, printed in zip(inputs, lines.lines_of(output), strict=True):
        case = probe.case_of(line)
        if case is None:
            count(found, "bad", 99)
            continue
        letter, numbers, h = case
        answer = [int(part) for part in printed.split(b" ")[:3]]
        if letter == "L":
            count(found, letter, machine.read(h, numbers[0], 0)[0])
        else:
            count(found, letter, answer[1] if letter == "C" else answer[0])
    return found


def missing(found, wanted):
    return [f"{letter} {answer}" for letter, answers in {**wanted, "bad": [99]}.items()
            for answer in answers if (letter, answer) not in found]


# -------------------------------------------------------------- writing

def write(folder, **contents):
    for name, content in contents.items():
        write_file(folder, name, content)


def write_file(folder, name, content):
    os.makedirs(folder, exist_ok=True)
    with open(os.path.join(folder, name), "wb") as file:
        file.write(content)


def main(folder):
    write(os.path.join(folder, "listing"), stdin=check.LISTING_IN, stdout=lines.heaprun(check.LISTING_IN))
    write(os.path.join(folder, "roster"), stdout=roster.output())
    write_file(os.path.join(folder, "c"), "cases.txt", "".join(calls.stored()).encode())
    failed = False
    for name, program, inputs, counts, wanted, last in [
            ("heaprun", lines.heaprun, heaprun_lines(), heaprun_counts, heaprun_wanted(), b""),
            ("heapprobe", probe.heapprobe, heapprobe_lines(), heapprobe_counts,
             heapprobe_wanted(), b"\n")]:
        data = b"\n".join(inputs) + last
        output = program(data)
        write(os.path.join(folder, name), stdin=data, stdout=output)
        found = counts(inputs, output)
        print(f"{name}: {len(inputs)} lines, {len(data)} bytes")
        print("  " + ", ".join(f"{letter} {answer}: {n}"
                               for (letter, answer), n in sorted(found.items())))
        if missing(found, wanted):
            failed = True
            print(f"  FAILED, missing: {', '.join(missing(found, wanted))}")
    return 1 if failed else 0


if __name__ == "__main__":
    if len(sys.argv) != 2:
        sys.exit("usage: python3 model/vectors.py DIR")
    sys.exit(main(sys.argv[1]))
