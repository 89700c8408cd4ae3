"""The program `heapprobe`, from input bytes to output bytes: each line is one
call on a heap written out in full, so that damaged heaps can be tried.

A case is a line

  LETTER x y z lw lc lb M U phase grey free count position root cycle mark
         <lw words> <lc colours> <lb bytes>

with single spaces between. Its numbers are those of `heaprun`: 1 to 10 digits,
at most 4,294,967,295; lw is at most 64, lc and lb at most 8, a byte at most
255. LETTER is F R L N S T A W or C; x y z are its numbers, 0 where it has none.
It prints three numbers, then the registers, words, colours and bytes after the
call. The three are answer, value, units; for R the third is 1 for a reference;
for L they are the part's length, its first word and its eighth, or 0 0 0; for C
they are 0, the audit's 1 or 0, and 0. A line that is no case, or has more than
1,200 bytes, prints `99 0 0`. Lines end as in heaprun.
"""

import sys

import machine
from lines import BREAKS_THE_RULES, answer_of, lines_of, number, printed

# F: M, U; R: block, word; L: block; N: block, word, value;
# S: block, word, target; T: target; A: block, word; W: n; C: none.
NUMBERS_OF = {b"F": 2, b"R": 2, b"L": 1, b"N": 3, b"S": 3, b"T": 1, b"A": 2,
              b"W": 1, b"C": 0}


def case_of(line):
    """(letter, its numbers, heap), or None for a line that is no case."""
    if len(line) > 1200:
        return None
    letter, *parts = line.split(b" ")
    numbers = [number(part) for part in parts]
    if letter not in NUMBERS_OF or None in numbers or len(numbers) < 16:
        return None
    xyz, (lw, lc, lb), registers = numbers[:3], numbers[3:6], numbers[6:16]
    buffers = numbers[16:]
    if lw > 64 or lc > 8 or lb > 8 or len(buffers) != lw + lc + lb:
        return None
    words, colours, bytes_ = buffers[:lw], buffers[lw:lw + lc], buffers[lw + lc:]
    if any(byte > 255 for byte in bytes_):
        return None
    count = NUMBERS_OF[letter]
    if any(xyz[count:]):
        return None
    return letter.decode(), xyz[:count], machine.heap(registers, words, colours, bytes_)


def line_of(letter, numbers, h):
    """The line of a case; the other way round from case_of."""
    xyz = [*numbers, 0, 0, 0][:3]
    lengths = [len(h.words), len(h.colours), len(h.bytes)]
    everything = [*xyz, *lengths, *machine.registers(h), *h.words, *h.colours, *h.bytes]
    return letter.encode() + b"".join(b" %d" % n for n in everything)


def three_numbers(h, letter, numbers):
    """The call itself; the three numbers as above."""
    if letter == "F":
        return machine.format(h, *numbers)
    if letter == "L":
        part = machine.look(h, *numbers)
        return (8, h.words[part[0]], h.words[part[7]]) if len(part) else (0, 0, 0)
    return answer_of(h, letter, numbers)


def step(line):
    """The numbers that one line prints."""
    case = case_of(line)
    if case is None:
        return BREAKS_THE_RULES
    letter, numbers, h = case
    three = three_numbers(h, letter, numbers)
    return [*three, *machine.registers(h), *h.words, *h.colours, *h.bytes]


def heapprobe(data):
    return b"".join(printed(step(line)) for line in lines_of(data))


if __name__ == "__main__":
    sys.stdout.buffer.write(heapprobe(sys.stdin.buffer.read()))
