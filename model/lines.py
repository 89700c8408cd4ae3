"""The program `heaprun` of document 01, from input bytes to output bytes."""

import sys

import machine

# F M U, R b w, N b w v, S b w t, T t, A b w, W n, C for audit.
NUMBERS_OF = {b"F": 2, b"R": 2, b"N": 3, b"S": 3, b"T": 1, b"A": 2, b"W": 1, b"C": 0}

BREAKS_THE_RULES = (99, 0, 0)


def lines_of(data):
    """A line ends at byte 10, which isn't counted in it, or at the end of
    input; nothing after the last byte 10 is no line."""
    lines = data.split(b"\n")
    if lines[-1] == b"":
        lines.pop()
    return lines


def number(part):
    """A number has 1 to 10 digits and fits 32 bits. None if it is no number."""
    if not 1 <= len(part) <= 10 or any(byte not in b"0123456789" for byte in part):
        return None
    value = int(part)
    return value if value <= 4294967295 else None


def call_of(line):
    """The letter and the numbers of a line, or None if it breaks the rules."""
    if len(line) > 40:
        return None
    letter, *parts = line.split(b" ")
    if NUMBERS_OF.get(letter) != len(parts):
        return None
    numbers = [number(part) for part in parts]
    if None in numbers:
        return None
    return letter.decode(), numbers


def format_new(M, U):
    """Its M is at most 1,024, else 1 and the heap stays. The buffers lent are
    exactly those that fit M. Answers the new heap, or None when refused."""
    if M > 1024:
        return (1, 0, 0), None
    h = machine.empty_heap(M)
    answer = machine.format(h, M, U)
    return answer, h if answer[0] == 0 else None


def answer_of(h, letter, numbers):
    """One call on the heap; for R the third number is 1 for a reference."""
    if letter == "R":
        no, value, _, reference = machine.read(h, *numbers)
        return no, value, 1 if reference else 0
    calls = {"N": machine.store_number, "S": machine.store_reference,
             "T": machine.set_root, "A": machine.allocate,
             "W": machine.work, "C": machine.audit}
    return calls[letter](h, *numbers)


def step(h, line):
    """One line: the three numbers it prints, and the heap afterwards. The heap
    is None before a first F that answers 0."""
    call = call_of(line)
    if call is None:
        return BREAKS_THE_RULES, h
    letter, numbers = call
    if letter == "F":
        answer, new = format_new(*numbers)
        return answer, h if new is None else new
    if h is None:
        return ((0, 0, 0) if letter == "C" else (1, 0, 0)), h
    return answer_of(h, letter, numbers), h


def printed(numbers):
    return b" ".join(b"%d" % number for number in numbers) + b"\n"


def heaprun(data):
    h = None
    output = []
    for line in lines_of(data):
        answer, h = step(h, line)
        output.append(printed(answer))
    return b"".join(output)


if __name__ == "__main__":
    sys.stdout.buffer.write(heaprun(sys.stdin.buffer.read()))
