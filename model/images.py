"""Document 02's request L4: a heap as bytes, Save and Load; images worked out by
hand.

"four sections in a fixed order, each after its count, reference bytes as single
bytes and all else as 32-bit numbers, little-endian: registers (count 9, in the
order of document 01), colours (M), reference bytes (M), words (8M)". With request
L7 "images gain the register as tenth; those with nine are read with the mark at
M + 1". An image is a list of numbers below 256.
"""

import machine

# Images of earlier releases have the registers of document 01.
EARLIER_REGISTERS = machine.REGISTERS[:9]


def four(number):
    """A 32-bit number, its lowest byte first."""
    return list(number.to_bytes(4, "little"))


def numbers_section(numbers):
    return four(len(numbers)) + [byte for number in numbers for byte in four(number)]


def bytes_section(numbers):
    return four(len(numbers)) + list(numbers)


def encode_with(h, count):
    """The heap's first registers, as many as asked for and 1 for each that there
    isn't, and then its blocks."""
    registers = (machine.registers(h) + [1] * count)[:count]
    return (numbers_section(registers) + numbers_section(h.colours)
            + bytes_section(h.bytes) + numbers_section(h.words))


def encode(h):
    return encode_with(h, len(machine.REGISTERS))


def encode_earlier(h):
    """The image that an earlier release wrote of such a heap. The mark isn't in it."""
    return encode_with(h, len(EARLIER_REGISTERS))


def length_of(M):
    """Of an image that Save writes."""
    return 56 + 37 * M


class Reader:
    """Goes over an image from its front. Where something is missing, it stays
    where it is and `short` is set."""

    def __init__(self, image):
        self.image, self.at, self.short = image, 0, False

    def take(self, count):
        if self.short or count > len(self.image) - self.at:
            self.short = True
            return []
        self.at += count
        return self.image[self.at - count:self.at]

    def number(self):
        return int.from_bytes(bytes(self.take(4)), "little")

    def section(self, width):
        count = self.number()
        found = self.take(count * width)
        return [int.from_bytes(bytes(found[i:i + width]), "little")
                for i in range(0, len(found), width)]


def decode(image):
    """The heap whose image this is, or None where it is none: a section that
    isn't whole, another count of registers, something after the last section, or
    a heap that the audit turns down. The audit tests the lengths too."""
    reader = Reader(image)
    registers = reader.section(4)
    colours, bytes_, words = reader.section(4), reader.section(1), reader.section(4)
    if reader.short or reader.at != len(image):
        return None
    if len(registers) == len(EARLIER_REGISTERS):
        registers.append(registers[0] + 1)      # "those with nine are read with the mark at M + 1"
    if len(registers) != len(machine.REGISTERS):
        return None
    h = machine.heap(registers, words, colours, bytes_)
    return h if machine.accepts(h) else None


def save(h, out):
    """Writes the image of the heap to the front of the list `out`. "1, then 10
    for a heap the audit turns down (illegal registers too), then 13 for too short
    an output". "Output past the image keeps its bytes"."""
    if not machine.fits(h, h.M, h.U):
        return 1, 0, 0
    if not machine.accepts(h):
        return 10, 0, 0
    image = encode(h)
    if len(out) < len(image):
        return 13, 0, 0
    out[:len(image)] = image
    return 0, 0, 0


def load(h, image):
    """Makes h the heap of the image, whatever it was. "10 for a bad image, then
    13 for lent buffers of other lengths. A refusal writes nothing."""
    found = decode(image)
    if found is None:
        return 10, 0, 0
    if lengths(found) != lengths(h):
        return 13, 0, 0
    for name in machine.REGISTERS:
        setattr(h, name, getattr(found, name))
    h.words[:], h.colours[:], h.bytes[:] = found.words, found.colours, found.bytes
    return 0, 0, 0


def lengths(h):
    return len(h.words), len(h.colours), len(h.bytes)


# ------------------------------------------------------------- worked by hand

def one_block():
    """One block at pace 1. Allocate at the root does one unit: the cycle 1 begins,
    so the block is black. Word 0 names the block itself, word 1 is the number
    16,909,060, which is 01 02 03 04 in hexadecimal. The mark is 2."""
    h = machine.empty_heap(1)
    machine.format(h, 1, 1)
    machine.allocate(h, 0, 0)
    machine.store_reference(h, 2, 0, 2)
    machine.store_number(h, 2, 1, 16909060)
    return h


ONE_BLOCK = """
    0a000000
        01000000 01000000 01000000  M 1, pace 1, marking
        01000000 00000000 00000000  no grey block, no free block, free count 0
        00000000 02000000 01000000  position 0, root 2, cycle 1
        02000000                    the mark
    01000000
        ffffffff                    block 2 is black
    01000000
        01                          its word 0 is a reference
    08000000
        02000000 04030201 00000000 00000000 00000000 00000000 00000000 00000000
"""


def two_blocks():
    """Two blocks at pace 1, in the cycle 2: Allocate at the root and at its word 0
    begin a cycle and turn to the sweep; two units sweep both blocks; one begins
    the next cycle. So the root is the only grey block and block 3 is white. The
    mark is 3."""
    h = machine.empty_heap(2)
    machine.format(h, 2, 1)
    machine.allocate(h, 0, 0)
    machine.allocate(h, 2, 0)
    machine.work(h, 3)
    return h


TWO_BLOCKS = """
    0a000000
        02000000 01000000 01000000  M 2, pace 1, marking
        02000000 00000000 00000000  grey head 2, no free block, free count 0
        00000000 02000000 02000000  position 0, root 2, cycle 2
        03000000                    the mark
    02000000
        01000000 00000000           2 is grey and the last of the list, 3 is white
    02000000
        01 00                       word 0 of block 2 is a reference
    10000000
        03000000 00000000 00000000 00000000 00000000 00000000 00000000 00000000
        00000000 00000000 00000000 00000000 00000000 00000000 00000000 00000000
"""


def three_blocks():
    """Three units on from document 01's hand-checked case 4, once the root names
    nothing: sweeping at position 3, block 3 is doomed, block 4 is free and was never
    handed out, so the mark is 3."""
    h = machine.empty_heap(3)
    machine.format(h, 3, 1)
    machine.allocate(h, 0, 0)
    machine.allocate(h, 2, 0)
    machine.work(h, 3)
    machine.store_reference(h, 2, 0, 0)
    machine.work(h, 3)
    return h


THREE_BLOCKS = """
    0a000000
        03000000 01000000 02000000  M 3, pace 1, sweeping
        01000000 04000000 01000000  no grey block, free head 4, free count 1
        03000000 02000000 02000000  position 3, root 2, cycle 2
        03000000                    the mark
    03000000
        00000000 00000000 feffffff  2 and 3 are white, 4 is free
    03000000
        01 00 00                    word 0 of block 2 is a reference, to nothing
    18000000
        00000000 00000000 00000000 00000000 00000000 00000000 00000000 00000000
        00000000 00000000 00000000 00000000 00000000 00000000 00000000 00000000
        00000000 00000000 00000000 00000000 00000000 00000000 00000000 00000000
"""


def three_earlier():
    """What is read from the image of the same heap that an earlier release wrote:
    the sweep goes to the last block."""
    h = three_blocks()
    h.mark = 4
    return h


THREE_EARLIER = """
    09000000
        03000000 01000000 02000000  M 3, pace 1, sweeping
        01000000 04000000 01000000  no grey block, free head 4, free count 1
        03000000 02000000 02000000  position 3, root 2, cycle 2
    03000000
        00000000 00000000 feffffff  2 and 3 are white, 4 is free
    03000000
        01 00 00                    word 0 of block 2 is a reference, to nothing
    18000000
        00000000 00000000 00000000 00000000 00000000 00000000 00000000 00000000
        00000000 00000000 00000000 00000000 00000000 00000000 00000000 00000000
        00000000 00000000 00000000 00000000 00000000 00000000 00000000 00000000
"""


def one_earlier():
    """The same of one block, whose mark is the highest there can be."""
    return one_block()


ONE_EARLIER = """
    09000000
        01000000 01000000 01000000  M 1, pace 1, marking
        01000000 00000000 00000000  no grey block, no free block, free count 0
        00000000 02000000 01000000  position 0, root 2, cycle 1
    01000000
        ffffffff                    block 2 is black
    01000000
        01                          its word 0 is a reference
    08000000
        02000000 04030201 00000000 00000000 00000000 00000000 00000000 00000000
"""


def dumped(text):
    """The bytes of a dump: what stands on a line before two spaces."""
    return list(bytes.fromhex("".join(line.strip().split("  ")[0] for line in text.splitlines())))


def by_hand():
    """(heap, image) as Save writes it."""
    return [(one_block(), dumped(ONE_BLOCK)), (two_blocks(), dumped(TWO_BLOCKS)),
            (three_blocks(), dumped(THREE_BLOCKS))]


def earlier_by_hand():
    """(heap, image of nine registers that gives it)."""
    return [(one_earlier(), dumped(ONE_EARLIER)), (three_earlier(), dumped(THREE_EARLIER))]
