"""Cases of Save and Load, drawn from a seed, and those that go over every place of
a small image.

A case is (call, heap, further buffer): for Save the output, for Load the image.
"""

import draw
import images
import machine

ANSWERS = {"save": (0, 1, 10, 13), "load": (0, 10, 13)}


def other_heap(rng, M):
    """Lent memory of which nothing is known, with the lengths of M blocks."""
    numbers = lambda count, most: [draw.below(rng, most) for _ in range(count)]
    return machine.heap(numbers(len(machine.REGISTERS), 9), numbers(8 * M, 1000), numbers(M, 1000), numbers(M, 256))


def counts_of(image):
    """The places of an image's first bytes and of those behind its registers: its
    counts, M, the position, and the mark where it has one."""
    registers = 9 if image[0] == 9 else 10
    M = (len(image) - 16 - 4 * registers) // 37
    colours = 4 + 4 * registers
    return [0, 4, 28, 40, colours, colours + 4 + 4 * M, colours + 8 + 5 * M]


def spoiled(rng, image):
    """The image with one thing changed: a byte, its end, or a section's count."""
    image = list(image)
    kind = draw.below(rng, 5)
    if kind == 0:
        del image[draw.below(rng, len(image)):]
    elif kind == 1:
        image += [draw.below(rng, 256) for _ in range(draw.between(rng, 1, 5))]
    elif kind == 2:
        place = draw.one_of(rng, counts_of(image)) + draw.one_of(rng, [0, 0, 0, 1, 2, 3])
        image[place] = draw.one_of(rng, [image[place] ^ 1, (image[place] + 1) % 256, 0, 255])
    else:
        place = draw.below(rng, len(image))
        image[place] = draw.one_of(rng, [0, 1, 2, 3, 254, 255, draw.below(rng, 256)])
    return image


def save_case(rng):
    """A heap reached by calls, at times with a field damaged, and an output about
    as long as its image."""
    h = draw.reached_heaps(rng, 1)[0]
    if draw.chance(rng, 0.35):
        draw.damage(rng, h)
    length = images.length_of(len(h.colours)) + draw.one_of(rng, [0, 0, 0, 1, 5, -1, -9])
    if draw.chance(rng, 0.05):
        length = draw.below(rng, 60)
    return "save", h, [draw.below(rng, 256) for _ in range(max(length, 0))]


def load_case(rng):
    """The image of a heap reached by calls, at times one of nine registers, spoiled
    or not, for memory of its lengths as a rule; or bytes that nothing made."""
    source = draw.reached_heaps(rng, 1)[0]
    image = images.encode_earlier(source) if draw.chance(rng, 0.3) else images.encode(source)
    if draw.chance(rng, 0.1):
        image = [draw.one_of(rng, [0, 0, 0, 1, 2, 9, 10, 255]) for _ in range(draw.below(rng, 130))]
    elif draw.chance(rng, 0.6):
        image = spoiled(rng, image)
    h = other_heap(rng, source.M)
    if draw.chance(rng, 0.15):
        buffer = draw.one_of(rng, [h.words, h.colours, h.bytes])
        buffer.append(0) if draw.chance(rng, 0.5) else buffer.pop()
    return "load", h, image


def case(rng):
    return save_case(rng) if draw.chance(rng, 0.4) else load_case(rng)


# ------------------------------------------------- every place of a small image

def cuts(image):
    """The image cut at every length, itself last, and with a byte after it."""
    for length in range(len(image) + 1):
        yield image[:length]
    yield [*image, 0]


def changes(image, others):
    """The image with each byte changed in turn: others(byte) are its new values."""
    for place, byte in enumerate(image):
        for other in others(byte):
            if other != byte:
                yield image[:place] + [other] + image[place + 1:]
