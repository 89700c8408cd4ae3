"""Cases of Why, drawn from a seed: (heap, path, queue, came, block)."""

import draw
import facts
import machine

ANSWERS = (0, 1, 10, 3, 13)


def entangled(rng, h):
    """The heap with more references between its live blocks, so that paths part and
    meet; and now and then the root let go, or less reachable."""
    live = sorted(facts.allocated(h) - facts.doomed(h))
    for _ in range(draw.below(rng, 3 * len(live) + 1)):
        machine.store_reference(h, draw.one_of(rng, live), draw.below(rng, 8), draw.one_of(rng, [0, *live, *live]))
    if live and draw.chance(rng, 0.2):
        machine.set_root(h, draw.one_of(rng, [0, *live]))
    machine.work(h, draw.one_of(rng, [0, 0, 1, 2, draw.below(rng, 2 * h.M + 3)]))
    if h.root and draw.chance(rng, 0.4):
        machine.store_reference(h, draw.reachable_block(rng, h), draw.below(rng, 8), 0)
    return h


def grown(rng):
    """A heap of up to 14 blocks, most of them allocated, each held by an earlier one."""
    M = draw.between(rng, 3, 14)
    h = machine.empty_heap(M)
    machine.format(h, M, draw.one_of(rng, [1, 1, 2, 3]))
    machine.allocate(h, 0, 0)
    for _ in range(draw.below(rng, M + 2)):
        machine.allocate(h, draw.block_for(rng, h, 0), draw.below(rng, 8))
    return h


def accepted(rng):
    """A heap reached by calls, its references entangled as a rule."""
    h = grown(rng) if draw.chance(rng, 0.5) else draw.reached_heaps(rng, 1)[0]
    return entangled(rng, h) if draw.chance(rng, 0.8) else h


def buffer(rng, length):
    """About so long, with anything in it."""
    length += draw.one_of(rng, [0, 0, 0, 0, 1, 7])
    if draw.chance(rng, 0.04):
        length = draw.one_of(rng, [length - 8, length - 1, 0])
    return [draw.one_of(rng, [1, 7, draw.TOP]) for _ in range(max(length, 0))]


def case(rng):
    h = accepted(rng)
    if draw.chance(rng, 0.2):
        draw.damage(rng, h)
    M = len(h.colours)
    block = draw.small_number(rng, M) if draw.chance(rng, 0.1) else draw.between(rng, 2, M + 1)
    return h, buffer(rng, 2 * M), buffer(rng, M), buffer(rng, M), block
