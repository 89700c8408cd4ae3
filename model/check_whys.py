"""Tests of Why against document 02's request L6: python3 model/check_whys.py, as
model/check.py.
"""

import itertools
import random
import sys

import check
import draw
import draw_whys
import facts
import machine
import states
import why_cases
import whys
from check import equal, need


def asked(h, block, lengths=None):
    """The answer and the path, from buffers full of junk. Nothing but the buffers is
    changed; they keep their lengths; both working buffers end as 0, a refusal leaves
    all of them."""
    lent = [[9] * length for length in lengths or (2 * h.M, h.M, h.M)]
    before, was = machine.copy(h), [list(buffer) for buffer in lent]
    answer = whys.why(h, *lent, block)
    need(h == before, f"Why of {block} changes the heap", before, h)
    path, *working = lent
    if answer[0]:
        equal(answer[1:], (0, 0, 0), "a refusal's answer")
        need(lent == was, f"Why of {block} refuses by {answer[0]} and writes", h)
        return answer, []
    need(len(path) == len(was[0]) and working == [[0] * len(buffer) for buffer in was[1:]],
         f"Why of {block} leaves its buffers as {lent}", h)
    need(not any(path[2 * answer[2]:]), f"the path to {block} isn't followed by zeroes: {path}", h)
    return answer, path[:2 * answer[2]]


def cases_by_hand():
    """Each reason, each rule on paths, each refusal before those after it."""
    count = 0
    for clause, h, lengths, block, answer, path in why_cases.cases():
        equal(asked(h, block, lengths), (answer, path), f"{clause}, block {block}")
        count += 1
    return f"{count} cases"


# ----------------------------------------------------- all walks, one by one

def all_walks(h, most):
    """Every walk from the root of at most so many pairs: (its pairs, where it ends)."""
    walks = [([], h.root)] if h.root else []
    while walks:
        yield from walks
        walks = [(pairs + [(at, w)], value) for pairs, at in walks if len(pairs) < most
                 for w, value in enumerate(facts.words_of(h, at)) if h.bytes[at - 2] & 2**w and value]


def least_walks(h):
    """For each block that a walk of at most M pairs leads to, the least of these
    walks: by how many pairs it has, and then by its words from the root on."""
    found = {}
    for pairs, end in all_walks(h, h.M):
        key = len(pairs), [w for _, w in pairs]
        if end not in found or key < found[end][0]:
            found[end] = key, [number for pair in pairs for number in pair]
    return {block: path for block, (_, path) in found.items()}


def compared(h):
    """Why of each block beside the least of all walks."""
    found = least_walks(h)
    need(set(found) == facts.reachable(h), "walks lead elsewhere than to what is reachable", h)
    for block in facts.blocks(h):
        answer, path = asked(h, block)
        equal(answer[0], 0, f"Why of {block} on {h}")
        equal(path if answer[1] == whys.REACHABLE else None, found.get(block), f"the path to {block} in {h}")
    return len(found)


def every_small_heap():
    """All heaps of three blocks with two words that are references to anything, in
    word 1 and 6 of each; and all of two blocks with four."""
    count = 0
    for M, words in ((3, (1, 6)), (2, (0, 2, 5, 7))):
        places = list(itertools.product(range(2, M + 2), words))
        for targets in itertools.product([0, *range(2, M + 2)], repeat=len(places)):
            compared(why_cases.graph(M, dict(zip(places, targets))))
            count += 1
    return f"{count} heaps"


def drawn_graphs():
    """Heaps of four to six blocks with up to three references a block."""
    rng, paths = random.Random(41), 0
    for _ in range(2500):
        M = draw.between(rng, 4, 6)
        places = [(b, w) for b in range(2, M + 2) for w in draw.shuffled(rng, range(8))[:draw.below(rng, 4)]]
        h = why_cases.graph(M, {place: draw.between(rng, 2, M + 1) for place in places}, draw.between(rng, 2, M + 1))
        paths += compared(h)
    return f"{paths} paths"


# ------------------------------------------------------------- reached heaps

def told_by_facts(h, block):
    """The reason and the state in the words of facts.py."""
    if block not in facts.allocated(h):
        return whys.FREE, 0
    if block in facts.doomed(h):
        return whys.DOOMED, 0
    if block in facts.reachable(h):
        return whys.REACHABLE, 0
    if facts.grey(h, block):
        return whys.KEPT, states.IS_GREY
    white = facts.colour_of(h, block) == facts.WHITE
    return whys.KEPT, states.LIVE_WHITE if white else states.IS_BLACK


def follows(h, path, block):
    """The path starts at the root, each pair's word is a reference that names the
    next block, and the last names the block."""
    blocks = [*path[0::2], block]
    need(blocks[0] == h.root, f"the path to {block} starts at {blocks[0]}", h)
    need(len(set(blocks)) == len(blocks), f"the path to {block} meets a block twice", h)
    for at, w, following in zip(blocks, path[1::2], blocks[1:]):
        need(h.bytes[at - 2] & 2**w and facts.words_of(h, at)[w] == following,
             f"word {w} of {at} doesn't name {following}", h)


def reached_heaps():
    """On heaps reached by calls, in every phase: the reason is the true one for every
    block, and a block's path is one pair longer than that of the block before it."""
    rng, met, longest = random.Random(42), {}, 0
    for _ in range(2500):
        h = draw_whys.accepted(rng)
        need(facts.well_formed(h), "not well-formed", h)
        pairs = {}
        for block in facts.blocks(h):
            (no, reason, count, state), path = asked(h, block)
            equal((no, reason, state), (0, *told_by_facts(h, block)), f"Why of {block} on {h}")
            if reason == whys.REACHABLE:
                follows(h, path, block)
                pairs[block] = path
            met[h.phase, reason, state] = met.get((h.phase, reason, state), 0) + 1
            longest = max(longest, count)
        for block, path in pairs.items():
            need(not path or path[:-2] == pairs[path[-2]], f"the path to {block} goes on no least path", h)
    wanted = [(phase, reason, 0) for phase in range(3) for reason in (whys.FREE, whys.REACHABLE)]
    wanted += [(2, whys.DOOMED, 0), (0, whys.KEPT, 1), (1, whys.KEPT, 1), (1, whys.KEPT, 3), (1, whys.KEPT, 4),
               (2, whys.KEPT, 1), (2, whys.KEPT, 4)]
    need(set(met) == set(wanted), f"met {sorted(met)}, wanted {sorted(wanted)}")
    need(longest > 5, f"no path of more than {longest} pairs")
    return f"{sum(met.values())} blocks, up to {longest} pairs"


def drawn_cases():
    """Any heap and any lengths: refused exactly as facts.py says; each refusal is met."""
    rng, met = random.Random(43), {}
    for _ in range(8000):
        h, *lent, block = draw_whys.case(rng)
        lengths = [len(buffer) for buffer in lent]
        wanted = (1 if not facts.lengths_M_and_U_fit(h) else 10 if not facts.well_formed(h)
                  else 3 if block not in facts.blocks(h)
                  else 13 if lengths[0] < 2 * h.M or lengths[1] < h.M or lengths[2] < h.M else 0)
        answer, _ = asked(h, block, lengths)
        equal(answer[0], wanted, f"Why of {block} on {h}, lengths {lengths}")
        met[wanted] = met.get(wanted, 0) + 1
    need(set(met) == set(draw_whys.ANSWERS), f"met {met}")
    return ", ".join(f"{no}: {count}" for no, count in sorted(met.items()))


TESTS = [cases_by_hand, every_small_heap, drawn_graphs, reached_heaps, drawn_cases]

if __name__ == "__main__":
    sys.exit(check.main(TESTS))
