"""Tests of the sharper demand 3 (docs/SIZING.md): python3 model/check_sizes.py, as
model/check.py. The bounds are at the head of margin.py, whose sessions are used.
"""

import itertools
import sys

import check
import facts
import lines
import machine
import margin
from check import equal, formatted, need

# U, K, B and the sessions tried: the worst leaves no block free on P blocks, and
# one is refused by 7 on P - 1.
MET = [(5, 2, 1, 30), (20, 35, 1, 15), (34, 14, 1, 3), (15, 5, 2, 6), (24, 8, 3, 6)]

# U and K for which all heaps are gone over.
SMALL = [(4, 1), (5, 1), (6, 1)]


def the_two_rules():
    """Document 01's rule implies the sharper one with P = M. At the least P the
    sum is P itself, and docs/SIZING.md's two formulas hold. Where B is 1, the least P
    at pace U is document 01's smallest M at pace U + 2. Paces 1 and 2 have none."""
    count = 0
    for M, U, B in itertools.product(range(1, 41), range(1, 64, 3), (1, 2, 3, 10)):
        for K in range(M + 1):
            if K + 2 * facts.N(M, U) + B - 1 <= M:
                need(facts.is_enough(M, U, K, B), f"M {M}, U {U}, K {K}, B {B}")
                count += 1
    need(count > 0, "document 01's rule is never met")
    for U, K, B in itertools.product((3, 4, 5, 6, 7, 10, 33), (1, 2, 7, 40), (1, 2, 5)):
        P = facts.least_blocks(U, K, B)
        equal(K + 2 * facts.short_N(K, P, U) + B - 1, P, f"the least P: U {U}, K {K}, B {B}")
        need(P * (U - 2) >= U * (K + B - 1) + 2 * K + 4, f"the first formula: U {U}, K {K}, B {B}")
        surely = -((U * (K + B + 1) + 2 * K + 2) // -(U - 2))
        need(all(facts.is_enough(surely + more, U, K, B) for more in range(2 * U)),
             f"not enough from the second formula on: U {U}, K {K}, B {B}")
        if B == 1:
            smallest = next(M for M in range(1, 16385) if facts.has_room(M, U + 2, K))
            equal(P, smallest, f"document 01's M at pace {U + 2}, K {K}")
    for U, K in itertools.product((1, 2), (0, 1, 100)):
        equal(facts.least_blocks(U, K), 0, f"pace {U}")
    return f"{count} heaps"


def wild_sessions():
    """No bound is broken where anything is called; each premise is met."""
    met = margin.wild(0, 50)
    need(met["cycles"] > 1500 and met["full"] > 300, f"too few cycles: {met}")
    need(met["sized"] > 5, f"too few sessions for which a P is enough: {met}")
    return f"{met['cycles']} cycles, {met['full']} of them with K + H + 2 units"


def bounds_are_met():
    """Where N' is small no smaller P is true: a session takes P blocks at once,
    whatever M is, and one is refused on P - 1."""
    for U, K, B, tries in MET:
        P, most, refused = margin.row(U, K, B, tries)
        equal(most, [P, P], f"U {U}, K {K}, B {B}: the most allocated at once")
        need(refused, f"U {U}, K {K}, B {B}: never refused on {P - 1} blocks")
    return f"{len(MET)} sizes"


def every_small_heap():
    """All heaps that some calls reach while K is kept, on a heap with a block more
    than P: that block is never taken."""
    return ", ".join(f"U {U}, K {K}: {most} of {facts.least_blocks(U, K)}, {count} heaps"
                     for U, K in SMALL for most, count in [heaps_reached(U, K)])


def heaps_reached(U, K):
    """The most blocks allocated at once, and how many heaps there are."""
    P = facts.least_blocks(U, K)
    todo, seen, most = [formatted(P + 1, U)], set(), 0
    while todo:
        h = todo.pop()
        for letter, numbers in [*check.premised_calls(h, False), ("W", [1])]:
            after = machine.copy(h)
            no = lines.answer_of(after, letter, numbers)[0]
            if len(facts.reachable(after)) > K:
                continue
            need(no in (0, 5), f"refusal {no}, U {U}, K {K}: {letter} {numbers}", h)
            used = len(facts.allocated(after))
            equal(after.mark - 1, max(h.mark - 1, used), f"the mark, U {U}, K {K}")
            need(after.mark <= P + 1, f"block {after.mark} is taken, U {U}, K {K}", h)
            most = max(most, used)
            forget(after)
            key = repr(after)
            if key not in seen:
                seen.add(key)
                todo.append(after)
    return most, len(seen)


def forget(h):
    """Clears what no later call depends on: the cycle number, and what blocks out
    of reach hold, but while marking only the black ones, which aren't marked again."""
    h.cycle = 0
    for b in facts.allocated(h) - facts.reachable(h):
        if h.phase != facts.MARKING or h.colours[b - 2] == facts.BLACK:
            h.words[8 * (b - 2):8 * (b - 2) + 8] = [0] * 8
            h.bytes[b - 2] = 0


def the_same_night_again():
    """The calls of a session give the same answers on every heap with at least as
    many blocks as were allocated at once: what the mark tells of a trial night."""
    count = 0
    for U, K, B, _ in MET[:1] + MET[3:]:
        P = facts.least_blocks(U, K, B)
        s = margin.worst_session(2 * P, U, K, B, 3)
        heaps = [margin.Watch(M, U) for M in (s.most, s.most + 1, 2 * P)]
        for letter, numbers in s.calls:
            answers = {w.call(letter, *numbers) for w in heaps}
            need(len(answers) == 1, f"U {U}, K {K}: {letter} {numbers} gives {answers}")
            count += 1
        equal([w.h.mark for w in heaps], [s.most + 1] * 3, "the mark")
    return f"{count} calls"


TESTS = [the_two_rules, wild_sessions, bounds_are_met, every_small_heap, the_same_night_again]

if __name__ == "__main__":
    sys.exit(check.main(TESTS))
