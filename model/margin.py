"""How near a session can come to the sizes of docs/SIZING.md.

A session is played on a fresh heap of M blocks with pace U. At most K blocks
are reachable after each call, no call asks for more than B, and every target
named is 0 or reachable. N' is (K + P + 2)/U rounded up, P a number of blocks.
Then

    a  a cycle marks only blocks that were reachable when it began, so at most
       K, and has at most K + H + 2 units, H the blocks at or below the mark;
    b  after every call M - K - 2N' - (B - 1) blocks are free, with M for P;
    c  the mark less 1 is the most blocks that were ever allocated at once;
    d  if K + 2N' + B - 1 is at most P and P at most M, then no block above
       P + 1 is taken, and no allocation is refused for want of room.

Here sessions that keep these premises try to break this, in two ways. Plans
hold K blocks and allocate at the worst moments; the worst plans are varied
further. Wild sessions call anything, and their K is what was reached. All of
it follows from the seeds; only rng.random() is used.

    python3 -B model/margin.py [FACTOR]         plans; FACTOR multiplies the sessions
    python3 -B model/margin.py wild [FACTOR]    1,000 wild sessions, or FACTOR times that

A planned session keeps one chain of at most K blocks, each naming the next by
word 0, or by word 7 within an object, and knows where it is:

    allocate at place i   the new blocks follow the first i, the rest is lost
    allocate at a lost one  the new blocks hang on a block out of reach
    cut at i              store 0 after the first i blocks, the rest is lost
    behead at i           make the block at place i the root, the first i are lost
    work n                n units, to shift the cycle against the calls

Chains are enough: what counts is how many blocks a cycle marks, not how they
hang together.
"""

import functools
import random
import sys

import chains
import draw
import facts
import lines
import machine

# U, K, B, and how many sessions are tried. P is the least that is enough.
CASES = [(3, 1, 1, 200), (3, 4, 1, 200), (3, 10, 1, 100), (4, 2, 1, 200), (4, 9, 1, 150),
         (5, 2, 1, 200), (5, 5, 1, 200), (5, 20, 1, 100), (6, 20, 1, 100), (8, 8, 1, 100),
         (10, 23, 1, 100), (13, 44, 1, 60), (20, 35, 1, 60), (34, 14, 1, 30),
         (15, 5, 2, 60), (24, 8, 3, 60), (4, 4, 2, 200), (5, 6, 3, 200), (8, 12, 4, 100),
         (20, 20, 10, 60)]
SEEDS = (1, 2, 3)
least_blocks = functools.lru_cache(None)(facts.least_blocks)


def call_on(h, letter, numbers):
    """The calls of heaprun, and O for an object: holder, word, blocks."""
    if letter == "O":
        return chains.allocate_chain(h, *numbers)
    return lines.answer_of(h, letter, numbers)


# ------------------------------------------------------------------ the bounds

class Watch:
    """A heap from its format on, held against a, b, c and d. K and B are those
    of the calls so far."""

    def __init__(self, M, U):
        self.h = machine.empty_heap(M)
        machine.format(self.h, M, U)
        self.K, self.B, self.most = 0, 1, 0
        self.held, self.marked, self.units = set(), set(), 0
        self.full, self.cycles = 0, 0       # cycles that met K + H + 2, and all

    def unit(self, h):
        """One unit, and a."""
        if h.phase == facts.IDLE:
            self.held, self.marked, self.units = facts.reachable(h), set(), 0
            assert len(self.held) <= self.K, "units changed what is reachable"
        marking = h.phase == facts.MARKING and h.grey_head != 1
        if marking:
            assert h.grey_head in self.held - self.marked, "a block out of reach is marked"
            self.marked.add(h.grey_head)
        assert machine.unit(h), "damage"
        self.units += 1
        assert self.units <= self.K + h.mark - 1 + 2, "a cycle is too long"
        if h.phase == facts.IDLE:
            self.cycles += 1
            self.full += self.units == self.K + h.mark - 1 + 2

    def call(self, letter, *numbers):
        """A call, its premises, and b, c and d."""
        h = self.h
        assert letter not in "ST" or numbers[-1] in {0} | facts.reachable(h), (letter, numbers)
        before = machine.copy(h)
        no, value, units = call_on(h, letter, numbers)
        for _ in range(units):
            self.unit(before)
        self.B = max(self.B, numbers[2] if letter == "O" else 1)
        self.K = max(self.K, len(facts.reachable(h)))
        self.most = max(self.most, h.M - h.free_count)
        K, B = self.K, self.B
        margin = h.M - K - 2 * facts.short_N(K, h.M, h.U) - (B - 1)
        assert h.free_count >= margin, "b: the margin is broken"
        assert h.mark - 1 == self.most, "c: the mark is not the most allocated at once"
        P = least_blocks(h.U, K, B)
        if 0 < P <= h.M:
            assert h.mark <= P + 1, "d: a block above P + 1 was taken"
            assert no != 7, "d: refused for want of room"
        return no, value, units


# ------------------------------------------------------------------ the plans

class Session:
    """A heap, its chain, the calls so far and the most blocks allocated."""

    def __init__(self, M, U, K, B):
        self.h = machine.empty_heap(M)
        machine.format(self.h, M, U)
        self.K, self.B, self.chain, self.lost = K, B, [], 0
        self.link = {}              # the word by which a block names the next
        self.calls, self.most, self.refused = [], 0, False

    def call(self, letter, *numbers):
        self.calls.append((letter, numbers))
        answer = call_on(self.h, letter, numbers)
        assert answer[0] in (0, 5, 7), f"refusal {answer[0]} of {letter} {numbers}"
        self.refused |= answer[0] == 7
        self.most = max(self.most, self.h.M - self.h.free_count)
        return answer

    def new_blocks(self, block, word, n):
        """The blocks of a new object, none if it was refused."""
        if n == 1:
            no, new, _ = self.call("A", block, word)
            self.link[new] = 0
            return [] if no else [new]
        no, new, _ = self.call("O", block, word, n)
        found = [] if no else [new]
        while found and len(found) < n:
            self.link[found[-1]] = 7
            found.append(machine.get_word(self.h, found[-1], 7))
        self.link.update({found[-1]: 0} if found else {})
        return found

    def allocate_at(self, i, n=1):
        i, n = (i, n) if i + n <= self.K else (max(0, self.K - n), min(n, self.K))
        block = self.chain[i - 1] if i else 0
        found = self.new_blocks(block, self.link[block] if i else 0, n)
        if found:
            self.lost = self.chain[i] if i < len(self.chain) else self.lost
            self.chain[i:] = found

    def allocate_lost(self, n=1):
        """At the chain's end where no lost block may be written any more. (A
        lost block that was freed may meanwhile be part of the chain.)"""
        usable = self.lost and self.lost not in self.chain
        found = self.new_blocks(self.lost, 1, n) if usable else []
        self.lost = found[0] if found else 0
        if not found:
            self.allocate_at(len(self.chain), n)

    def cut(self, i):
        if i < len(self.chain):
            self.lost = self.chain[i]
            if i:
                self.call("S", self.chain[i - 1], self.link[self.chain[i - 1]], 0)
            else:
                self.call("T", 0)
            del self.chain[i:]

    def behead(self, i):
        if 0 < i < len(self.chain):
            self.lost = self.chain[0]
            self.call("T", self.chain[i])
            del self.chain[:i]

    def full(self):
        return len(self.chain) >= self.K

    def score(self):
        return self.most + self.refused


# A plan is a dictionary of numbers. It fills the chain to K, holds it for some
# cycles while every allocation leaves garbage, drops most of it at a moment, and
# allocates on until the next cycle has swept. So what was dropped and all that
# was taken meanwhile stand about together. The numbers say how it does each.

def choices(M, U, K):
    """How each number of a plan is drawn."""
    return {
        "waste": lambda rng: draw.one_of(rng, [0, 0, draw.below(rng, M + 1)]),
        "shift": lambda rng: draw.one_of(rng, [0, draw.below(rng, 2 * M + 3)]),
        "hold": lambda rng: draw.below(rng, 3),
        "cycles": lambda rng: 1 + draw.below(rng, 8),
        "slack": lambda rng: draw.one_of(rng, [0, 1, draw.below(rng, U + 1)]),
        "size": lambda rng: draw.below(rng, 3),
        "nudge": lambda rng: draw.one_of(rng, [0, 0, draw.below(rng, U + 1)]),
        "moment": lambda rng: draw.below(rng, 5),
        "place": lambda rng: 2 + draw.below(rng, M),
        "keep": lambda rng: draw.one_of(rng, [0, 1, K - 1, draw.below(rng, K + 1)]),
        "head": lambda rng: draw.below(rng, 2),
        "then": lambda rng: draw.below(rng, 4),
        "noise": lambda rng: draw.one_of(rng, [0, 0, 0.05, 0.3, 1]),
    }


def plan(rng, M, U, K):
    return {name: drawn(rng) for name, drawn in choices(M, U, K).items()}


def is_moment(h, p):
    """Whether the plan drops its blocks now."""
    if p["moment"] == 0:
        return h.phase == facts.MARKING and h.grey_head == 1
    if p["moment"] == 1:
        return h.phase == facts.SWEEPING
    if p["moment"] == 2:
        return h.phase == facts.SWEEPING and h.position >= p["place"]
    if p["moment"] == 3:
        return h.phase == facts.MARKING
    return h.phase == facts.IDLE


def next_size(s, p, rng):
    """How many blocks to ask for. The worst is to ask for all B where the cycle
    ends one unit before the units of the call do: they come almost for nothing.
    Up to `slack` units are spent to get there."""
    if p["size"] == 0 and s.B > 1:
        return draw.between(rng, 1, s.B)
    left = s.h.mark - s.h.position + 1 if s.h.phase == facts.SWEEPING else 0
    before = left - (s.B * s.h.U - 1)
    if 0 < before <= p["slack"]:
        s.call("W", before)
    return s.B if p["size"] == 1 or 0 <= before <= p["slack"] else 1


def any_call(s, rng):
    """Greedy for room, otherwise any of the five."""
    i, n = draw.below(rng, len(s.chain) + 1), draw.between(rng, 1, s.B)
    kind = rng.random()
    if kind < 0.04:
        s.call("W", draw.below(rng, s.h.U + 1))
    elif kind < 0.1:
        s.cut(i)
    elif kind < 0.15:
        s.behead(i)
    elif kind < 0.25:
        s.allocate_at(i, n)
    elif kind < 0.5 or s.full():
        s.allocate_lost(n)
    else:
        s.allocate_at(len(s.chain), n)


def hold(s, how, n):
    """Allocates while the chain keeps its length."""
    if how == 0:
        s.allocate_lost(n)
    elif how == 1:
        s.allocate_at(max(0, len(s.chain) - n), n)
    else:
        s.allocate_at(len(s.chain), n)


def follow(p, seed, M, U, K, B):
    """Plays the plan over and over, and answers the session."""
    rng = random.Random(seed)
    s = Session(M, U, K, B)
    limit = 10 * (2 * K + 4 * facts.short_N(K, M, U)) + 40
    for _ in range(p["waste"]):
        s.allocate_at(0)
    if p["shift"]:
        s.call("W", p["shift"])
    noisy = lambda: draw.chance(rng, p["noise"])
    while len(s.calls) < limit:
        while not s.full() and len(s.calls) < limit:
            any_call(s, rng) if noisy() else s.allocate_at(len(s.chain), min(B, K - len(s.chain)))
        begun = s.h.cycle + p["cycles"] - 1
        while len(s.calls) < limit and not (s.h.cycle > begun and is_moment(s.h, p)):
            any_call(s, rng) if noisy() else hold(s, p["hold"], next_size(s, p, rng))
            if s.h.cycle > begun + 2:
                break
        if p["nudge"]:
            s.call("W", p["nudge"])
        s.behead(len(s.chain) - p["keep"]) if p["head"] else s.cut(p["keep"])
        dropped = s.h.cycle
        while len(s.calls) < limit and s.h.cycle < dropped + 2:
            n = next_size(s, p, rng)
            if noisy():
                any_call(s, rng)
            elif p["then"] == 0:
                s.allocate_lost(n)
            elif p["then"] == 1:
                s.allocate_at(0, n)
            elif s.full():
                hold(s, p["then"] - 2, n)
            else:
                s.allocate_at(len(s.chain), n)
    return s


def worst_session(M, U, K, B, tries):
    """Draws plans, then changes a number or two of the worst so far."""
    worst = None
    for seed in SEEDS:
        rng = random.Random(seed)
        best_plan, best = None, -1
        for attempt in range(max(1, tries // len(SEEDS))):
            p = plan(rng, M, U, K)
            if best_plan and attempt % 2:
                changed = {draw.one_of(rng, sorted(p)) for _ in range(2)}
                p = {name: p[name] if name in changed else best_plan[name] for name in p}
            s = follow(p, draw.below(rng, 10**9), M, U, K, B)
            if s.score() >= best:
                best_plan, best = p, s.score()
            if worst is None or s.score() > worst.score():
                worst = s
    return worst


def replay(s, M, U, K, B):
    """Plays the calls again and tests every premise and every bound."""
    watch = Watch(M, U)
    for letter, numbers in s.calls:
        watch.call(letter, *numbers)
    assert watch.K <= K and watch.B <= B, "the session broke its own premise"
    assert watch.most == s.most
    return watch


# ---------------------------------------------------------------- wild sessions

def wild_call(rng, h, few, B):
    """Any call with a proper target. Above `few` reachable blocks it lets go."""
    many = len(facts.reachable(h)) > few
    kind = rng.random()
    usable = sorted(facts.allocated(h) - facts.doomed(h))
    holder = draw.one_of(rng, [draw.reachable_block(rng, h), draw.one_of(rng, usable or [0])])
    if kind < (0.1 if many else 0.75):
        n, word = draw.between(rng, 1, B), draw.below(rng, 7) if holder else 0
        return ("A", [holder, word]) if n == 1 else ("O", [holder, word, n])
    if kind < 0.8:
        return "W", [draw.below(rng, 2 * h.U + 2)]
    target = 0 if many and draw.chance(rng, 0.5) else draw.reachable_block(rng, h)
    if holder == 0 or draw.chance(rng, 0.3):
        return "T", [target]
    return "S", [holder, draw.below(rng, 8), target]


def wild_session(seed, calls=150):
    rng = random.Random(seed)
    M = draw.between(rng, 3, 40)
    U = draw.one_of(rng, [1, 2, 3, 3, 4, 4, 5, 5, 6, 8, draw.between(rng, 1, 2 * M + 3)])
    B = draw.one_of(rng, [1, 1, 1, 2, 3, 5])
    few = draw.between(rng, 1, max(1, M // draw.one_of(rng, [2, 4, 8])))
    watch = Watch(M, U)
    for _ in range(calls):
        letter, numbers = wild_call(rng, watch.h, few, B)
        watch.call(letter, *numbers)
    return watch


def wild(first, count):
    """What the sessions met; an assertion fails where a bound is broken."""
    met = dict(sessions=count, cycles=0, full=0, sized=0)
    for seed in range(first, first + count):
        watch = wild_session(seed)
        met["cycles"] += watch.cycles
        met["full"] += watch.full
        met["sized"] += 0 < least_blocks(watch.h.U, watch.K, watch.B) <= watch.h.M
    return met


# --------------------------------------------------------------------- the table

def row(U, K, B, tries):
    """The most blocks allocated at once by the worst session on P blocks and on
    half as many more; and whether some session is refused by 7 on P - 1."""
    P = least_blocks(U, K, B)
    most = []
    for M in (P, P + P // 2):
        s = worst_session(M, U, K, B, tries)
        most.append(replay(s, M, U, K, B).most)
    return P, most, worst_session(P - 1, U, K, B, tries).refused


def main():
    if sys.argv[1:2] == ["wild"]:
        met = wild(0, 1000 * int(sys.argv[2] if len(sys.argv) > 2 else 1))
        print(f"{met['sessions']} sessions, {met['sized']} of them on a heap that is enough; "
              f"{met['cycles']} cycles, {met['full']} of them with K + H + 2 units")
        return 0
    factor = int(sys.argv[1]) if len(sys.argv) > 1 else 1
    print("| U | K | B | N' | P | most allocated on P blocks | on P + P/2 blocks "
          "| P less the most | 7 on P - 1 blocks |")
    print("|" + "---:|" * 8 + "---|")
    for U, K, B, tries in CASES:
        P, most, refused = row(U, K, B, tries * factor)
        print(f"| {U} | {K} | {B} | {facts.short_N(K, P, U)} | {P} | {most[0]} | {most[1]} | "
              f"{P - max(most)} | {'met' if refused else 'not met'} |", flush=True)
    return 0


if __name__ == "__main__":
    sys.exit(main())
