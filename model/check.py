"""Tests of the model against document 01 and the three demands.

python3 model/check.py runs them all, from fixed seeds; it exits with status 1
and says what failed.
"""

import random
import sys
import time

import damage
import draw
import exports
import facts
import lines
import machine
import probe
import states
from machine import BLACK, FREE, WHITE


def need(true, message, *heaps):
    if not true:
        raise AssertionError("\n".join([message, *(f"  {h}" for h in heaps)]))


# ------------------------------------------------------ the paper's examples

def formatted(M, U):
    h = machine.empty_heap(M)
    need(machine.format(h, M, U) == (0, 0, 0), f"Format({M}, {U}) is refused")
    return h


def equal(got, wanted, where):
    need(got == wanted, f"{where}: got {got}, wanted {wanted}")


def after_case_3():
    """The heap of hand-checked cases 1 to 3, checked on the way."""
    h = formatted(3, 1)
    equal(h.colours, [FREE] * 3, "case 1 colours")
    equal((h.words[0::8], h.mark), ([3, 4, 0], 1), "case 1 words 0 and mark")
    equal(machine.allocate(h, 0, 0), (0, 2, 1), "case 2 answer")
    equal((h.colours[0], h.root, h.phase, h.cycle, h.mark), (BLACK, 2, 1, 1, 2), "case 2 heap")
    equal(machine.allocate(h, 2, 0), (0, 3, 1), "case 3 answer")
    equal((h.colours[1], h.phase, h.position, h.mark), (BLACK, 2, 2, 3), "case 3 heap")
    return h


def after_case_4():
    """Work 3. Two units sweep 2 and 3; 3 is the mark, so the cycle is over after
    4 units. The third unit begins the next: the root is grey."""
    h = after_case_3()
    equal(machine.work(h, 3), (0, 0, 3), "case 4 answer")
    equal((h.colours, h.phase, h.position, h.grey_head, h.cycle), ([1, WHITE, FREE], 1, 0, 2, 2), "case 4 heap")
    return h


def hand_checked_cases():
    """Document 01's, with the same inputs; 4 to 8 worked out afresh with the mark."""
    h = after_case_4()
    # 5. The four units mark 2, turn, sweep 2 and sweep 3, which is freed: the
    # cycle is over after 5 units, 2 + 1 + 2.
    equal(machine.store_reference(h, 2, 0, 0), (0, 0, 0), "case 5 store")
    equal(machine.work(h, 4), (0, 0, 4), "case 5 work")
    equal((h.phase, h.position, h.cycle, h.colours), (0, 0, 2, [WHITE, FREE, FREE]), "case 5 heap")
    equal((h.words[8], h.free_head, h.free_count, h.mark), (4, 3, 2, 3), "case 5 free list and mark")
    equal(machine.read(h, 3, 0), (5, 0, 0, False), "case 5 read")
    equal(machine.store_reference(h, 2, 1, 3), (6, 0, 0), "case 6")
    # 7. The next cycle begins, and its first unit of marking makes 2 black.
    equal(machine.work(h, 1), (0, 0, 1), "case 7 work")
    equal((h.phase, h.cycle, h.colours, h.grey_head), (1, 3, [1, FREE, FREE], 2), "case 7")
    equal(machine.work(h, 1), (0, 0, 1), "case 7 work 1 more")
    equal((h.phase, h.colours, h.grey_head), (1, [BLACK, FREE, FREE], 1), "case 7, 1 more")
    equal((h.words[8], h.free_head, h.free_count), (4, 3, 2), "case 7 free list")
    # 8. The first unit marks 2 and greys 3, the second marks 3: it is black
    # when the last store names it, so no barrier acts.
    h = after_case_4()
    machine.work(h, 1)
    equal((h.colours, h.grey_head), ([BLACK, 1, FREE], 3), "case 8, after Work 1")
    machine.store_reference(h, 2, 0, 0)
    machine.work(h, 1)
    equal(machine.store_reference(h, 2, 1, 3), (0, 0, 0), "case 8 store")
    equal((h.colours, h.grey_head, h.phase), ([BLACK, BLACK, FREE], 1, 1), "case 8 heap")
    equal((h.words[:2], h.bytes[0]), ([0, 3], 3), "case 8 words")
    h = formatted(1, 1)
    machine.allocate(h, 0, 0)
    equal(machine.allocate(h, 2, 0), (7, 0, 1), "case 9")
    equal(h.phase, 2, "case 9 phase")
    h = formatted(3, 0)
    equal(machine.allocate(h, 0, 0)[2], 2, "pace 0, free count 3")
    equal(machine.allocate(h, 2, 0), (0, 3, 4), "case 10, free count 2")
    equal(machine.allocate(h, 3, 0), (0, 4, 6), "pace 0, free count 1")
    equal(machine.allocate(h, 4, 0), (7, 0, 6), "case 10, free count 0")
    equal(machine.format(machine.empty_heap(0), 0, 1), (1, 0, 0), "case 11, M 0")
    equal(machine.format(machine.empty_heap(16385), 16385, 1), (1, 0, 0), "case 11, M 16385")
    h = formatted(16384, 65535)
    equal(machine.work(h, 65535), (0, 0, 65535), "case 11, Work 65535")
    equal(machine.work(h, 65536), (9, 0, 0), "case 11, Work 65536")
    equal(facts.N(1024, 10), 205, "case 12")
    equal([facts.has_room(1024, 10, K) for K in (614, 615)], [True, False], "case 12")
    equal((facts.N(3, 8), facts.has_room(3, 8, 1)), (1, True), "case 13")
    return "13 cases"


def what_cases_5_to_8_showed():
    """What document 01's cases 5 to 8 were there to show, which with the mark shows
    one unit earlier: a doomed block, its sweep, and the barrier."""
    h = after_case_4()
    machine.store_reference(h, 2, 0, 0)
    equal(machine.work(h, 3), (0, 0, 3), "mark 2, turn, sweep 2")
    equal((h.phase, h.position, facts.doomed(h)), (2, 3, {3}), "3 is doomed")
    equal(machine.read(h, 3, 0), (5, 0, 0, False), "Read of a doomed block")
    equal(machine.store_reference(h, 2, 1, 3), (6, 0, 0), "a doomed target")
    equal(machine.work(h, 1), (0, 0, 1), "sweep 3")
    equal((h.colours[1], h.words[8], h.free_head, h.free_count, h.phase), (FREE, 4, 3, 2, 0), "3 is free")
    h = after_case_4()
    machine.store_reference(h, 2, 0, 0)
    machine.work(h, 1)
    equal(machine.store_reference(h, 2, 1, 3), (0, 0, 0), "a white target while marking")
    equal((h.colours[1], h.grey_head), (1, 3), "it is greyed")
    return "as worked out"


def counted_units(h):
    """How many units a cycle takes that starts now, with no call in between."""
    need(h.phase == facts.IDLE, "no cycle starts here", h)
    count = 0
    while count == 0 or h.phase != facts.IDLE:
        need(machine.unit(h), "a unit meets damage", h)
        count += 1
    return count


def small_reports():
    """A small report on a large heap. On 16,384 blocks at pace 1 the rows 2 to 101
    hang from each other, 100 of them: each Allocate does a unit, and once all is
    built and a cycle has ended, a cycle takes 2 + 100 + 100 units. Of 50 rows let go
    a cycle marks 50 and still visits 100. None of it goes near the other blocks."""
    h = formatted(16384, 1)
    for row in range(100):
        equal(machine.allocate(h, row + 1 if row else 0, 0), (0, row + 2, 1), f"row {row}")
        equal(h.mark, row + 2, "the mark is the row handed out last")
    untouched = h.words[8 * 100:]
    while h.phase != facts.IDLE:
        machine.work(h, 1)
    equal(counted_units(h), 2 + 100 + 100, "a cycle of 100 rows")
    machine.store_reference(h, 51, 0, 0)
    equal(counted_units(h), 2 + 50 + 100, "a cycle that frees 50 rows")
    equal((h.free_count, h.free_head, h.mark), (16384 - 50, 101, 101), "the mark doesn't fall")
    machine.set_root(h, 0)
    equal(counted_units(h), 2 + 0 + 100, "a cycle that marks nothing")
    equal((h.free_count, h.free_head, h.mark), (16384, 51, 101), "all are free")
    equal(h.words[8 * 100:], untouched, "blocks never handed out")
    machine.format(h, 16384, 1)
    equal((h.mark, counted_units(h)), (1, 2), "Format sets the mark to 1")
    return "16,384 blocks, 100 rows"


def cycles_without_a_sweep():
    """With mark 1 the turn ends the cycle: 2 units, phase 0 and position 0 after
    each second one."""
    h = formatted(4, 1)
    for cycle in range(1, 4):
        equal(machine.work(h, 1), (0, 0, 1), "a cycle begins")
        equal((h.phase, h.cycle, h.position), (1, cycle, 0), "marking, nothing grey")
        equal(machine.work(h, 1), (0, 0, 1), "the turn")
        equal((h.phase, h.cycle, h.position, h.mark), (0, cycle, 0, 1), "idle")
    equal(machine.allocate(h, 0, 0), (0, 2, 1), "the first block, while marking")
    equal((h.colours[0], h.mark, h.cycle), (BLACK, 2, 4), "it is black")
    equal(machine.work(h, 1), (0, 0, 1), "the turn")
    equal((h.phase, h.position), (2, 2), "now there is a block to sweep")
    equal(machine.work(h, 1), (0, 0, 1), "the sweep of 2")
    equal((h.phase, h.colours[0]), (0, WHITE), "the cycle took 3 units: 2 + 0 + 1")
    return "as worked out"


def takes_and_the_mark():
    """A block taken while the sweep is under way raises the mark, and the same sweep
    visits it. One taken while idle comes after the cycle's last unit: the next
    cycle's sweep visits it. One taken below the mark leaves it."""
    h = formatted(5, 1)
    machine.allocate(h, 0, 0)           # begins a cycle; 2 is black
    machine.work(h, 1)                  # the turn: position 2, mark 2
    h.U = 0                             # five blocks, four free: 4 units
    equal(machine.allocate(h, 2, 0), (0, 3, 4), "sweep 2, begin, mark 2, turn")
    equal((h.phase, h.position, h.cycle, h.mark), (2, 2, 2, 3), "in the second sweep")
    equal(h.colours[:2], [BLACK, BLACK], "3 is black, since it is not below the position")
    equal(machine.work(h, 1), (0, 0, 1), "sweep 2")
    equal((h.phase, h.position), (2, 3), "the sweep goes on to 3")
    equal(machine.work(h, 1), (0, 0, 1), "sweep 3")
    equal((h.phase, h.colours[:2], h.mark), (0, [WHITE, WHITE], 3), "the cycle took 5 units: 2 + 1 + 2")
    equal(machine.audit(h), (0, 1, 0), "well-formed")

    h = formatted(3, 2)
    equal(machine.allocate(h, 0, 0), (0, 2, 2), "a cycle of 2 units, then the take")
    equal((h.phase, h.cycle, h.mark, h.colours[0]), (0, 1, 2, WHITE), "idle: H is 0 at the last unit, 1 now")
    equal(counted_units(h), 2 + 1 + 1, "the next cycle visits it")
    equal(machine.audit(h), (0, 1, 0), "well-formed")

    h = formatted(3, 1)
    for held in (0, 2, 3):
        machine.allocate(h, held, 0)
    machine.set_root(h, 0)
    machine.work(h, 20)
    equal((h.free_count, h.mark), (3, 4), "all were handed out and freed")
    first = h.free_head
    equal(machine.allocate(h, 0, 0)[1], first, "the first free block")
    equal(h.mark, 4, "the mark stays")
    return "as worked out"


LISTING_IN = b"F 3 1\nA 0 0\nA 2 0\nW 3\nR 2 0\nS 2 0 0\nW 4\nR 3 0\nC\n"
LISTING_OUT = (b"0 0 0\n0 2 1\n0 3 1\n0 0 3\n0 3 1\n0 0 0\n0 0 4\n5 0 0\n0 1 0\n")


def the_listing():
    equal(lines.heaprun(LISTING_IN), LISTING_OUT, "the listing")
    equal(lines.heaprun(LISTING_IN[:-1]), LISTING_OUT, "the listing without a last byte 10")
    return "as printed"


def rules_of_lines():
    for line in draw.BAD_LINES:
        equal(lines.heaprun(line + b"\n"), b"99 0 0\n", f"the line {line}")
    for line in draw.REFUSED_FORMATS:
        equal(lines.heaprun(line + b"\nC\n"), b"1 0 0\n0 0 0\n", f"the line {line}")
        equal(lines.heaprun(b"F 1 1\n" + line + b"\nA 0 0\n"), b"0 0 0\n1 0 0\n0 2 1\n",
              f"the heap stays after {line}")
    for line in (b"R 2 0", b"N 2 0 0", b"S 2 0 0", b"T 0", b"A 0 0", b"W 1", b"W 65536"):
        equal(lines.heaprun(line), b"1 0 0\n", f"{line} before a first F")
    equal(lines.heaprun(b""), b"", "no input")
    equal(lines.heaprun(b"\n\n"), b"99 0 0\n" * 2, "two empty lines")
    equal(lines.heaprun(b"F 0000001024 0000065535\nW 4294967295"), b"0 0 0\n9 0 0\n", "zeros")
    ten = b" 0" * 10
    equal(probe.heapprobe(b"C 0 0 0 0 0 0" + ten), b"0 0 0" + ten + b"\n", "a case of no lengths")
    for line in (b"C 1 0 0 0 0 0" + ten, b"C 0 0 0 0 0 1" + ten + b" 256", b"C 0 0 0 1 0 0" + ten,
                 b"C 0 0 0 0 0 0" + ten + b" 0", b"C 0 0 0 0 0 0" + ten[2:],
                 b"C 0 0 0 0 9 0" + ten + b" 0" * 9):
        equal(probe.heapprobe(line), b"99 0 0\n", f"the case {line}")
    return f"{len(draw.BAD_LINES)} lines that break the rules"


# ------------------------------------------------------------- watched calls

def same_block(before, after, b):
    return (facts.words_of(before, b) == facts.words_of(after, b)
            and before.bytes[b - 2] == after.bytes[b - 2])


def watched_units(h, count, log):
    """Does units one at a time: no unit frees a reachable block, nor changes
    its words or its byte, nor makes a block reachable or unreachable."""
    held = facts.reachable(h)
    for _ in range(count):
        before = machine.copy(h)
        need(machine.unit(h), "a unit meets damage", before)
        for b in held:
            need(h.colours[b - 2] != FREE, f"block {b} is reachable and is freed", before, h)
            need(same_block(before, h, b), f"a unit changes block {b}", before, h)
        need(facts.reachable(h) == held, "a unit changes what is reachable", before, h)
        watch_cycle(before, h, log)


def watch_cycle(before, h, log):
    """Keeps the log of the cycle under way; at its end holds it against the
    demands. `log` is a dictionary, empty when no start has been seen."""
    if before.phase == facts.IDLE:
        everything = facts.allocated(before)
        log.update(garbage=everything - facts.reachable(before), A=len(everything),
                   units=0, marked=0, freed=set(), tame=True)
    if not log:
        return
    log["units"] += 1
    if before.phase == facts.MARKING and before.grey_head != 1:
        log["marked"] += 1
    log["freed"] |= facts.allocated(before) - facts.allocated(h)
    if before.phase != facts.IDLE and h.phase == facts.IDLE:
        H = len(facts.at_or_below_the_mark(h))
        need(log["units"] == 2 + log["marked"] + H, "a cycle isn't 2 + marked + H units", h)
        need(log["units"] <= log["A"] + H + 2, "a cycle is above A + H + 2 units", h)
        log["skipped"] = log.get("skipped", 0) + (before.phase == facts.MARKING)
        if log["tame"]:
            need(log["garbage"] <= log["freed"],
                 f"garbage {log['garbage']} at the start, but only {log['freed']} freed", h)
            log["ended"] = log.get("ended", 0) + 1
            log["collected"] = log.get("collected", 0) + len(log["garbage"])


def watched_call(h, letter, numbers, log):
    """One call on a well-formed heap, with all that demand 2 says of it."""
    before = machine.copy(h)
    held = facts.reachable(before)
    if letter in "ST" and numbers[-1] not in {0} | held and log:
        log["tame"] = False
    no, value, third = probe.three_numbers(h, letter, numbers)
    what = f"{letter} {numbers} answers {no} {value} {third}"
    need(letter == "L" or no != 8, f"8 on a well-formed heap: {what}", before)
    need(facts.well_formed(h), f"not well-formed after {what}", before, h)
    need(machine.audit(h) == (0, 1, 0), f"the audit differs after {what}", before, h)
    if letter == "F":
        log.clear()
        return no, value, third
    watched = machine.copy(before)
    watched_units(watched, third if letter in "AW" else 0, log)
    if letter in "RLCW" or no:
        need(watched == h, f"more than its units changed: {what}", before, h)
    if letter == "A" and not no:
        need(value in facts.blocks(watched) and value not in facts.allocated(watched),
             f"the new block was not free: {what}", watched, h)
    taken = value if letter == "A" and not no else 1
    need(h.mark == max(before.mark, taken), f"the mark: {what}", before, h)
    written = numbers[0] if letter in "NSA" and not no else None
    for b in held:
        need(h.colours[b - 2] != FREE, f"reachable block {b} freed by {what}", before, h)
        if b != written:
            need(same_block(before, h, b), f"block {b} changed by {what}", before, h)
    if written:
        only_that_word(before, h, *numbers[:2], what)
    return no, value, third


def only_that_word(before, h, block, word, what):
    for w in range(8):
        need(w == word or (machine.get_word(before, block, w) == machine.get_word(h, block, w)
                           and machine.is_reference(before, block, w)
                           == machine.is_reference(h, block, w)),
             f"word {w} of {block} changed by {what}", before, h)


def bound_on_the_way(h, log):
    """In the midst of a cycle: its units so far, and those it takes yet if nothing
    more is handed out, are at most A + E + 2, E being what its sweep visits then."""
    if h.phase == facts.IDLE or not log:
        return
    alone, left = machine.copy(h), 0
    while alone.phase != facts.IDLE:
        need(machine.unit(alone), "a unit meets damage", h)
        left += 1
    E = len(facts.at_or_below_the_mark(h))
    need(log["units"] + left <= log["A"] + E + 2, f"{log['units']} units and {left} more", h)


# -------------------------------------------------- well-formed heaps, demand 2

def drawn_heaps():
    """Well-formed heaps of up to 3 blocks drawn at random, every call tried."""
    rng = random.Random(11)
    kept = 0
    for _ in range(14000):
        h = draw.small_heap(rng, 3)
        if not facts.well_formed(h):
            continue
        kept += 1
        for letter, numbers in [draw.probe_call(rng, h) for _ in range(3)]:
            watched_call(h, letter, numbers, {})
            if letter == "F":
                break           # a pace of 65,535 would take long to watch
    need(kept > 3000, f"only {kept} heaps were well-formed")
    return f"{kept} heaps"


def long_runs():
    """Heaps reached by calls: safety at every unit, cycles, garbage."""
    rng = random.Random(12)
    calls, ended, collected, skipped, seen = 0, 0, 0, 0, set()
    for run in range(160):
        M = draw.between(rng, 1, 9)
        U = draw.one_of(rng, [0, 1, 1, 2, 3, 2 * M + 2])
        h, log = formatted(M, U), {}
        tame = run % 3 != 0
        for _ in range(120):
            letter, numbers = draw.call(rng, h, tame)
            no, _, _ = watched_call(h, letter, numbers, log)
            bound_on_the_way(h, log)
            seen.add((letter, no))
            calls += 1
        ended += log.get("ended", 0)
        collected += log.get("collected", 0)
        skipped += log.get("skipped", 0)
    for wanted in ("R0 R3 R5 N0 N3 N5 S0 S3 S4 S5 S6 T0 T4 T6 A0 A3 A5 A7 W0 W9 C0").split():
        need((wanted[0], int(wanted[1:])) in seen, f"no {wanted} among the runs")
    need(collected > 500, f"only {collected} garbage blocks were looked for")
    need(skipped > 50, f"only {skipped} cycles had nothing to sweep")
    return f"{calls} calls, {ended} tame cycles, {collected} garbage blocks freed, {skipped} without a sweep"


# ------------------------------------------------------------------ demand 3

def worst_call(rng, h, K, greed):
    """A call that tries to run the heap full, while at most K blocks are
    reachable after each call and targets are nothing or reachable."""
    held = sorted(facts.reachable(h))
    lost = sorted(facts.allocated(h) - facts.doomed(h) - set(held))
    marked = h.phase == facts.MARKING and h.grey_head == 1
    if held and (marked and draw.chance(rng, greed) or draw.chance(rng, 0.02)):
        return "T", [draw.one_of(rng, [0, draw.one_of(rng, held)])]     # drop what is marked
    if draw.chance(rng, 0.04):
        return "W", [draw.below(rng, 3)]
    if held and draw.chance(rng, 0.05):
        return "S", [draw.one_of(rng, held), draw.below(rng, 8), draw.one_of(rng, [0, *held])]
    if len(held) < K and held and draw.chance(rng, 0.95):
        return "A", [draw.one_of(rng, [held[-1], draw.one_of(rng, held)]), draw.below(rng, 8)]
    if lost and draw.chance(rng, 0.4):
        return "A", [draw.one_of(rng, lost), draw.below(rng, 8)]
    return "A", [0, 0]


def room_enough():
    """No refusal 7 where K + 2N is at most M. The least room seen shows that
    the runs come near it; with K one greater some run must be refused."""
    rng = random.Random(13)
    least, allocations, refused = 99, 0, 0
    for run in range(220):
        M = draw.between(rng, 3, 14)
        U = draw.one_of(rng, [2 * M + 2, 2 * M + 1, M + 1, M, 3 * M, 5, 4, 65])
        K = M - 2 * facts.N(M, U)
        if K < 1:
            continue
        greed = rng.random()
        h = formatted(M, U)
        for _ in range(150):
            before = machine.copy(h)
            letter, numbers = worst_call(rng, h, K, greed)
            no = lines.answer_of(h, letter, numbers)[0]
            need(no in (0, 5), f"refusal {no}, M {M}, U {U}, K {K}: {letter} {numbers}", before)
            need(len(facts.reachable(h)) <= K, "the run broke its own premise", before, h)
            least = min(least, h.free_count)
            allocations += letter == "A"
    for run in range(40):       # the same calls, but with the whole heap to hold
        h = formatted(5, 2)
        for _ in range(60):
            refused += lines.answer_of(h, *worst_call(rng, h, 5, 0.5))[0] == 7
    need(refused > 0, "the runs cannot be refused even without the premise")
    need(allocations > 5000, f"only {allocations} allocations")
    return f"{allocations} allocations, least room left {least}"


def room_enough_exhaustive():
    """Case 13's M = 3, K = 1 with three paces, and M = 4, U = 10, K = 2 with
    fewer calls: all heaps that such calls reach while K is kept, and each of
    the calls in each of them."""
    small = sum(heaps_reached(3, U, 1, True) for U in (8, 9, 20))
    return f"{small} heaps of 3, {heaps_reached(4, 10, 2, False)} heaps of 4"


def heaps_reached(M, U, K, all_stores):
    need(facts.has_room(M, U, K), "the premise doesn't hold")
    todo, seen = [formatted(M, U)], set()
    while todo:
        h = todo.pop()
        for letter, numbers in premised_calls(h, all_stores):
            after = machine.copy(h)
            no = lines.answer_of(after, letter, numbers)[0]
            need(no in (0, 5), f"refusal {no}, M {M}, U {U}, K {K}: {letter} {numbers}", h)
            after.cycle = 0
            key = repr(after)
            if key not in seen and len(facts.reachable(after)) <= K:
                seen.add(key)
                todo.append(after)
    return len(seen)


def premised_calls(h, all_stores):
    """Calls that keep demand 3's premise on targets, at words 0 and the root.
    all_stores: also single units, and stores of every such target."""
    held = facts.reachable(h)
    targets = {0} | held
    yield "A", [0, 0]
    for b in facts.allocated(h) - facts.doomed(h):
        yield "A", [b, 0]
    for target in targets:
        yield "T", [target]
    for b in held:
        for target in targets if all_stores else {0}:
            yield "S", [b, 0, target]
    if all_stores:
        yield "W", [1]


# ------------------------------------------------------------- damaged heaps

def cases_by_hand():
    """Each sentence on refusals, with numbers worked out by hand."""
    count = 0
    for sentence, letter, numbers, h, wanted in damage.cases():
        before = machine.copy(h)
        got = tuple(probe.three_numbers(h, letter, numbers))
        need(got == wanted, f"{sentence}: {letter} {numbers} gives {got}, wanted {wanted}", before)
        if letter != "L" and got[0]:
            leaves_its_units(before, h, letter, got)
        count += 1
    return f"{count} cases"


def exports_by_hand():
    """Each answer of Export; of the buffer exactly the rows counted are written,
    which are the words of the blocks from the start on."""
    count = 0
    for what, h, room, start, link, wanted in exports.by_hand():
        before, out = machine.copy(h), [7777] * room
        equal(exports.export(h, out, start, link), wanted, what)
        first, words = 8 * max(start - 2, 0), 8 * wanted[1]
        equal(out, (before.words[first:first + words] + [7777] * room)[:room], what)
        need(h == before, f"{what}: the heap is changed", before, h)
        count += 1
    return f"{count} cases"


def states_by_hand():
    """Each state in each phase, numbers that are no blocks, colour words that
    are none, refusals 1 and 2 first."""
    count = 0
    for what, h, number, wanted in states.by_hand():
        before = machine.copy(h)
        equal(states.state(h, number), wanted, what)
        need(h == before, f"{what}: the heap is changed", before, h)
        count += 1
    return f"{count} cases"


def states_and_facts():
    """On any heap: State refuses by 1 or 2, else it tells exactly the sets that
    facts.py states, and by them the refusal of Read, for every number."""
    rng = random.Random(15)
    told = {}
    for _ in range(6000):
        h = draw.small_heap(rng, 4) if draw.chance(rng, 0.8) else draw.reached_heaps(rng, 1)[0]
        if draw.chance(rng, 0.4):
            draw.damage(rng, h)
        before = machine.copy(h)
        for number in (0, 1, *range(2, len(h.colours) + 3), 4294967295):
            no, state, units = states.state(h, number)
            told[no, state] = told.get((no, state), 0) + 1
            wanted = told_by_facts(h, number)
            need((no, state, units) == wanted,
                 f"State of {number} is {no} {state} {units}, by facts {wanted}", h)
            if not no and number in facts.blocks(h):
                refusal = {states.DOOMED: 5, states.IS_FREE: 5, states.OUTSIDE: 8}.get(state, 0)
                equal(machine.read(h, number, 0)[0], refusal, f"Read of {number} in state {state}")
        need(h == before, "State changes the heap", before, h)
    for wanted in ((1, 0), (2, 0), *((0, state) for state in range(1, 7))):
        need(told.get(wanted, 0) > 200, f"State answers {wanted} only {told.get(wanted, 0)} times")
    return f"{sum(told.values())} numbers"


def told_by_facts(h, number):
    """The answer of State in the words of facts.py."""
    if not facts.lengths_M_and_U_fit(h):
        return 1, 0, 0
    if not facts.registers_are_legal(h):
        return 2, 0, 0
    if number in facts.doomed(h):
        return 0, states.DOOMED, 0
    if number in facts.allocated(h):
        if facts.grey(h, number):
            return 0, states.IS_GREY, 0
        white = facts.colour_of(h, number) == WHITE
        return 0, states.LIVE_WHITE if white else states.IS_BLACK, 0
    if number in facts.blocks(h) and facts.colour_of(h, number) == FREE:
        return 0, states.IS_FREE, 0
    return 0, states.OUTSIDE, 0


def leaves_its_units(before, h, letter, answer):
    """A refusal has value 0 and changes nothing, except that in Work and
    Allocate the units finished before it stand and are counted."""
    watched = machine.copy(before)
    for _ in range(answer[2] if letter in "AW" else 0):
        need(machine.unit(watched), f"a unit was counted and not done: {letter}", before)
    need(answer[1] == 0 and watched == h, f"{letter} {answer} leaves more than its units",
         before, h)


def damaged_heaps():
    """Any heap: every call ends, keeps the lengths, and a refusal leaves only
    its units; the audit says exactly what well-formed says; Look is empty
    exactly when Read of word 0 refuses."""
    rng = random.Random(14)
    answers = {}
    for _ in range(700):
        for line in draw.twenty_cases(rng):
            case = probe.case_of(line)
            if case is None:
                continue
            letter, numbers, h = case
            before = machine.copy(h)
            answer = probe.three_numbers(h, letter, numbers)
            need((len(h.words), len(h.colours), len(h.bytes))
                 == (len(before.words), len(before.colours), len(before.bytes)),
                 f"{letter} changes a length", before, h)
            need(all(0 <= n <= 4294967295 for n in
                     [*machine.registers(h), *h.words, *h.colours, *answer]),
                 f"{letter} leaves 32 bits", before, h)
            if letter in "FRNSTAW" and answer[0]:
                leaves_its_units(before, h, letter, answer)
            if letter in "RLC":
                need(h == before, f"{letter} changes the heap", before, h)
            if letter == "L":
                refused = machine.read(before, numbers[0], 0)[0] != 0
                need((answer[0] == 0) == refused, "Look and Read differ", before)
            need(machine.audit(before)[1] == int(facts.well_formed(before)),
                 "the audit and well-formed differ", before)
            answers[letter, answer[0]] = answers.get((letter, answer[0]), 0) + 1
    return f"{sum(answers.values())} cases, {len(answers)} kinds of answer"


# ------------------------------------------------------------------ all of it

TESTS = [hand_checked_cases, what_cases_5_to_8_showed, small_reports, cycles_without_a_sweep,
         takes_and_the_mark, the_listing, rules_of_lines, cases_by_hand, exports_by_hand,
         states_by_hand, states_and_facts, damaged_heaps, drawn_heaps, long_runs, room_enough,
         room_enough_exhaustive]


def main(tests):
    failed = 0
    for test in tests:
        start = time.time()
        name = test.__name__.replace("_", " ")
        try:
            found = test()
            print(f"ok      {name}: {found} ({time.time() - start:.1f} s)")
        except AssertionError as error:
            failed += 1
            print(f"FAILED  {name}: {error}")
    print(f"{len(tests) - failed} passed, {failed} failed")
    return 1 if failed else 0


if __name__ == "__main__":
    sys.exit(main(TESTS))
