"""Tests of the calls on chained objects against document 02's request L1 and the
demands: python3 model/check_chains.py, as model/check.py.
"""

import itertools
import random
import sys

import chain_cases
import chains
import check
import draw
import draw_chains
import export_cases
import exports
import facts
import lines
import machine
from check import equal, formatted, need
from machine import BLACK, FREE, WHITE


# ------------------------------------------------------------ worked by hand

def words_7(h):
    return h.words[7::8]


def rows_of_20_fields():
    """Six blocks at pace 1. Three units: a cycle begins, the turn ends it, since
    nothing was handed out; the next begins. So 2, 3, 4 are black, and the mark is 4.
    Two more turn and sweep 2; 5 and 6 are then black. Then one block is free, and
    two more sweep 3 and 4: the sweep goes on to 6, the mark by now."""
    h = formatted(6, 1)
    equal(chains.allocate_chain(h, 0, 0, 3), (0, 2, 3), "a chain of three")
    equal((h.root, h.free_head, h.free_count, h.phase, h.position), (2, 5, 3, 1, 0), "registers")
    equal((h.cycle, h.mark), (2, 4), "cycle and mark")
    equal(h.colours, [BLACK, BLACK, BLACK, FREE, FREE, FREE], "colours")
    equal(h.words[0::8], [0, 0, 0, 6, 7, 0], "words 0")
    equal(words_7(h), [3, 4, 0, 0, 0, 0], "words 7")
    equal(h.bytes, [128, 128, 128, 0, 0, 0], "bits 7")
    equal(chains.read_field(h, 2, 20), (0, 0, 0, False), "the last field")
    equal(chains.read_field(h, 2, 21), (3, 0, 0, False), "no field 21")
    equal(chains.store_field_number(h, 2, 20, 99), (0, 0, 0), "a number in field 20")
    equal(machine.read(h, 4, 6), (0, 99, 0, False), "it is word 6 of block 4")
    equal(chains.store_field_reference(h, 2, 7, 4), (0, 0, 0), "a reference in field 7")
    equal((machine.read(h, 3, 0), h.bytes[1]), ((0, 4, 0, True), 129), "it is word 0 of block 3")
    equal(chains.allocate_chain(h, 3, 1, 2), (0, 5, 2), "a chain held by field 8")
    equal((h.colours[:5], words_7(h)[3:5]), ([WHITE] + [BLACK] * 4, [6, 0]), "its blocks")
    equal((h.phase, h.position, h.mark), (2, 3, 6), "position and mark")
    equal(h.bytes[1], 131, "the bits of its holder")
    equal(chains.read_field(h, 2, 8), (0, 5, 0, True), "field 8")
    before = machine.copy(h)
    equal(chains.allocate_chain(h, 2, 0, 2), (7, 0, 2), "one block is free")
    machine.work(before, 2)
    need(before == h, "a refused chain leaves more than its units", before, h)
    equal((h.phase, h.position, h.mark), (2, 5, 6), "the sweep goes on")
    equal(machine.audit(h), (0, 1, 0), "well-formed")
    return "as worked out"


def marking_and_pace_0():
    """Six blocks at pace 0. Six free: 2 units a block, six for three: three cycles
    that have nothing to sweep; 2, 3, 4 are taken while idle, so they are white.
    Three free: 4 units a block, eight for two: a cycle begins, 2, 3, 4 are marked,
    the turn, 2, 3, 4 are swept, which ends it; 5 and 6 are white too."""
    h = formatted(6, 0)
    equal(chains.allocate_chain(h, 0, 0, 3), (0, 2, 6), "six free")
    equal((h.phase, h.cycle, h.mark, h.colours[:3]), (0, 3, 4, [WHITE] * 3), "idle")
    equal(chains.allocate_chain(h, 4, 0, 2), (0, 5, 8), "three free")
    equal((h.phase, h.position, h.cycle, h.mark), (0, 0, 4, 6), "registers")
    equal(h.colours, [WHITE] * 5 + [FREE], "colours")
    h = chain_cases.marking()
    equal(chains.store_field_reference(h, 2, 1, 4), (0, 0, 0), "a white target")
    equal((h.colours[:3], h.grey_head), ([BLACK, 1, 3], 4), "it is greyed first")
    equal((h.words[1], h.bytes[0]), (4, 130), "and then stored")
    h = chain_cases.dropped()
    equal(chains.allocate_chain(h, 0, 0, 3), (0, 2, 3), "a block just freed")
    equal(h.colours, [WHITE, WHITE, BLACK, BLACK, FREE, FREE], "2, 4, 5: colours")
    equal(words_7(h)[:4], [4, 0, 5, 0], "2, 4, 5: words 7")
    return "as worked out"


def cases_by_hand():
    """Each clause; a refusal leaves its units and nothing else."""
    count = 0
    for clause, name, numbers, h, wanted in chain_cases.cases():
        before = machine.copy(h)
        got = getattr(chains, name)(h, *numbers)
        need(got == wanted, f"{clause}: {name} {numbers} gives {got}, wanted {wanted}", before)
        if got[0]:
            leaves_its_units(before, h, got, name)
        count += 1
    return f"{count} cases"


def exports_by_hand():
    """Each clause; of the buffer exactly the rows counted are written, and nothing
    of a row that stopped midway. The heap stays as it was."""
    count = 0
    for clause, h, room, start, fields, link, rows, reason, refusal in export_cases.cases():
        what = f"{clause}: start {start}, fields {fields}, link {link}, room {room}"
        before, out = machine.copy(h), [7777] * room
        wanted = (int(reason == exports.COMPLETE), len(rows), reason, refusal)
        equal(exports.export_objects(h, out, start, fields, link), wanted, what)
        written = [word for row in rows for word in row_of(before, row)[:fields]]
        equal(out, written + [7777] * (room - len(written)), what)
        need(h == before, f"{what}: the heap is changed", before, h)
        count += 1
    return f"{count} cases"


def row_of(h, blocks):
    """The fields in these blocks."""
    return [word for b in blocks for word in h.words[8 * (b - 2):8 * (b - 2) + 7]]


def leaves_its_units(before, h, answer, what):
    watched = machine.copy(before)
    for _ in range(answer[2]):
        need(machine.unit(watched), f"a unit was counted and not done: {what}", before)
    need(answer[1] == 0 and watched == h, f"{what} {answer} leaves more than its units", before, h)


# ------------------------------------------------- watched calls, demand 2

def object_of(h, first, most=256):
    """The first blocks of an object, by facts alone."""
    found = [first]
    while len(found) < most and h.bytes[found[-1] - 2] & 128 and facts.words_of(h, found[-1])[7]:
        found.append(facts.words_of(h, found[-1])[7])
    return found


def watched_chain(h, block, word, n, log):
    """Allocate chain on a well-formed heap: all n or none, and what is fresh."""
    before = machine.copy(h)
    what = f"allocate chain {block} {word} {n}"
    no, value, units = chains.allocate_chain(h, block, word, n)
    each = before.U or 2 * -(-before.M // max(before.free_count, 1))
    need(units == (0 if no == 3 else n * each), f"{units} units: {what}", before)
    watched = machine.copy(before)
    check.watched_units(watched, units, log)
    if no:
        need(watched == h, f"more than its units changed: {what}", before, h)
        need(no in (3, 5, 7), f"{no}: {what}", before, h)
        usable = facts.allocated(watched) - facts.doomed(watched)
        need(no != 5 or block not in usable, f"5: {what}", before)
        need(no != 7 or watched.free_count < n, f"7 and enough are free: {what}", before, h)
        return
    taken = object_of(h, value)
    need(len(taken) == n == len(set(taken)), f"not n blocks: {what}", before, h)
    new = facts.allocated(h) - facts.allocated(watched)
    need(new == set(taken), f"other blocks: {what}", before, h)
    need(h.free_count == watched.free_count - n, f"the count: {what}", before, h)
    need(h.mark == max(before.mark, *taken), f"the mark: {what}", before, h)
    for k in range(7 * n + 2):
        wanted = (0, 0, 0, False) if k < 7 * n else (3, 0, 0, False)
        equal(chains.read_field(h, value, k), wanted, f"a fresh field {k}: {what}")
    held = facts.reachable(watched)
    for b in held - {block}:
        need(check.same_block(watched, h, b), f"block {b} changed by {what}", before, h)
    if block:
        check.only_that_word(watched, h, block, word, what)
        need(h.root == watched.root, f"the root: {what}", before, h)
        equal(machine.read(h, block, word)[1], value, f"the holder: {what}")


def watched_store(h, name, block, k, x):
    """A store of a field: it reads back; other words stay."""
    before = machine.copy(h)
    what = f"{name} {block} {k} {x}"
    no = getattr(chains, name)(h, block, k, x)[0]
    if no:
        need(h == before, f"a refused {what} changes something", before, h)
        need(no != 3 or chains.read_field(h, block, k)[0] == 3, what, h)
        return
    at = object_of(before, block)[k // 7]
    equal(chains.read_field(h, block, k)[1::2], (x, name == "store_field_reference"), what)
    for b in facts.allocated(before):
        if b == at:
            check.only_that_word(before, h, b, k % 7, what)
        else:
            need(check.same_block(before, h, b), f"block {b} changed by {what}", before, h)


def watched_call(h, name, numbers, log):
    """One call, old or new, with all that demand 2 says of it."""
    before = machine.copy(h)
    held = facts.reachable(h)
    if name == "allocate_chain":
        watched_chain(h, *numbers, log)
    elif name == "read_field":
        no = chains.read_field(h, *numbers)[0]
        need(h == before and no in (0, 3, 5), f"read field {numbers} answers {no}", before, h)
    elif name in ("store_field_number", "store_field_reference"):
        if name == "store_field_reference" and numbers[-1] not in {0} | held and log:
            log["tame"] = False
        watched_store(h, name, *numbers)
    else:
        check.watched_call(h, name, numbers, log)
    need(facts.well_formed(h), f"not well-formed after {name} {numbers}", before, h)
    equal(machine.audit(h), (0, 1, 0), f"the audit after {name} {numbers}")
    for b in held:
        need(h.colours[b - 2] != FREE, f"reachable block {b} freed by {name} {numbers}", before, h)


def sessions():
    """Random sessions with chains of up to 9 blocks, in all phases."""
    rng = random.Random(21)
    done, log = 0, {}
    for _ in range(60):
        h, log = formatted(*draw_chains.sizes(rng)), {}
        for _ in range(60):
            name, numbers = draw_chains.call(rng, h, tame=draw.chance(rng, 0.5))
            watched_call(h, name, numbers, log)
            done += 1
    return f"{done} calls"


def long_objects():
    """A row of 256 blocks: each of its 1,792 fields is its own."""
    h = formatted(600, 1)
    equal(chains.allocate_chain(h, 0, 0, 256), (0, 2, 256), "256 blocks")
    for k in range(1792):
        equal(chains.store_field_number(h, 2, k, k + 1), (0, 0, 0), f"field {k}")
    equal([chains.read_field(h, 2, k)[1] for k in range(1792)], [*range(1, 1793)], "all fields")
    equal(chains.read_field(h, 2, 1792), (3, 0, 0, False), "no more")
    equal(chains.allocate_chain(h, 2, 0, 256)[0], 0, "a second row held by field 0")
    equal(chains.allocate_chain(h, 2, 1, 256)[0], 7, "no third")
    machine.store_number(h, 2, 0, 0)
    machine.work(h, 2 * (2 * 600 + 2))
    equal((machine.audit(h)[1], h.free_count), (1, 600 - 256), "the second row is freed")
    return "1,792 fields"


# ------------------------------------------------------------------ demand 3

def two_forms():
    """Document 02's form, N + B - 1 for N, asks for more than K + 2N + B - 1."""
    count = 0
    for M, U, B in itertools.product(range(1, 31), range(1, 64, 3), (1, 2, 3, 10)):
        N = facts.N(M, U)
        for K in range(M + 1):
            written = facts.has_room(M, U, K + 2 * (B - 1))     # K + 2(N + B - 1) <= M
            need(not written or chains.has_room(N, M, K, B), f"M {M}, U {U}, K {K}, B {B}")
            need(B > 1 or written == chains.has_room(N, M, K, B), f"B is 1: M {M}, U {U}, K {K}")
            count += written
    need(count > 0, "the form is never met")
    return f"{count} heaps"


def room_enough():
    """No chain of at most B blocks is refused for want of room where K + 2N +
    B - 1 is at most M; and M - K - 2N - (B - 1) blocks stay free."""
    rng = random.Random(23)
    allocations, refused, least = 0, 0, 10**9
    for _ in range(250):
        M = draw.between(rng, 6, 30)
        U = draw.one_of(rng, [2 * M + 2, 2 * M + 1, M + 1, M, 3 * M, 5, 6, 8])
        B = draw.one_of(rng, [2, 2, 3, 4, 5])
        K = M - 2 * facts.N(M, U) - (B - 1)
        if K < B:
            continue
        need(chains.has_room(facts.N(M, U), M, K, B), "the premise doesn't hold")
        h, greed = formatted(M, U), rng.random()
        for _ in range(100):
            before = machine.copy(h)
            name, numbers = greedy_call(rng, h, K, B, greed)
            no = (chains.allocate_chain(h, *numbers) if name == "allocate_chain"
                  else lines.answer_of(h, name, numbers))[0]
            what = f"M {M}, U {U}, K {K}, B {B}: {name} {numbers}"
            need(no in (0, 5), f"refusal {no}, {what}", before)
            need(len(facts.reachable(h)) <= K, "the run broke its own premise", before, h)
            need(h.free_count >= M - K - 2 * facts.N(M, U) - (B - 1), "the margin", before, h)
            least = min(least, h.free_count)
            allocations += name == "allocate_chain"
    for _ in range(40):         # with the whole heap to hold
        h = formatted(7, 3)
        for _ in range(40):
            name, numbers = greedy_call(rng, h, 7, 3, 0.5)
            refused += (chains.allocate_chain(h, *numbers) if name == "allocate_chain"
                        else lines.answer_of(h, name, numbers))[0] == 7
    need(refused > 0, "the runs cannot be refused even without the premise")
    need(allocations > 3000, f"only {allocations} chains")
    return f"{allocations} chains, least room left {least}"


def no_better_rule():
    """With U = 2M + 2, so that N is 1: sessions that hold as many blocks as the
    rule allows leave none free, and with one more some chain is refused by 7."""
    for M, B in [(8, 2), (10, 3), (12, 4)]:
        K = M - 2 - (B - 1)
        full = any(0 in greedy_session(seed, M, K, B)[0] for seed in range(60))
        need(full, f"M {M}, B {B}: a block is always free")
        refused = any(7 in greedy_session(seed, M, K + 1, B)[1] for seed in range(120))
        need(refused, f"M {M}, B {B}: never refused with K + 1")
    return "M of 8, 10 and 12"


def greedy_session(seed, M, K, B):
    """The free counts after 80 calls at pace 2M + 2, and their refusals."""
    rng = random.Random(seed)
    h, greed = formatted(M, 2 * M + 2), rng.random()
    counts, refusals = set(), set()
    for _ in range(80):
        name, numbers = greedy_call(rng, h, K, B, greed)
        refusals.add((chains.allocate_chain(h, *numbers) if name == "allocate_chain"
                      else lines.answer_of(h, name, numbers))[0])
        counts.add(h.free_count)
    return counts, refusals


def greedy_call(rng, h, K, B, greed):
    """A chain where what is reachable then stays within K, else letting go."""
    held = len(facts.reachable(h))
    n = draw.between(rng, 1, B)
    if h.root == 0 or (held + n <= K and draw.chance(rng, 0.7)):
        last = draw.reachable_block(rng, h)
        word = draw.below(rng, 7)
        target = machine.get_word(h, last, word) if last else 0
        return "allocate_chain", [last, word if last else 0, n] if target == 0 else [last, word, 1]
    if draw.chance(rng, greed) and n <= K:
        return "allocate_chain", [0, 0, n]
    return draw.one_of(rng, [("T", [0]), ("S", [draw.reachable_block(rng, h), 0, 0]),
                             ("S", [draw.reachable_block(rng, h), 7, 0])])


# ------------------------------------------------------------- damaged heaps

def as_for_blocks(before, name, numbers):
    """What document 01's calls answer and leave, where they say the same: an
    object of one block is Allocate's with the null reference in word 7, and a
    field below 7 is a word. Else None."""
    h = machine.copy(before)
    if name == "allocate_chain" and numbers[2] == 1:
        answer = machine.allocate(h, *numbers[:2])
        if answer[0] == 0:
            machine.store_reference(h, answer[1], 7, 0)
        return answer, h
    if name != "allocate_chain" and numbers[1] < 7:
        return getattr(machine, name.replace("field_", "").replace("_field", ""))(h, *numbers), h
    return None


def damaged_heaps():
    """Any heap: every call ends and keeps the lengths; a refusal leaves only
    its units; every answer that a call can give is met. One block and its words
    are as in document 01."""
    rng = random.Random(24)
    met, alike = {}, 0
    for _ in range(6000):
        name, numbers, h = draw_chains.case(rng)
        before = machine.copy(h)
        answer = getattr(chains, name)(h, *numbers)
        lengths = [(len(x.words), len(x.colours), len(x.bytes)) for x in (before, h)]
        need(lengths[0] == lengths[1], f"{name} changes a length", before, h)
        if answer[0]:
            leaves_its_units(before, h, answer, name)
        if name == "read_field":
            need(h == before, "read field changes the heap", before, h)
        as_blocks = as_for_blocks(before, name, numbers)
        if as_blocks:
            need(as_blocks == (answer, h), f"{name} {numbers} is not as for a block", before, h)
            alike += 1
        met[name, answer[0]] = met.get((name, answer[0]), 0) + 1
    missing = [pair for name, answers in draw_chains.ANSWERS.items()
               for pair in [(name, no) for no in answers] if pair not in met]
    need(not missing, f"never answered: {missing}")
    return f"{sum(met.values())} cases, {len(met)} kinds of answer, {alike} as for a block"


def drawn_exports():
    """Any heap: an export ends, leaves the heap, and writes exactly the rows that it
    counts; these are the objects that a walk by facts alone finds, to the list's end where
    it is complete; each reason and each refusal is met."""
    rng = random.Random(25)
    met, whole = {}, 0
    for _ in range(6000):
        (start, fields, link), h, out = draw_chains.export_case(rng)
        before, wanted = machine.copy(h), list(out)
        complete, rows, reason, refusal = exports.export_objects(h, out, start, fields, link)
        need(h == before, "an export changes the heap", before, h)
        need(complete == (reason == exports.COMPLETE), f"complete {complete}, reason {reason}", h)
        need((refusal != 0) == (reason == exports.REFUSED), f"reason {reason}, refusal {refusal}", h)
        need(rows <= h.M and fields * rows <= len(out), f"{rows} rows", h)
        equal(out[fields * rows:], wanted[fields * rows:], "what is behind the rows")
        at = start
        for n in range(rows):
            row = row_of(h, object_of(h, at, (fields + 6) // 7))[:fields]
            equal(out[fields * n:fields * n + fields], row, f"row {n} of {h}")
            at = row[link]
        need(not complete or at == 0, "complete and the list goes on", h)
        whole += complete and rows > 1
        met[reason, refusal] = met.get((reason, refusal), 0) + 1
    missing = {*draw_chains.EXPORT_ANSWERS} - {*met}
    need(not missing, f"never answered: {missing}")
    need(whole > 500, f"only {whole} lists of more than one row")
    return f"{sum(met.values())} cases, {len(met)} kinds of answer, {whole} lists of several rows"


TESTS = [rows_of_20_fields, marking_and_pace_0, cases_by_hand, exports_by_hand, sessions,
         long_objects, two_forms, room_enough, no_better_rule, damaged_heaps, drawn_exports]

if __name__ == "__main__":
    sys.exit(check.main(TESTS))
