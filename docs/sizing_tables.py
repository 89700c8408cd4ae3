"""The two rules of docs/SIZING.md, and every table and sum on that page.

    python3 -B docs/sizing_tables.py          prints them
    python3 -B docs/sizing_tables.py check    1 if one isn't on the page as printed,
                                              or docs/sizing.svg isn't what is drawn

Python's own library only. The pieces are in the order of the page.
"""

import os
import sys

LARGEST = 16384             # the heap's largest M
BLOCK_BYTES = 37            # lent for a block: 32 words' bytes, 4 of its colour, 1 of references
PACES = [3, 4, 5, 6, 8, 10, 12, 16, 20, 30, 50, 100]
HELD = [1, 10, 100, 614, 1000, 2000, 4000, 6144, 8000, 12000, 15000]


# ------------------------------------------------------------------- the rules

def up(n, d):
    """n/d rounded up."""
    return -(n // -d)


def short_N(K, P, U):
    """N' of the sharper rule."""
    return up(K + P + 2, U)


def least(K, U, B=1):
    """The least P with K + 2N' + B - 1 at most P, or None up to 16,384. The sum
    never falls when P rises, so putting it for P again and again, from K on,
    stops at the least."""
    P = K
    while P <= LARGEST:
        total = K + 2 * short_N(K, P, U) + B - 1
        if total <= P:
            return P
        P = total
    return None


def N(M, U):
    """N of document 01's rule."""
    return up(2 * M + 2, U)


def smallest(K, U, B=1):
    """The smallest M with K + 2N + B - 1 at most M, or None up to 16,384."""
    M = K
    while M <= LARGEST:
        total = K + 2 * N(M, U) + B - 1
        if total <= M:
            return M
        M = total
    return None


def largest_held(rule, U, B=1):
    """The largest K for which the rule finds a heap, or None."""
    low, high = 0, LARGEST
    while low < high:
        middle = (low + high + 1) // 2
        low, high = (middle, high) if rule(middle, U, B) else (low, middle - 1)
    return low or None


# ------------------------------------------------------------------ the tables

def cell(number):
    return "none" if number is None else f"{number:,}"


def table(heads, rows, align=None):
    marks = align or ["---:"] * len(heads)
    lines = ["| " + " | ".join(heads) + " |", "|" + "|".join(marks) + "|"]
    return "\n".join(lines + ["| " + " | ".join(row) + " |" for row in rows])


def by_pace(rule):
    return table(["K", *(f"U = {U}" for U in PACES)],
                 [[cell(K), *(cell(rule(K, U)) for U in PACES)] for K in HELD])


def ratio(top, bottom):
    return f"{top / bottom:.2f}" if bottom > 0 else "none"


def ratios():
    return table(["U", *map(str, PACES)],
                 [["P/K, sharper", *(ratio(U + 2, U - 2) for U in PACES)],
                  ["M/K, document 01", *(ratio(U, U - 4) for U in PACES)]],
                 ["---"] + ["---:"] * len(PACES))


def largest_heap():
    return table(["U", *map(str, PACES)],
                 [["largest K, sharper", *(cell(largest_held(least, U)) for U in PACES)],
                  ["largest K, document 01", *(cell(largest_held(smallest, U)) for U in PACES)]],
                 ["---"] + ["---:"] * len(PACES))


def night(K, B, paces):
    """A night: both rules, the memory lent, and the units of one allocation."""
    rows = []
    for U in paces:
        P, M = least(K, U, B), smallest(K, U, B)
        rows.append([str(U), cell(P), cell(short_N(K, P, U)) if P else "",
                     cell(BLOCK_BYTES * P) if P else "", cell(M),
                     cell(BLOCK_BYTES * M) if M else "", cell(B * U)])
    return table(["U", "least P", "N'", "bytes lent", "document 01's M", "bytes lent",
                  "units for a row"], rows)


def objects():
    """Rows of B blocks, so many of them held at once."""
    paces = [4, 5, 6, 8, 10, 16, 20, 50, 100]
    rows = [[str(B), cell(held), cell(held * B), *(cell(least(held * B, U, B)) for U in paces)]
            for B, counts in [(2, [100, 1000, 3072]), (10, [10, 100, 600]), (256, [1, 4, 16, 24, 32])]
            for held in counts]
    return table(["B", "rows held", "K", *(f"U = {U}" for U in paces)], rows)


# ------------------------------------------------------------ sums in sentences

def by_hand(K, U, B=1):
    """The steps from K to the least P."""
    steps, P = [K], least(K, U, B)
    while steps[-1] != P:
        steps.append(K + 2 * short_N(K, steps[-1], U) + B - 1)
    return ", ".join(cell(step) for step in steps)


def least_held(most, U, B=1):
    """The least K with which so many blocks can have been allocated at once."""
    return next(K for K in range(1, most + 1) if (least(K, U, B) or LARGEST) >= most)


def first_pace(rule, K, B=1):
    return next(U for U in range(1, 65536) if rule(K, U, B))


def sums():
    yield f"For K = 100 and U = 5 the steps are {by_hand(100, 5)}."
    P = least(100, 5)
    yield (f"N' is (100 + {P} + 2)/5 rounded up, {short_N(100, P, 5)}, "
           f"and 100 + 2 · {short_N(100, P, 5)} is {P}.")
    yield f"Document 01's rule asks for {smallest(100, 5)}."
    yield (f"U = {first_pace(least, 6144)} is the smallest that suffices by the sharper rule, "
           f"{first_pace(smallest, 6144)} by document 01's.")
    yield (f"U = {first_pace(least, 12289)} is the smallest that suffices by the sharper rule, "
           f"{first_pace(smallest, 12289)} by document 01's.")
    yield (f"U = {first_pace(least, 6000, 10)} is the smallest that suffices by the sharper rule, "
           f"{first_pace(smallest, 6000, 10)} by document 01's.")
    K, B = 14003, 2
    U, V = first_pace(least, K, B), first_pace(smallest, K, B)
    yield f"U = {U} is the smallest that suffices by the sharper rule, {V} by document 01's."
    yield (f"at U = {V} at least {LARGEST - K - 2 * N(LARGEST, V) - (B - 1)} blocks are free after "
           f"every call by document 01's rule, and {LARGEST - least(K, V, B)} by the sharper one")
    held = largest_held(lambda rows, U, B: least(256 * rows, U, B), 20, 256)
    yield f"Of rows of 256 blocks the largest heap carries {held} at U = 20"
    yield f"document 01's rule allows {largest_held(lambda rows, U, B: smallest(256 * rows, U, B), 20, 256)}"
    yield f"K = 614 and U = 10 need P = {least(614, 10)}, and M = {smallest(614, 10):,} by document 01's rule"
    for U in [10, 100, 1000]:
        yield f"at U = {U:,} K is between {least_held(7000, U):,} and 7,000"
    U = 2 * (LARGEST - 2) + 4
    assert largest_held(least, U) == LARGEST - 2 and largest_held(least, U - 1) < LARGEST - 2
    yield f"For the largest heap that is U = {U:,}"


def pieces():
    yield by_pace(least)
    yield by_pace(smallest)
    yield ratios()
    yield largest_heap()
    yield night(6144, 1, [4, 5, 6, 7, 8, 10, 12, 16, 20, 50, 100])
    yield night(12289, 1, [13, 14, 15, 16, 17, 20, 30, 50, 100])
    yield objects()
    yield night(14003, 2, [25, 26, 27, 28, 30, 40, 50, 100])
    yield night(6000, 10, [4, 5, 6, 7, 8, 10, 16, 20, 50, 100])
    yield from sums()


def check():
    """Each piece stands on the page; the picture is the one drawn."""
    import sizing_plot
    here = os.path.dirname(os.path.abspath(__file__))
    with open(os.path.join(here, "SIZING.md"), encoding="utf-8") as file:
        page = file.read()
    bad = [piece for piece in pieces() if piece not in page]
    for piece in bad:
        print(f"not in docs/SIZING.md:\n{piece}")
    with open(os.path.join(here, "sizing.svg"), encoding="ascii") as file:
        if file.read() != sizing_plot.svg():
            bad.append("sizing.svg")
            print("docs/sizing.svg isn't what docs/sizing_plot.py draws")
    return 1 if bad else 0


if __name__ == "__main__":
    if sys.argv[1:] == ["check"]:
        sys.exit(check())
    print("\n\n".join(pieces()))
