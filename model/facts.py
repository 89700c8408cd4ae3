"""What document 01 says a heap is: allocated, doomed, reachable, well-formed;
and what document 02's request L7 says of the mark.

Nothing here is taken from machine.py. Each function states a sentence of the
papers; none of them changes the heap.
"""

WHITE, BLACK, FREE = 0, 4294967295, 4294967294
IDLE, MARKING, SWEEPING = 0, 1, 2


def blocks(h):
    """Block numbers run from 2 to M + 1."""
    return range(2, h.M + 2)


def at_or_below_the_mark(h):
    """Those that the sweep visits; a cycle's H is how many they are at its end."""
    return range(2, h.mark + 1)


def colour_of(h, b):
    return h.colours[b - 2]


def words_of(h, b):
    return h.words[8 * (b - 2):8 * (b - 2) + 8]


def references(h, b):
    """The values of the words whose bit is set in the block's byte."""
    return [value for w, value in enumerate(words_of(h, b)) if h.bytes[b - 2] & 2**w]


def grey(h, b):
    """1 or a block number means grey."""
    return colour_of(h, b) == 1 or colour_of(h, b) in blocks(h)


def allocated(h):
    """The blocks whose colour is legal and not free."""
    return {b for b in blocks(h) if colour_of(h, b) in (WHITE, BLACK) or grey(h, b)}


def doomed(h):
    """The white blocks whose number is at least the position, while sweeping."""
    if h.phase != SWEEPING:
        return set()
    return {b for b in blocks(h) if b >= h.position and colour_of(h, b) == WHITE}


def reachable(h):
    """A block is reachable if it is the root or if a reference word of a
    reachable block names it."""
    found = set()
    new = {h.root}
    while new:
        new = {b for b in new if b in blocks(h)} - found
        found |= new
        new = {value for b in new for value in references(h, b)}
    return found


def list_from(head, link, end):
    """The list that starts at head and follows the links, or None if it
    does not come to its end."""
    found = []
    while head != end:
        if head not in link or head in found:
            return None
        found.append(head)
        head = link[head]
    return found


# ------------------------------------------------------------ well-formed

def lengths_M_and_U_fit(h):
    return (h.M in range(1, 16385) and h.U in range(0, 65536)
            and (len(h.words), len(h.colours), len(h.bytes)) == (8 * h.M, h.M, h.M))


def registers_are_legal(h):
    none_or_block = [0, *blocks(h)]
    return (h.phase in (IDLE, MARKING, SWEEPING)
            and h.grey_head in ([1, *blocks(h)] if h.phase == MARKING else [1])
            and h.free_head in none_or_block and h.root in none_or_block
            and h.free_count in range(h.M + 1)
            and h.mark in [1, *blocks(h)]
            and h.position in (at_or_below_the_mark(h) if h.phase == SWEEPING else [0]))


def colours_are_legal(h):
    return all(c in (WHITE, BLACK, FREE) or 1 <= c <= h.M + 1 for c in h.colours)


def grey_list_ends_and_has_exactly_the_grey_blocks(h):
    link = {b: colour_of(h, b) for b in blocks(h) if grey(h, b)}
    found = list_from(h.grey_head, link, 1)
    return found is not None and set(found) == set(link)


def free_list_ends_and_has_exactly_the_free_blocks(h):
    link = {b: words_of(h, b)[0] for b in blocks(h) if colour_of(h, b) == FREE}
    found = list_from(h.free_head, link, 0)
    return found is not None and set(found) == set(link) and len(link) == h.free_count


def free_blocks_are_laid_out(h):
    """A free block has reference byte 0, its words 1 to 7 are 0."""
    return all(h.bytes[b - 2] == 0 and words_of(h, b)[1:] == [0] * 7
               for b in blocks(h) if colour_of(h, b) == FREE)


def blocks_above_the_mark_are_free(h):
    return all(colour_of(h, b) == FREE for b in blocks(h) if b > h.mark)


def nothing_is_grey_outside_marking(h):
    return h.phase == MARKING or (
        h.grey_head == 1 and not any(grey(h, b) for b in blocks(h)))


def no_block_is_black_when_idle(h):
    return h.phase != IDLE or BLACK not in h.colours


def no_block_below_the_position_is_black_while_sweeping(h):
    return h.phase != SWEEPING or all(
        colour_of(h, b) != BLACK for b in blocks(h) if b < h.position)


def root_is_not_white_while_marking(h):
    return h.phase != MARKING or h.root == 0 or colour_of(h, h.root) != WHITE


def no_black_block_names_a_white_one_while_marking(h):
    return h.phase != MARKING or not any(
        value in blocks(h) and colour_of(h, value) == WHITE
        for b in blocks(h) if colour_of(h, b) == BLACK for value in references(h, b))


def root_is_0_or_allocated_and_not_doomed(h):
    return h.root in {0} | allocated(h) - doomed(h)


def references_are_0_or_allocated_and_not_doomed(h):
    """Every reference in an allocated block that isn't doomed is 0 or names
    such a block. References of doomed blocks are free to be anything."""
    good = allocated(h) - doomed(h)
    return all(value == 0 or value in good for b in good for value in references(h, b))


RULES = [
    lengths_M_and_U_fit,
    registers_are_legal,
    colours_are_legal,
    grey_list_ends_and_has_exactly_the_grey_blocks,
    free_list_ends_and_has_exactly_the_free_blocks,
    free_blocks_are_laid_out,
    blocks_above_the_mark_are_free,
    nothing_is_grey_outside_marking,
    no_block_is_black_when_idle,
    no_block_below_the_position_is_black_while_sweeping,
    root_is_not_white_while_marking,
    no_black_block_names_a_white_one_while_marking,
    root_is_0_or_allocated_and_not_doomed,
    references_are_0_or_allocated_and_not_doomed,
]


def well_formed(h):
    """All the rules; a later one is asked only where the earlier ones hold."""
    return all(rule(h) for rule in RULES)


# ------------------------------------------------------------ demand 3

def N(M, U):
    """(2M + 2)/U rounded up."""
    return -((2 * M + 2) // -U)


def has_room(M, U, K):
    """Demand 3's premise on the numbers: U at least 1, K + 2N at most M."""
    return U >= 1 and K + 2 * N(M, U) <= M


# ------------------------------------------------------- demand 3, sharper

def short_N(K, P, U):
    """(K + P + 2)/U rounded up: a cycle marks K blocks at most, not M."""
    return -((K + P + 2) // -U)


def is_enough(P, U, K, B=1):
    """The sharper rule: U at least 1, K + 2N' + B - 1 at most P."""
    return U >= 1 and K + 2 * short_N(K, P, U) + B - 1 <= P


def least_blocks(U, K, B=1):
    """The least P from 1 to 16,384 that is enough, or 0."""
    return next((P for P in range(1, 16385) if is_enough(P, U, K, B)), 0)
