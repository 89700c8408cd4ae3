"""The block machine of document 01: the heap, one unit of work, the calls; with
the mark of document 02's request L7.

A heap has ten registers and three lent buffers (words, colours, bytes).
All numbers are unsigned and fit 32 bits; the buffers may have any length.
Every call answers (refusal number or 0, value, units done); Read adds whether
the word is a reference, and Look answers a part of the word buffer.
"""

from types import SimpleNamespace

# "Colour words: 0 white; 4,294,967,295 black; 4,294,967,294 free;
#  1 or a block number means grey, the number being the next grey block."
WHITE = 0
BLACK = 4294967295
FREE = 4294967294

# "phase (0 idle, 1 marking, 2 sweeping)"
IDLE, MARKING, SWEEPING = 0, 1, 2

# "grey head (1 when none)": 1 ends the grey list, and 0 means no block.
GREY_END = 1
NO_BLOCK = 0

# "the highest block number handed out since format (the mark; 1 when none)".
# The mark is a register; marking is a phase. They have nothing to do with each
# other.
NONE_HANDED_OUT = 1

REGISTERS = ("M", "U", "phase", "grey_head", "free_head", "free_count",
             "position", "root", "cycle", "mark")


def heap(registers, words, colours, bytes_):
    """A heap of ten registers, in the order of REGISTERS, and three lists."""
    return SimpleNamespace(**dict(zip(REGISTERS, registers)),
                           words=words, colours=colours, bytes=bytes_)


def empty_heap(M):
    """Buffers that fit M, and registers of which nothing is known."""
    return heap([0] * len(REGISTERS), [0] * (8 * M), [0] * M, [0] * M)


def registers(h):
    return [getattr(h, name) for name in REGISTERS]


def copy(h):
    return heap(registers(h), list(h.words), list(h.colours), list(h.bytes))


# ---------------------------------------------------------------- the heap

def is_block(h, number):
    """Block numbers run from 2 to M + 1."""
    return 2 <= number <= h.M + 1


def get_word(h, block, word):
    return h.words[8 * (block - 2) + word]


def put_word(h, block, word, value):
    h.words[8 * (block - 2) + word] = value


def colour(h, block):
    return h.colours[block - 2]


def put_colour(h, block, value):
    h.colours[block - 2] = value


def is_reference(h, block, word):
    """Bit w of a block's byte is set when word w holds a reference."""
    return h.bytes[block - 2] >> word & 1 == 1


def put_bit(h, block, word, reference):
    byte = h.bytes[block - 2] & ~(1 << word)
    h.bytes[block - 2] = byte | (1 << word if reference else 0)


def is_grey(h, colour_word):
    return colour_word == GREY_END or is_block(h, colour_word)


def is_legal_colour(h, colour_word):
    return colour_word in (WHITE, BLACK, FREE) or is_grey(h, colour_word)


def allocated(h, block):
    """Allocated when its colour is legal and not free."""
    return is_legal_colour(h, colour(h, block)) and colour(h, block) != FREE


def doomed(h, block):
    """The phase is sweeping, its number is at least the position, it is white."""
    return h.phase == SWEEPING and block >= h.position and colour(h, block) == WHITE


def fits(h, M, U):
    """M blocks, 1 to 16,384; pace 0 to 65,535; buffers of exactly 8M, M, M."""
    return (1 <= M <= 16384 and U <= 65535 and len(h.words) == 8 * M
            and len(h.colours) == M and len(h.bytes) == M)


def registers_legal(h):
    """As document 01 says; and "2 also covers a mark outside 1 to M + 1, and a
    position above the mark while sweeping"."""
    none_or_block = lambda number: number == NO_BLOCK or is_block(h, number)
    return (h.phase <= 2
            and (h.grey_head == GREY_END
                 or h.phase == MARKING and is_block(h, h.grey_head))
            and none_or_block(h.free_head)
            and none_or_block(h.root)
            and h.free_count <= h.M
            and 1 <= h.mark <= h.M + 1
            and (2 <= h.position <= h.mark if h.phase == SWEEPING else h.position == 0))


# ------------------------------------------------- one unit of collector work
# A unit answers True when it is done. It answers False when it meets a colour
# or link outside the layout; it tests all of this before it writes.

def unit(h):
    if h.phase == IDLE:
        return start_cycle(h)
    if h.phase == MARKING and h.grey_head != GREY_END:
        return mark_block(h, h.grey_head)
    if h.phase == MARKING:
        return start_sweep(h)
    return sweep(h, h.position)


def grey(h, block):
    """Greying puts a block at the front of the list."""
    put_colour(h, block, h.grey_head)
    h.grey_head = block


def start_cycle(h):
    """Cycle number plus one, phase 1; a root that isn't 0 becomes grey."""
    if h.root != NO_BLOCK and colour(h, h.root) != WHITE:
        return False            # a root neither 0 nor white at a cycle's start
    h.cycle = (h.cycle + 1) % 2**32     # from 4,294,967,295 back to 0
    h.phase = MARKING
    if h.root != NO_BLOCK:
        grey(h, h.root)
    return True


def mark_block(h, block):
    """Take the first grey block, make it black, grey the white ones it names."""
    next_grey = colour(h, block)
    if not is_grey(h, next_grey):
        return False            # a grey head whose colour isn't grey
    named = [get_word(h, block, w) for w in range(8) if is_reference(h, block, w)]
    for target in named:
        if target != NO_BLOCK and not (is_block(h, target) and allocated(h, target)):
            return False        # a reference that isn't 0 or an allocated block
    h.grey_head = next_grey
    put_colour(h, block, BLACK)
    for target in named:
        if target != NO_BLOCK and colour(h, target) == WHITE:
            grey(h, target)
    return True


def start_sweep(h):
    """Marking, grey list empty: phase 2, position 2. "The sweep ends after that
    block, and straight away at the turn when there is none."."""
    if h.mark == NONE_HANDED_OUT:
        h.phase = IDLE
    else:
        h.phase = SWEEPING
        h.position = 2
    return True


def sweep(h, block):
    """White is freed, black becomes white, free stays; position plus one, and
    after the mark phase 0 and position 0."""
    found = colour(h, block)
    if found not in (WHITE, BLACK, FREE):
        return False            # a grey or illegal colour under the sweep
    if found == WHITE and h.free_count == h.M:
        return False            # free count already M when freeing
    if found == WHITE:
        free(h, block)
    if found == BLACK:
        put_colour(h, block, WHITE)
    h.position += 1
    if h.position > h.mark:
        h.phase = IDLE
        h.position = 0
    return True


def free(h, block):
    """Its eight words are written, its byte cleared, it goes to the front."""
    put_word(h, block, 0, h.free_head)
    for w in range(1, 8):
        put_word(h, block, w, 0)
    h.bytes[block - 2] = 0
    put_colour(h, block, FREE)
    h.free_head = block
    h.free_count += 1


def units_done(h, wanted):
    """Does units until there are as many as wanted, or until damage."""
    for done in range(wanted):
        if not unit(h):
            return done
    return wanted


# ------------------------------------------------------------- the refusals
# Each answers the number of the refusal it gives, or 0, and writes nothing.
# The calls join them by `or`, in the order tested.

def refusal_of_heap(h):
    """1: M, U or a buffer length does not fit. 2: registers not legal."""
    if not fits(h, h.M, h.U):
        return 1
    if not registers_legal(h):
        return 2
    return 0


def refusal_of_place(h, block, word):
    """3: block not 2 to M + 1, or word above 7."""
    return 0 if is_block(h, block) and word <= 7 else 3


def refusal_of_holder_place(h, block, word):
    """3: Allocate also takes block 0, with word 0 only."""
    return 0 if (block, word) == (0, 0) else refusal_of_place(h, block, word)


def refusal_of_target_number(h, target):
    """4: target neither 0 nor a block."""
    return 0 if target == NO_BLOCK or is_block(h, target) else 4


def refusal_of_block(h, block):
    """8: an illegal colour word on the block. 5: it is free or doomed."""
    if not is_legal_colour(h, colour(h, block)):
        return 8
    if colour(h, block) == FREE or doomed(h, block):
        return 5
    return 0


def refusal_of_target(h, target):
    """8: an illegal colour word on the target. 6: it is free or doomed."""
    if target == NO_BLOCK:
        return 0
    if not is_legal_colour(h, colour(h, target)):
        return 8
    if colour(h, target) == FREE or doomed(h, target):
        return 6
    return 0


def refusal_of_free_list(h):
    """8 or 7 for the free list."""
    if h.free_head == NO_BLOCK and h.free_count == 0:
        return 7                # free head and free count both 0 is 7
    if h.free_head == NO_BLOCK or h.free_count == 0:
        return 8                # free head 0 while the count isn't, or the reverse
    if colour(h, h.free_head) != FREE:
        return 8                # a first free block not coloured free
    link = get_word(h, h.free_head, 0)
    if link != NO_BLOCK and not is_block(h, link):
        return 8                # whose link is no block and not 0
    return 0


# ---------------------------------------------------------------- the calls

def format(h, M, U):
    """All blocks free in rising order; the registers are not tested."""
    if not fits(h, M, U):
        return 1, 0, 0
    h.M, h.U = M, U
    h.phase, h.grey_head, h.free_head, h.free_count = IDLE, GREY_END, 2, M
    h.position, h.root, h.cycle, h.mark = 0, NO_BLOCK, 0, NONE_HANDED_OUT
    for block in range(2, M + 2):
        for w in range(1, 8):
            put_word(h, block, w, 0)
        put_word(h, block, 0, block + 1 if block <= M else 0)
        put_colour(h, block, FREE)
        h.bytes[block - 2] = 0
    return 0, 0, 0


def read(h, block, word):
    """The value, and whether it is a reference (no on a refusal)."""
    no = (refusal_of_heap(h) or refusal_of_place(h, block, word)
          or refusal_of_block(h, block))
    if no:
        return no, 0, 0, False
    return 0, get_word(h, block, word), 0, is_reference(h, block, word)


def look(h, block):
    """The part of the word buffer that is the block's eight words, given as
    its places in the buffer; empty exactly when Read of word 0 would refuse."""
    if read(h, block, 0)[0]:
        return range(0)
    return range(8 * (block - 2), 8 * (block - 2) + 8)


def store_number(h, block, word, value):
    """Stores the value and clears the bit."""
    no = (refusal_of_heap(h) or refusal_of_place(h, block, word)
          or refusal_of_block(h, block))
    if no:
        return no, 0, 0
    put_word(h, block, word, value)
    put_bit(h, block, word, False)
    return 0, 0, 0


def barrier(h, target):
    """While marking, a white target is greyed first."""
    if h.phase == MARKING and target != NO_BLOCK and colour(h, target) == WHITE:
        grey(h, target)


def store_reference(h, block, word, target):
    """Sets the bit, also for 0."""
    no = (refusal_of_heap(h) or refusal_of_place(h, block, word)
          or refusal_of_target_number(h, target)
          or refusal_of_block(h, block) or refusal_of_target(h, target))
    if no:
        return no, 0, 0
    barrier(h, target)
    put_word(h, block, word, target)
    put_bit(h, block, word, True)
    return 0, 0, 0


def set_root(h, target):
    """The same barrier."""
    no = (refusal_of_heap(h) or refusal_of_target_number(h, target)
          or refusal_of_target(h, target))
    if no:
        return no, 0, 0
    barrier(h, target)
    h.root = target
    return 0, 0, 0


def units_of_allocation(h):
    """U, or if U is 0, M/F rounded up and then doubled, F being the free count
    at entry, 0 counted as 1: document 01 as request L3 changes it."""
    if h.U != 0:
        return h.U
    free = max(h.free_count, 1)
    whole, rest = divmod(h.M, free)
    return 2 * (whole + (1 if rest else 0))


def colour_of_new(h, block):
    """Black while marking, black while sweeping if its number is at least the
    position, else white."""
    if h.phase == MARKING or h.phase == SWEEPING and block >= h.position:
        return BLACK
    return WHITE


def hand_out(h, block):
    """What becomes of a block that is taken, in every call that takes one: its
    word 0 and its colour are written, and the mark is raised where it is lower."""
    put_word(h, block, 0, 0)
    put_colour(h, block, colour_of_new(h, block))
    h.mark = max(h.mark, block)


def allocate(h, block, word):
    """Does its units, takes the first free block, zeroes word 0, stores the
    reference. After 1 to 4 come the units, then 8 and 5 for the block, then 8
    or 7 for the free list."""
    no = refusal_of_heap(h) or refusal_of_holder_place(h, block, word)
    if no:
        return no, 0, 0
    wanted = units_of_allocation(h)
    done = units_done(h, wanted)
    if done < wanted:
        return 8, 0, done
    no = (block != NO_BLOCK and refusal_of_block(h, block)) or refusal_of_free_list(h)
    if no:
        return no, 0, done
    new = h.free_head
    h.free_head = get_word(h, new, 0)
    h.free_count -= 1
    hand_out(h, new)
    if block == NO_BLOCK:
        h.root = new
    else:
        put_word(h, block, word, new)
        put_bit(h, block, word, True)
    return 0, new, done


def work(h, n):
    """n units, n from 0 to 65,535."""
    no = refusal_of_heap(h) or (9 if n > 65535 else 0)
    if no:
        return no, 0, 0
    done = units_done(h, n)
    return (0 if done == n else 8), 0, done


def audit(h):
    """1 for a well-formed heap, else 0. It never refuses and changes nothing."""
    return 0, 1 if accepts(h) else 0, 0


# ---------------------------------------------------------------- the audit
# facts.py says what well-formed means, in the paper's words. Here the audit
# finds it out by walking and counting; check.py compares the two.

def accepts(h):
    if refusal_of_heap(h):
        return False
    blocks = range(2, h.M + 2)
    return (all(is_legal_colour(h, colour(h, b)) for b in blocks)
            and walks_grey_list(h) and walks_free_list(h)
            and all(colour(h, b) == FREE for b in blocks if b > h.mark)
            and all(colour_suits_phase(h, b) for b in blocks)
            and root_suits(h)
            and all(references_suit(h, b) for b in blocks))


def walks_grey_list(h):
    """As many steps as there are grey blocks, over grey blocks only, end at 1.
    A walk that ends meets no block twice, so it has met them all."""
    at = h.grey_head
    for _ in range(sum(is_grey(h, c) for c in h.colours)):
        if not is_block(h, at) or not is_grey(h, colour(h, at)):
            return False
        at = colour(h, at)
    return at == GREY_END


def walks_free_list(h):
    """As many steps as there are free blocks, over free blocks laid out as
    they should be, end at 0; and free count of them."""
    at = h.free_head
    for _ in range(h.colours.count(FREE)):
        if not is_block(h, at) or colour(h, at) != FREE or h.bytes[at - 2] != 0:
            return False
        if any(get_word(h, at, w) != 0 for w in range(1, 8)):
            return False
        at = get_word(h, at, 0)
    return at == NO_BLOCK and h.colours.count(FREE) == h.free_count


def colour_suits_phase(h, block):
    """No grey outside marking, no black when idle or below the position."""
    c = colour(h, block)
    if is_grey(h, c):
        return h.phase == MARKING
    if c == BLACK:
        return h.phase == MARKING or h.phase == SWEEPING and block >= h.position
    return True


def may_be_named(h, number):
    """0, or an allocated block that isn't doomed."""
    if number == NO_BLOCK:
        return True
    return is_block(h, number) and allocated(h, number) and not doomed(h, number)


def root_suits(h):
    if h.phase == MARKING and h.root != NO_BLOCK and colour(h, h.root) == WHITE:
        return False
    return may_be_named(h, h.root)


def references_suit(h, block):
    if colour(h, block) == FREE or doomed(h, block):
        return True
    for w in range(8):
        if is_reference(h, block, w):
            target = get_word(h, block, w)
            if not may_be_named(h, target):
                return False
            if (h.phase == MARKING and colour(h, block) == BLACK
                    and target != NO_BLOCK and colour(h, target) == WHITE):
                return False
    return True
