"""Document 02's request L6: why is this block still here?

The answer is (refusal, reason, pairs, state). The path of a reachable block is
left in a lent buffer, two numbers a pair; two more lent buffers are for working.
"""

import machine
import states

# The reason: "free; doomed; reachable, with a path ..; or out of reach but not
# doomed, with its colour". 0 on a refusal.
FREE, DOOMED, REACHABLE, KEPT = 1, 2, 3, 4


def words_of(path):
    return [word for _, word in path]


def named(h, block):
    """The words of a block that hold references other than null, rising, with
    what they name."""
    for word in range(8):
        target = machine.get_word(h, block, word)
        if machine.is_reference(h, block, word) and target != machine.NO_BLOCK:
            yield word, target


def one_further(h, level, seen):
    """Of each block that is one pair further than those of the level, and not
    seen before, the path with the smallest words."""
    found = {}
    for at, path in level.items():
        for word, target in named(h, at):
            longer = [*path, (at, word)]
            if target not in seen and (target not in found or words_of(longer) < words_of(found[target])):
                found[target] = longer
    return found


def least_path(h, block):
    """The (block, word) pairs from the root to the block, "the fewest possible"; "if
    several paths are equally short, the one with the smallest words from the root
    on". "The root itself has an empty path". None where no path leads there."""
    level = {h.root: []} if h.root != machine.NO_BLOCK else {}
    seen = {h.root}
    while level and block not in level:
        level = one_further(h, level, seen)
        seen |= set(level)
    return level.get(block)


def refusal(h, path, queue, came, block):
    """"in order ..: 1; 10 for a heap not accepted; 3 for the block; 13 when the lent
    buffers are shorter than M entries". An entry of the path is a pair."""
    if not machine.fits(h, h.M, h.U):
        return 1
    if not machine.accepts(h):
        return 10
    if not machine.is_block(h, block):
        return 3
    if len(path) < 2 * h.M or len(queue) < h.M or len(came) < h.M:
        return 13
    return 0


def reason(h, block):
    """The reason, and the path where there is one."""
    if machine.colour(h, block) == machine.FREE:
        return FREE, []
    if machine.doomed(h, block):
        return DOOMED, []
    path = least_path(h, block)
    return (KEPT, []) if path is None else (REACHABLE, path)


def why(h, path, queue, came, block):
    """Leaves the path's pairs at the front of the list `path`. "Path entries past the
    path and all working buffers end as 0". A refusal changes no buffer."""
    no = refusal(h, path, queue, came, block)
    if no:
        return no, 0, 0, 0
    told, pairs = reason(h, block)
    flat = [number for pair in pairs for number in pair]
    path[:] = flat + [0] * (len(path) - len(flat))
    queue[:], came[:] = [0] * len(queue), [0] * len(came)
    return 0, told, len(pairs), states.state_of(h, block) if told == KEPT else 0
