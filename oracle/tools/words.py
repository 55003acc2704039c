"""Cases with numbers in the words that a set does not use, and with ownership words other than 1.

A set of N < 64 textures has words for the indices from N on, and may be lent more room than its ranges need. Whatever
stands there, every call answers as if it did not; and any nonzero word owns a texture. Offsets: README.md, "Storage".
"""
from damage import TOP
from edges import N, ROOM
from model import SPARSE
from storage import COUNTS, HALVES, LAYERS, MIPS, OWNED

INDICES, MOST_MIPS = 64, 16
MASK = 7
# What owns a texture beside 1.
OWNERS = (2, 3, 255, 256, 65536, 2 ** 31, TOP)


# ---- places: a part and an offset --------------------------------------------------------------------

def unused(tracker, n):
    """The words of a table that a set of n textures does not use; a scope uses no mask and no second half."""
    words = [base + index for base in (OWNED, MIPS, LAYERS) for index in range(n, INDICES)]
    for half in HALVES:
        first = n if tracker or half == HALVES[0] else 0
        words += [half + index for index in range(first, INDICES)]
        words += range(half + COUNTS + MOST_MIPS * first, half + COUNTS + MOST_MIPS * INDICES)
    return [("table", word) for word in words + ([] if tracker else [MASK])]


def past(tracker, needed, spare):
    """Numbers that are lent past the ranges."""
    return [(part, needed + at) for part in (("start", "end") if tracker else ("start",)) for at in range(spare)]


def owned(indices):
    return [("table", OWNED + index) for index in indices]


# ---- lines -------------------------------------------------------------------------------------------

def pokes(number, places, values):
    return [f"poke {number} {part} {offset} {next(values)}" for part, offset in places]


def anything(rng):
    while True:
        yield rng.choice([0, 1, 2, 65535, 65536, TOP, rng.randrange(2 ** 32)])


def nonzero(rng):
    while True:
        yield rng.choice(OWNERS)


def always(value):
    while True:
        yield value


# ---- fixed cases -------------------------------------------------------------------------------------

def edge_words(number):
    """Of the words that are not used, those of the first and the last such index."""
    tracker = number >= 2
    kept = {base + index for base in (OWNED, MIPS, LAYERS, *HALVES) for index in (N, INDICES - 1)}
    kept |= {half + COUNTS + MOST_MIPS * index + mip for half in HALVES for index in (N, INDICES - 1)
             for mip in (0, MOST_MIPS - 1)}
    return [place for place in unused(tracker, N) if place[1] in kept] + past(tracker, ROOM, 4)


def prepared(number, owner):
    """A set that is lent four numbers more, with numbers in such words, whose two textures are owned by `owner`."""
    rooms = " ".join([str(ROOM + 4)] * (2 if number >= 2 else 1))
    return [f"room {number} {rooms}", *pokes(number, edge_words(number), always(TOP)),
            *pokes(number, owned((0, 1)), always(owner))]


def met(edges):
    """Every call with a set whose unused words have numbers: twice, then another."""
    for number in range(4):
        for at, call in enumerate(edges.calls_with(number)):
            hurt = prepared(number, OWNERS[at % len(OWNERS)])
            yield edges.on_sets([*hurt, call, call, edges.passing(number)])


def owners(edges):
    """Each owner, in both sets of a call over a set; the sparse call then finds nothing left to take."""
    for owner in OWNERS:
        places = owned((0, 1))
        yield edges.on_sets([*pokes(0, places, always(owner)), *pokes(1, places, always(owner)),
                             "merge_usage_scope 0 1", "merge_usage_scope 0 1"])
        sparse = f"{SPARSE} 2 1 1 0"
        yield edges.on_sets([*pokes(1, places, always(owner)), *pokes(2, places, always(owner)), sparse, sparse,
                             edges.passing(1), edges.passing(2)])


def damaged(edges):
    """An owner makes a texture's other words count: with no mips the set is not well formed."""
    for number in (0, 2):
        call = edges.calls_with(number)[0]
        lines = [f"poke {number} table {LAYERS + 2} 1", f"poke {number} table {MIPS + 2} 0"]
        for owner in OWNERS:
            lines += [f"poke {number} table {OWNED + 2} {owner}", call]
        yield edges.on_sets([*lines, f"poke {number} table {OWNED + 2} 0", call])


def cases(edges):
    lines = [case for group in (met, owners, damaged) for case in group(edges)]
    return [[f"case {at}", *case] for at, case in enumerate(lines)]
