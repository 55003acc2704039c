"""Document 01's table "Turned away", as far as it speaks of numbers and owned textures.

In the place of its number 10, which is never given, stand 16 to 19 of document 02's request 02; 31 is of request 14.
Numbers 20 to 25 are of request 08: planmodel.py.
Every check answers None or a Refusal, its number and place. Numbers 4 and 5 are about storage: storage.py.
"""
from typing import NamedTuple


class Refusal(NamedTuple):
    number: int
    place: int


# In the table's order; then those of the intervals, those that need storage of the caller's, and those of plan files.
NUMBERS = [*range(1, 10), 16, 17, 18, 19, *range(11, 15), 31, *range(20, 26), 15]
INTERVALS, STORAGE, PLANS = (16, 17, 18, 19), (3, 4, 5, 14, 31), (20, 21, 22, 23, 24, 25)
LIMIT_TEXTURES, LIMIT_MIPS, LIMIT_LAYERS = 64, 16, 256
RANGE_NUMBERS, ENTRY_NUMBERS = 3, 7


def opening(n, m, w, flags, rooms):
    if not (1 <= n <= LIMIT_TEXTURES and 1 <= m <= LIMIT_MIPS and 1 <= w <= LIMIT_LAYERS):
        return Refusal(1, 0)
    if not flags.valid():
        return Refusal(2, 0)
    if any(room // RANGE_NUMBERS < n * m * w for room in rooms):
        return Refusal(3, 0)
    return None


def log(written, free, lent):
    return Refusal(5, 0) if written + free > lent // ENTRY_NUMBERS else None


def flags_differ(one, other):
    return Refusal(6, 0) if one.flags != other.flags else None


def texture(held, index, mips, layers):
    if index >= held.n:
        return Refusal(7, index)
    if not (1 <= mips <= held.m and 1 <= layers <= held.w):
        return Refusal(8, index)
    owned = held.textures.get(index)
    if owned and (owned.mips, owned.layers) != (mips, layers):
        return Refusal(9, index)
    return None


def mip_interval(start, end):
    """Request 02: "mips of no length, mips reversed"."""
    if start == end:
        return Refusal(16, 0)
    return Refusal(17, 0) if start > end else None


def layer_interval(start, end):
    """Request 02: "layers of no length, layers reversed"; "strip calls give the layer numbers"."""
    if start == end:
        return Refusal(18, 0)
    return Refusal(19, 0) if start > end else None


def past(mips, layers, mip_end, layer_end):
    return Refusal(11, 0) if mip_end > mips or layer_end > layers else None


def selector(mips, layers, given):
    """Request 02: "16, 17, 18, 19 in that order, at 10's place", so before 11."""
    if given is None:
        return None
    mip_start, mip_end, layer_start, layer_end = given
    return (mip_interval(mip_start, mip_end) or layer_interval(layer_start, layer_end)
            or past(mips, layers, mip_end, layer_end))


def state(flags, given):
    if given == 0 or given & (flags.unknown | flags.complex):
        return Refusal(12, 0)
    if flags.incompatible(given):
        return Refusal(13, 0)
    return None


def single(held, index, mips, layers, given, selected):
    return (texture(held, index, mips, layers) or selector(mips, layers, selected)
            or state(held.flags, given))


def whole_set(to, source):
    """Every owned texture of the source, ascending."""
    checks = (texture(to, index, source.textures[index].mips, source.textures[index].layers)
              for index in sorted(source.textures))
    return flags_differ(to, source) or next(filter(None, checks), None)


def sparse(to, source, indices):
    def one(index):
        if index >= source.n:
            return Refusal(7, index)
        owned = source.textures.get(index)
        return owned and texture(to, index, owned.mips, owned.layers)
    return flags_differ(to, source) or next(filter(None, map(one, indices)), None)


def ranged(start, end, length, lent, records):
    """Of isolate and iter_filter: layers with any 32-bit ends, and then the ranges."""
    return layer_interval(start, end) or ranges(length, lent, records)


def ranges(length, lent, records):
    """Number 14: the told length, and ranges that are empty, out of order or overlap."""
    if length > lent:
        return Refusal(14, 0)
    end = 0
    for start, stop, _ in records:
        if start >= stop or start < end:
            return Refusal(14, 0)
        end = stop
    return None


def order(log):
    """Request 14: "31 a log that descends or stops inside an entry"."""
    indices = log[::ENTRY_NUMBERS]
    return Refusal(31, 0) if len(log) % ENTRY_NUMBERS or indices != sorted(indices) else None


def merging(written, free, lent, first, second):
    """Request 14: "Turned away: 5 for the third, 31"; both logs are looked at whole, also what is not copied."""
    return log(written, free, lent) or order(first) or order(second)
