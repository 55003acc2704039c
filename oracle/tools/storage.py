"""The lent numbers of a set, as far as a case says what they are, and whether they are well formed (01: sound).

Layout: README.md, "Storage". What the papers leave free is not known here (None), and no verdict may rest on it.
"""
import refusals
from flags import UsageFlags

TABLE = 2376
OWNED, MIPS, LAYERS, HALVES = 8, 72, 136, (200, 1288)
COUNTS = 64


class Unspecified(Exception):
    """A verdict would rest on a number that the papers leave free."""


class Storage:
    def __init__(self, opened):
        flags = opened.flags
        halves = HALVES if opened.tracker else HALVES[:1]
        self.table = [None] * TABLE
        self.table[0:8] = [opened.n, opened.m, opened.w, flags.exclusive, flags.uninitialized,
                           flags.complex, flags.unknown, opened.mask]
        for index in range(opened.n):
            self.table[OWNED + index] = 0
            for half in halves:
                self.table[half + index] = flags.uninitialized
        # For each half the numbers of its slice that are known, by offset.
        self.ranges = [dict() for _ in halves]
        self.poked = False

    def read(self, part, offset):
        value = self.table[offset] if part == "table" else self.part(part).get(offset)
        if value is None:
            raise Unspecified(part, offset)
        return value

    def part(self, part):
        return self.ranges[0 if part == "start" else 1]

    def poke(self, part, offset, value):
        self.poked = True
        if part == "table":
            self.table[offset] = value
        else:
            self.part(part)[offset] = value

    def put(self, index, mips, layers, halves):
        """halves: a state, or for each mip its records."""
        self.table[OWNED + index] = 1
        self.table[MIPS + index], self.table[LAYERS + index] = mips, layers
        for half, base, ranges in zip(halves, HALVES, self.ranges):
            if isinstance(half, int):
                self.table[base + index] = half
                continue
            self.table[base + index] = self.table[5]
            for mip, records in enumerate(half):
                self.table[base + COUNTS + 16 * index + mip] = len(records)
                at = self.first_range(index, mip)
                for record in records:
                    ranges.update(zip(range(at, at + 3), record))
                    at += 3

    def first_range(self, index, mip):
        return 3 * (index * self.table[1] + mip) * self.table[2]

    # ---- well formed ---------------------------------------------------------------------------------

    def well_formed(self, held):
        """Whether it is; if so, it must still be what the set holds: a poke either damages or is not seen."""
        n, m, w = self.table[0:3]
        flags = UsageFlags(*self.table[3:7])
        if refusals.opening(n, m, w, flags, held.rooms):
            return False
        owned = [index for index in range(n) if self.read("table", OWNED + index) != 0]
        found = [self.texture_states(flags, index) for index in owned]
        if None in found:
            return False
        states = {index: [half.states for half in texture.halves] for index, texture in held.textures.items()}
        assert states == dict(zip(owned, found)), "a poke changed what is held"
        return True

    def texture_states(self, flags, index):
        """The states of each half, or None if the texture is not well formed."""
        mips, layers = self.read("table", MIPS + index), self.read("table", LAYERS + index)
        if not (1 <= mips <= self.table[1] and 1 <= layers <= self.table[2]):
            return None
        halves = [self.half_states(flags, half, index, mips, layers) for half in range(len(self.ranges))]
        if None in halves:
            return None
        unknown = [[state == flags.unknown for state in states] for states in halves]
        return halves if unknown[0] == unknown[-1] else None

    def half_states(self, flags, half, index, mips, layers):
        """The state of each subresource, or None."""
        state = self.read("table", HALVES[half] + index)
        if state != flags.complex:
            good = good_state(flags, state) and not state & flags.unknown
            return (state,) * (mips * layers) if good else None
        states = []
        for mip in range(mips):
            found = self.mip_states(flags, half, index, mip, layers)
            if found is None:
                return None
            states += found
        return tuple(states)

    def mip_states(self, flags, half, index, mip, layers):
        part = "start" if half == 0 else "end"
        count = self.read("table", HALVES[half] + COUNTS + 16 * index + mip)
        if not 1 <= count <= self.table[2]:
            return None
        states, at = [], self.first_range(index, mip)
        for at in range(at, at + 3 * count, 3):
            start, end, state = (self.read(part, at + k) for k in range(3))
            if start != len(states) or start >= end or end > layers or not good_state(flags, state):
                return None
            states += [state] * (end - start)
        return states if len(states) == layers else None


def good_state(flags, state):
    """A state that a range of a well-formed set may have. A state is 16 bits."""
    return 0 < state < 65536 and not state & flags.complex and not flags.incompatible(state)
