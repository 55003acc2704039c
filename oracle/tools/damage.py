"""Ways to damage the storage of the sets that edges.py makes, and pokes that nobody may see.

A damage is a list of `poke` lines and the list that mends it. Offsets: README.md, "Storage".
"""
from chance import TOP
from storage import COUNTS, HALVES, LAYERS, MIPS, OWNED

N, M, W = 3, 2, 4
# Where the ranges of texture 1 begin: mip 0 has three, mip 1 two.
MIP0, MIP1 = 3 * (1 * M + 0) * W, 3 * (1 * M + 1) * W


class Damage:
    def __init__(self, edges):
        self.edges, self.flags = edges, edges.flags

    def states(self):
        """Numbers that are no state of a range, with one that a single texture may not have either."""
        flags, good = self.flags, self.edges.good
        bad = [0, flags.complex | good, 65536, 65536 | good, TOP]
        return bad + ([self.edges.incompatible] if self.edges.incompatible else [])

    def table(self):
        """Offset, the number there, and bad numbers for it, for any set."""
        flags = self.flags
        yield 0, N, [0, N + 1, 65, TOP]
        yield 1, M, [0, M + 1, 17, TOP]
        yield 2, W, [0, W + 1, 257, TOP]
        yield 3, flags.exclusive, [flags.exclusive | flags.complex, flags.exclusive | flags.unknown]
        for at in (4, 5, 6):
            others = [flags[k - 3] for k in (4, 5, 6) if k != at]
            yield at, flags[at - 3], [0, 3, 65536, *others]
        for index in (0, 1):
            yield MIPS + index, M, [0, M + 1, TOP]
            yield LAYERS + index, W, [0, W + 1, TOP]

    def half(self, part, base):
        """The same for one half, where offsets of `part` are among them."""
        good, unknown = self.edges.good, self.flags.unknown
        yield "table", base, good, [*self.states(), unknown, unknown | good]
        yield "table", base + 1, self.flags.complex, [0, unknown, self.flags.complex | good]
        for mip, count in ((0, 3), (1, 2)):
            yield "table", base + COUNTS + 16 + mip, count, [0, count - 1, W + 1, TOP]
        yield part, MIP0, 0, [1, 2, TOP]
        yield part, MIP0 + 1, 1, [0, 2, W, TOP]
        yield part, MIP0 + 3, 1, [0, 2, 3]
        yield part, MIP0 + 4, 3, [1, 2, 4, 0]
        yield part, MIP0 + 5, good, self.states()
        yield part, MIP0 + 7, 4, [3, 5, TOP]
        yield part, MIP1 + 1, 2, [0, 1, 3]
        yield part, MIP1 + 2, good, self.states()
        yield part, MIP1 + 4, 4, [2, 3, 5]

    def of(self, number):
        """Every damage of a set: pokes, and pokes that mend."""
        for offset, was, bad in self.table():
            for value in bad:
                yield self.pair(number, [("table", offset, was, value)])
        parts = ("start",) if number < 2 else ("start", "end")
        for part, base in zip(parts, HALVES):
            for where, offset, was, bad in self.half(part, base):
                for value in bad:
                    yield self.pair(number, [(where, offset, was, value)])
            yield from self.one_range_more(number, part, base)
        yield self.pair(number, [("table", LAYERS + 2, 1, 1), ("table", MIPS + 2, 1, 0), ("table", OWNED + 2, 0, 1)])
        if number >= 2:
            yield from self.unknown_differs(number)

    def one_range_more(self, number, part, base):
        """A count that takes in a record past the last: an empty one, one that goes on past the layers."""
        for record in ((0, 0, 0), (4, 4, self.edges.good), (4, 5, self.edges.good)):
            pokes = [(part, MIP1 + 6 + k, 0, value) for k, value in enumerate(record)]
            yield self.pair(number, pokes + [("table", base + COUNTS + 17, 2, 3)])

    def unknown_differs(self, number):
        """Start and end of a tracker disagree on where nothing is known."""
        good, unknown = self.edges.good, self.flags.unknown
        for part in ("start", "end"):
            yield self.pair(number, [(part, MIP0 + 2, unknown, good)])
            yield self.pair(number, [(part, MIP0 + 5, good, unknown)])
            yield self.pair(number, [(part, MIP1 + 5, good, unknown)])
        for part, base in zip(("start", "end"), HALVES):
            yield self.pair(number, self.made_many(part, base))

    def made_many(self, part, base):
        """Texture 0, which is Single, is made Many in one half, with nothing known of its mip 1."""
        pokes = []
        for mip, state in ((0, self.edges.good), (1, self.flags.unknown)):
            record = enumerate((0, W, state), 3 * mip * W)
            pokes += [(part, offset, value, value) for offset, value in record]
            pokes.append(("table", base + COUNTS + mip, 1, 1))
        return pokes + [("table", base, self.edges.good, self.flags.complex)]

    @staticmethod
    def pair(number, pokes):
        def line(where, offset, value):
            return f"poke {number} {where} {offset} {value}"
        return ([line(where, offset, value) for where, offset, _, value in pokes],
                [line(where, offset, was) for where, offset, was, _ in pokes])

    @staticmethod
    def unseen(number):
        """Numbers that are free: of a texture that is not owned, past the last range, past the last mip."""
        parts = ("start",) if number < 2 else ("start", "end")
        yield [f"poke {number} table {MIPS + 2} 99", f"poke {number} table {LAYERS + 2} {TOP}"]
        for part, base in zip(parts, HALVES):
            yield [f"poke {number} table {base + 2} 0"]
            yield [f"poke {number} table {base + COUNTS + 16 + M} {TOP}"]
            yield [f"poke {number} table {base + COUNTS + 32} {TOP}"]
            yield [f"poke {number} {part} {MIP1 + 6 + k} {TOP}" for k in range(3)]
            yield [f"poke {number} {part} {3 * 2 * M * W + k} {TOP}" for k in range(3)]
