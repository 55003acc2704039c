"""Cases for document 01's table "Turned away": each check at its edge, alone and before the next one.

Those of the calls on ranged states are in rangecases.py.

Cases end with a call that passes, so that a refusal that changed something is seen. Sets 0 and 1 are scopes,
2 and 3 trackers, with N 3, M 2, W 4. Texture 0 is put in as Single, texture 1 as Many; texture 2 is not owned.
"""
from itertools import product

from chance import TOP
from damage import Damage
from flags import bits
from model import SINGLE_CALLS, SPARSE

N, M, W = 3, 2, 4
ROOM = 3 * N * M * W
# How many damages a case has.
DAMAGES = 14
# Mips and layers that pass, that end past the extent, of no length, reversed, and the last two past the extent.
MIPS = ["0 1", f"1 {M + 1}", "1 1", "1 0", f"{M + 3} {M + 3}", f"{M + 3} {M + 2}"]
LAYERS = ["1 2", f"2 {W + 1}", "2 2", "3 2", f"{W + 3} {W + 3}", f"{W + 3} {W + 2}"]
# A selector for each of 16 to 19.
FAULTS = ["1 1 0 1", "1 0 0 1", "0 1 2 2", "0 1 3 2"]
SET_CALLS = ["merge_usage_scope 0 1", "set_from_usage_scope 2 1", "set_from_tracker 2 3", SPARSE + " 2 1 0 1"]


def sets_of(line):
    """The sets that a line speaks of."""
    word, *rest = line.split(" ")
    if word in SINGLE_CALLS + ("poke", "room"):
        return [int(rest[0])]
    if word.startswith("open_"):
        return [int(rest[0])]
    return [] if word in ("log", "empty_log") else [int(number) for number in rest[:2]]


def interval_edges(extent):
    """Start + 1 = end, start = end and start = end + 1, at the first, the last and the largest number."""
    ends = [(0, 1), (extent - 1, extent), (0, 0), (extent, extent), (TOP, TOP), (1, 0), (extent + 1, extent),
            (TOP, TOP - 1), (TOP, 0)]
    return [f"{start} {end}" for start, end in ends]


class Edges:
    """The cases for one set of usage flags."""

    def __init__(self, flags):
        self.flags, self.text = flags, " ".join(map(str, flags))
        inclusive = bits(0xffff & ~(flags.exclusive | flags.complex | flags.unknown | flags.uninitialized))
        exclusive = bits(flags.exclusive)
        self.good = (inclusive + exclusive)[0]
        self.other = (inclusive + exclusive)[-1]
        # None where the flags have no such state.
        self.incompatible = next((state for state in (one | two for one in exclusive for two in bits(0xffff))
                                  if flags.incompatible(state)
                                  and not state & (flags.complex | flags.unknown)), None)

    # ---- parts of cases ------------------------------------------------------------------------------

    def open(self, number, n=N, m=M, w=W, flags=None, rooms=None):
        text = self.text if flags is None else " ".join(map(str, flags))
        rooms = [3 * n * m * w] * 2 if rooms is None else rooms
        if number < 2:
            return f"open_scope {number} {n} {m} {w} {text} {rooms[0]}"
        return f"open_tracker {number} {n} {m} {w} {text} 0 {rooms[0]} {rooms[-1]}"

    def many(self):
        unknown = self.flags.unknown
        return f"many 3 0 1 {unknown} 1 3 {self.good} 3 4 {unknown} 2 0 2 {self.good} 2 4 {self.good}"

    def put(self, number):
        single = f"single {self.good}"
        halves = 1 if number < 2 else 2
        return [f"put {number} 0 {M} {W} " + " ".join([single] * halves),
                f"put {number} 1 {M} {W} " + " ".join([self.many()] * halves)]

    def on_sets(self, lines):
        """Lines, and before them the sets that they speak of, opened and with two textures put in."""
        numbers = sorted({number for line in lines for number in sets_of(line)})
        opened = [self.open(number) for number in numbers]
        return opened + [line for number in numbers for line in self.put(number)] + lines

    def passing(self, number):
        """A call that passes whatever was refused before it, and so shows every set."""
        word = "merge_single" if number < 2 else "set_single"
        return f"{word} {number} 2 1 4 {self.good} 0 1 1 2"

    # ---- opening: 1, 2, 3 ----------------------------------------------------------------------------

    def openings(self):
        sizes = [(n, 1, 1) for n in (0, 1, 64, 65, TOP)] + [(1, m, 1) for m in (0, 1, 16, 17, TOP)]
        sizes += [(1, 1, w) for w in (0, 1, 256, 257, TOP)] + [(TOP, TOP, TOP), (64, 16, 4), (1, 16, 256)]
        for number in (0, 2):
            yield [self.open(number, n, m, w, rooms=[min(3 * n * m * w, 12288)] * 2) for n, m, w in sizes]
            yield [self.open(number, flags=flags) for flags in self.flag_edges()]
            yield [self.open(number, rooms=rooms) for rooms in self.room_edges()]
            bad = (self.flags.exclusive, 0, 0, 0)
            yield [self.open(number, 0, flags=bad, rooms=[0]), self.open(number, flags=bad, rooms=[0])]
        refused = [self.open(0, n=65), self.open(2, flags=(0, 1, 1, 2)), self.open(1, rooms=[ROOM - 1])]
        yield self.on_sets(refused + [self.passing(0)])
        yield self.on_sets([self.open(0), f"merge_single 0 0 1 1 {self.good}"])

    def flag_edges(self):
        exclusive, uninitialized, complex_, unknown = self.flags
        spare = next(bit for bit in bits(0xffff) if bit not in (uninitialized, complex_, unknown))
        yield from [(exclusive, 0, complex_, unknown), (exclusive, uninitialized, 0, unknown)]
        yield from [(exclusive, uninitialized, complex_, 0), (exclusive, uninitialized | spare, complex_, unknown)]
        yield from [(0, uninitialized, complex_ | spare, unknown), (0, uninitialized, complex_, unknown | spare)]
        yield from [(0, complex_, complex_, unknown), (0, unknown, complex_, unknown)]
        yield from [(0, uninitialized, unknown, unknown), (complex_, uninitialized, complex_, unknown)]
        yield from [(unknown, uninitialized, complex_, unknown), (0xffff, uninitialized, complex_, unknown)]
        yield from [(0xffff & ~(complex_ | unknown), uninitialized, complex_, unknown), (0, *self.flags[1:])]

    @staticmethod
    def room_edges():
        yield from [[ROOM, ROOM], [ROOM - 1, ROOM], [ROOM, ROOM - 1], [ROOM - 3, ROOM - 3], [0, 0]]
        yield from [[ROOM + 1, ROOM + 5], [0, ROOM], [ROOM, 0]]

    # ---- lent things: 4, 5 ---------------------------------------------------------------------------

    def damaged(self):
        """Each damage of each set, met by the calls that are handed it in turn, and mended again."""
        damage = Damage(self)
        for number in range(4):
            calls, each = self.calls_with(number), list(damage.of(number))
            for first in range(0, len(each), DAMAGES):
                some = each[first:first + DAMAGES]
                lines = [line for at, (hurt, mend) in enumerate(some)
                         for line in hurt + [calls[(first // DAMAGES + at) % len(calls)]] + mend]
                yield self.on_sets(lines + [self.passing(number)])
            for at, poke in enumerate(damage.unseen(number)):
                yield self.on_sets(poke + [calls[at % len(calls)]])

    def calls_with(self, number):
        """Calls that are handed a set."""
        single = f"merge_single {number}" if number < 2 else f"set_single {number}"
        calls = [f"{single} 0 {M} {W} {self.good}", f"{single} 1 {M} {W} {self.good} 0 1 0 2"]
        if number < 2:
            return calls + [f"merge_usage_scope {number} {1 - number}", f"merge_usage_scope {1 - number} {number}",
                            f"set_from_usage_scope 2 {number}", f"{SPARSE} 2 {number} 1"]
        return calls + [f"set_from_usage_scope {number} 0", f"set_from_tracker {number} {5 - number}",
                        f"set_from_tracker {5 - number} {number}", f"{SPARSE} {number} 0 0"]

    def rooms(self):
        """The room that is lent with a call, not at opening."""
        for number in range(4):
            for rooms in ([ROOM], [ROOM - 1], [0], [ROOM + 3]) if number < 2 else self.room_edges():
                lent = " ".join(map(str, rooms))
                yield self.on_sets([f"room {number} {lent}"] + self.calls_with(number)[:3])

    def logs(self):
        heads = [(0, 0, 0), (0, 8, 56), (1, 7, 56), (8, 0, 56), (0, 9, 56), (9, 0, 56), (0, 8, 55), (0, 8, 62),
                 (TOP, 1, 70), (1, TOP, 70), (TOP, TOP, 70), (0, 1, 6), (3, 5, 57)]
        for head in heads:
            lent = " ".join(map(str, head))
            yield [f"empty_log {lent}"]
            for call in self.tracker_calls():
                yield self.on_sets([f"log {lent}", call, f"log {lent}", call])

    def tracker_calls(self):
        return [f"set_single 2 1 {M} {W} {self.other}", f"set_single 2 2 1 1 {self.good}", *SET_CALLS[1:]]

    def free_entries(self):
        """Number 15: more free entries than needed, as many, and one less."""
        for free in range(7):
            for written in (0, 2):
                lent = 7 * (written + free) + free % 2
                for call in self.tracker_calls():
                    yield self.on_sets([f"log {written} {free} {lent}", call, self.passing(2)])

    # ---- two sets: 6 ---------------------------------------------------------------------------------

    def flags_differ(self):
        spare = next(bit for bit in bits(0xffff) if bit not in self.flags[1:])
        for at in range(4):
            flags = list(self.flags)
            flags[at] = spare if at else flags[0] ^ spare
            # COMPLEX and UNKNOWN stay outside EXCLUSIVE.
            flags[0] &= ~(flags[2] | flags[3])
            for call in SET_CALLS:
                to, other = sets_of(call)
                yield self.on_sets([self.open(other, n=64, m=1, w=1, flags=flags), call, self.passing(to)])

    # ---- texture: 7, 8, 9 ----------------------------------------------------------------------------

    def textures(self):
        extents = [(0, M, W), (N - 1, M, W), (N, M, W), (TOP, M, W), (2, 0, W), (2, M, 0), (2, M + 1, W),
                   (2, M, W + 1), (2, TOP, 1), (2, 1, TOP), (0, M - 1, W), (1, M, W - 1), (N, 0, 0), (0, 0, W)]
        for word in ("merge_single 0", "set_single 2"):
            lines = [f"{word} {index} {mips} {layers} {self.good}" for index, mips, layers in extents]
            yield self.on_sets(lines + [self.passing(int(word[-1]))])

    def whole_sets(self):
        """The source has what the other cannot take."""
        larger = {"n": (N + 1, M, W, [(3, 1, 1)]), "m": (N, M + 1, W, [(2, M + 1, 1)]),
                  "w": (N, M, W + 1, [(2, 1, W + 1)]), "extent": (N, M, W, [(0, 1, W)]),
                  "first": (N + 1, M, W, [(3, 1, 1), (1, M, 1), (0, M, W)])}
        for n, m, w, held in larger.values():
            for call in SET_CALLS:
                to, other = sets_of(call)
                word = "set_single" if other == 3 else "merge_single"
                uses = [f"{word} {other} {index} {mips} {layers} {self.good}" for index, mips, layers in held]
                listed = " ".join(str(index) for index, *_ in held)
                call = f"{SPARSE} 2 1 0 1 {listed}" if call.startswith(SPARSE) else call
                yield self.on_sets([self.open(other, n, m, w)] + uses + [call, self.passing(to)])

    def sparse_lists(self):
        lists = ["", "2", "2 2 2", "3", f"0 {TOP}", "0 1 3", "3 0", "1 0 1 0", "2 0 2"]
        for indices in lists:
            yield self.on_sets([f"{SPARSE} 2 1 {indices}".rstrip(), self.passing(2)])
        # Listed but not owned by the larger scope: passed over, though the tracker has no such index.
        yield self.on_sets([self.open(1, n=N + 2), f"merge_single 1 0 {M} {W} {self.good}", f"{SPARSE} 2 1 4 3",
                            f"{SPARSE} 2 1 5", f"{SPARSE} 2 1 3 0"])

    # ---- selector and state: 16 to 19, and 11 to 13 --------------------------------------------------

    def selectors(self):
        given = [(0, 1, 2, 2), (1, 1, 0, 1), (1, 0, 0, 1), (0, 1, 3, 1), (0, 2, 0, 4), (0, 2, 0, 5), (0, 3, 0, 4),
                 (0, 1, 3, 4), (1, 2, 0, 4), (2, 3, 0, 4), (0, 1, 4, 5), (0, TOP, 0, 1), (0, 1, 0, TOP),
                 (5, 5, 0, 9), (0, 9, 7, 7), (TOP, TOP, 0, 1), (TOP, 0, 0, 1)]
        for word in ("merge_single 0", "set_single 2"):
            for index in range(N):
                lines = [f"{word} {index} {M} {W} {self.good} {a} {b} {c} {d}" for a, b, c, d in given]
                yield self.on_sets(lines + [self.passing(int(word[-1]))])

    def states(self):
        flags = self.flags
        given = [0, flags.unknown, flags.complex, flags.unknown | self.good, flags.complex | self.good, 65535,
                 flags.uninitialized, self.other, self.incompatible, *bits(flags.exclusive)]
        if self.incompatible:
            given.append(self.incompatible | flags.unknown)
        for word in ("merge_single 0", "set_single 2"):
            lines = [f"{word} 0 {M} {W} {state}" for state in given if state is not None]
            yield self.on_sets(lines + [line + " 0 1 1 3" for line in lines] + [self.passing(int(word[-1]))])
            # Each check before the next one: 7, 8, 9, 16, 17, 18, 19, 11, 12.
            yield self.on_sets([f"{word} {rest}" for rest in (
                f"{N} 0 9 0 1 1 0 9", f"0 0 {W} 0 1 1 0 9", f"0 1 {W} 0 1 1 0 9", f"0 {M} {W} 0 1 1 0 9",
                f"0 {M} {W} 0 9 8 9 9", f"0 {M} {W} 0 0 9 9 9", f"0 {M} {W} 0 0 9 9 8",
                f"0 {M} {W} 0 0 1 0 9", f"0 {M} {W} 0 0 1 0 1")])

    def intervals(self):
        """Mips and layers of every kind beside each other, each at its edges, and among the other checks."""
        given = [*product(MIPS, LAYERS), *((mips, "0 1") for mips in interval_edges(M)),
                 *(("0 1", layers) for layers in interval_edges(W))]
        for word in ("merge_single 0", "set_single 2"):
            for index in range(N):
                use = f"{word} {index} {M} {W} {self.good}"
                yield self.on_sets([f"{use} {mips} {layers}" for mips, layers in given] + [use])
            lines = [line for fault in FAULTS for line in self.around(word, fault)]
            yield self.on_sets(lines + [self.passing(int(word[-1]))])

    def around(self, word, fault):
        """The fault of a selector after 4, 5, 7, 8 and 9, and before 12, 13 and 15."""
        number, call = int(word[-1]), f"{word} 1 {M} {W}"
        for texture in (f"{N} {M} {W}", f"0 0 {W}", f"0 {M} {W - 1}"):
            yield f"{word} {texture} 0 {fault}"
        for state in (0, self.flags.unknown | self.good, self.incompatible):
            if state is not None:
                yield f"{call} {state} {fault}"
        call = f"{call} {self.other} {fault}"
        halves = 1 if number < 2 else 2
        yield from (f"room {number}" + " 0" * halves, call, f"room {number}" + f" {ROOM}" * halves, call)
        if number >= 2:
            yield from ("log 0 9 56", call, "log 0 0 0", call)

    def cases(self):
        """Every case, numbered."""
        groups = (self.openings, self.damaged, self.rooms, self.logs, self.free_entries, self.flags_differ,
                  self.textures, self.whole_sets, self.sparse_lists, self.selectors, self.states, self.intervals)
        lines = (case for group in groups for case in group())
        return [[f"case {at}", *case] for at, case in enumerate(lines)]
