"""Random cases, repeatable from a seed. A case is a list of lines; README.md has their form.

A case opens up to four sets and makes calls on few textures with few states, so that uses meet and conflict.
Refused calls are among them. What the Rust cannot answer, 01 decides: expect.py.
"""
import random

import chance
import words
from model import SPARSE

# For each kind the largest N, M, W and the largest number of calls.
SIZES = {"small": (3, 3, 5, 40), "put": (3, 3, 5, 20), "larger": (4, 5, 12, 40), "limit": (64, 16, 256, 12),
         "words": (3, 3, 5, 20)}
LIMITS = [(64, 1, 1), (64, 2, 3), (1, 16, 256), (3, 16, 4), (2, 1, 256), (64, 16, 4), (64, 16, 1), (64, 16, 256)]
# Numbers that are lent past the ranges of a set where words are poked.
SPARE = 7
CALLS = {"merge_single": 34, "merge_usage_scope": 22, "set_single": 18, "set_from_usage_scope": 10,
         "set_from_tracker": 12, SPARSE: 8}


class Maker:
    """Makes one case. Faulty selectors are drawn from `apart`, so that the other calls do not depend on them."""

    def __init__(self, kind, flags, rng, apart):
        self.kind, self.flags, self.rng, self.apart = kind, flags, rng, apart
        self.most = SIZES[kind]
        if kind == "limit":
            self.size = rng.choice(LIMITS)
        else:
            self.size = tuple(rng.randint(1, most) for most in self.most[:3])
        n, m, w = self.size
        self.states = chance.pool(rng, flags)
        self.extents = [(rng.randint(1, m), rng.randint(1, w)) if rng.random() < 0.8 else (m, w)
                        for _ in range(n + 2)]
        self.lines, self.scopes, self.trackers = [], [], []

    def case(self, number):
        self.lines.append(f"case {number}")
        self.open_sets()
        if self.kind in ("put", "words") or self.kind == "limit" and self.rng.random() < 0.5:
            for set_number in self.scopes + self.trackers:
                self.put_textures(set_number)
        if self.kind == "words":
            self.poke_words()
        for _ in range(self.rng.randint(1, self.most[3])):
            self.call()
        return self.lines

    # ---- opening -------------------------------------------------------------------------------------

    def open_sets(self):
        rng = self.rng
        kinds = ["scope", "tracker"] + [rng.choice(["scope", "tracker"]) for _ in range(rng.choice([0, 1, 2, 2]))]
        if self.kind == "limit":
            kinds = rng.choice([["scope", "tracker"], ["scope", "scope"], ["tracker", "tracker"]])
        rng.shuffle(kinds)
        for number, kind in enumerate(kinds):
            self.open_set(number, kind)

    def open_set(self, number, kind):
        n, m, w = self.set_size()
        room = 3 * n * m * w + (SPARE if self.kind == "words" else 0)
        flags = " ".join(map(str, self.flags))
        if kind == "scope":
            self.scopes.append(number)
            self.lines.append(f"open_scope {number} {n} {m} {w} {flags} {room}")
        else:
            self.trackers.append(number)
            self.lines.append(f"open_tracker {number} {n} {m} {w} {flags} {self.mask()} {room} {room}")

    def set_size(self):
        """The case's, or now and then another, so that whole sets are refused."""
        if self.kind in ("put", "limit", "words") or self.rng.random() < 0.85:
            return self.size
        return tuple(self.rng.randint(1, most) for most in self.most[:3])

    def mask(self):
        one, other = self.rng.choice(self.states), self.rng.choice(self.states)
        return self.rng.choice([0, 65535, self.rng.randrange(65536), one, one | other])

    # ---- states put in -------------------------------------------------------------------------------

    def put_textures(self, number):
        n = self.size[0]
        for index in sorted(self.rng.sample(range(n), self.rng.randint(0, min(n, 4)))):
            mips, layers = self.extents[index]
            halves = self.tracker_halves(mips, layers) if number in self.trackers \
                else [self.half(mips, layers, self.rng.choice([0, .2, .6]))[0]]
            self.lines.append(f"put {number} {index} {mips} {layers} " + " ".join(halves))

    def half(self, mips, layers, unknown):
        """The text of a half, and its states."""
        if self.rng.random() < 0.3:
            state = self.rng.choice(self.states)
            return f"single {state}", [state] * (mips * layers)
        states = chance.subresources(self.rng, self.flags, self.states, mips * layers, unknown)
        return chance.half_text(self.rng, states, mips, layers), states

    def tracker_halves(self, mips, layers):
        """Start and end, which agree on where nothing is known."""
        start, starts = self.half(mips, layers, self.rng.choice([0, 0, .2, .6]))
        end, ends = self.half(mips, layers, 0)
        if self.flags.unknown in starts:
            ends = [self.flags.unknown if one == self.flags.unknown else two for one, two in zip(starts, ends)]
            end = chance.half_text(self.rng, ends, mips, layers)
        return start, end

    def poke_words(self):
        """Numbers where no set looks, and ownership words other than 1."""
        n, m, w = self.size
        for number in self.scopes + self.trackers:
            tracker = number in self.trackers
            unused = words.unused(tracker, n) + words.past(tracker, 3 * n * m * w, SPARE)
            owned = [int(line.split(" ")[2]) for line in self.lines if line.startswith(f"put {number} ")]
            self.lines += words.pokes(number, self.rng.sample(unused, 12), words.anything(self.rng))
            self.lines += words.pokes(number, words.owned(owned), words.nonzero(self.rng))

    # ---- calls ---------------------------------------------------------------------------------------

    def call(self):
        word = self.rng.choices(list(CALLS), CALLS.values())[0]
        if word in ("merge_single", "set_single"):
            sets = self.scopes if word == "merge_single" else self.trackers
            if sets:
                self.add(self.single(word, self.rng.choice(sets)))
                self.add_faulty(self.lines[-1])
            return
        to, source = (self.scopes if word.startswith("merge") else self.trackers,
                      self.trackers if word == "set_from_tracker" else self.scopes)
        pairs = [(one, other) for one in to for other in source if one != other]
        if pairs:
            numbers = self.rng.choice(pairs) + (self.indices() if word == SPARSE else ())
            self.add(" ".join([word] + [str(number) for number in numbers]))

    def add(self, line):
        """A call; now and then with a log of its own, which may be too short."""
        rng = self.rng
        if line.startswith("set") and rng.random() < 0.02:
            written, free = rng.randrange(3), rng.randrange(7)
            self.lines.append(f"log {written} {free} {max(0, 7 * (written + free) + rng.randint(-1, 6))}")
        self.lines.append(line)

    def add_faulty(self, line):
        """Now and then the same use again, with a selector that one of 16 to 19 refuses."""
        if self.apart.random() < 0.03:
            *use, mips, layers, state = line.split(" ")[:6]
            selected = chance.faulty_selector(self.apart, int(mips), int(layers))
            self.lines.append(" ".join([*use, mips, layers, state, *map(str, selected)]))

    def single(self, word, number):
        rng = self.rng
        n, m, w = self.size
        index = rng.randrange(min(n, 4)) if rng.random() < 0.9 else rng.randrange(n)
        index = index if rng.random() < 0.97 else rng.randrange(n + 2)
        mips, layers = self.extents[index]
        if rng.random() < 0.03:
            mips, layers = rng.randint(0, m + 1), rng.randint(0, w + 1)
        given = chance.state(rng, self.flags, self.states)
        selected = chance.selector(rng, mips, layers) if mips and layers else ()
        return " ".join([word] + [str(each) for each in (number, index, mips, layers, given) + selected])

    def indices(self):
        """A sparse list: repeats, textures that are not owned, and now and then one that does not exist."""
        n = self.size[0]
        return tuple(self.rng.randrange(min(n, 4)) if self.rng.random() < 0.97 else self.rng.randrange(n + 2)
                     for _ in range(self.rng.randint(0, 5)))


def case(kind, name, flags, seed, number):
    """A case depends on nothing but these."""
    rng, apart = (random.Random(f"{seed} {name} {kind} {number}{more}") for more in ("", " faulty"))
    return Maker(kind, flags, rng, apart).case(number)
