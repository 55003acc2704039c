"""A reader of calls that answers by document 01 alone: its refusals, its grid rules, its rules for ranged states.

merge_logs and the calls on plan files are answered by document 02: logmodel.py, planmodel.py.
"""
from typing import NamedTuple

import grid
import logmodel
import planmodel
import rangemodel
import refusals
from flags import UsageFlags
from refusals import Refusal
from storage import Storage

SINGLE_CALLS = ("merge_single", "set_single")
SET_CALLS = ("merge_usage_scope", "set_from_usage_scope", "set_from_tracker")
SPARSE = "set_and_remove_from_usage_scope_sparse"
SILENT = ("put", "poke", "room", "log")


class Set:
    """A scope or a tracker: what 01's sheet keeps, the room that is lent, and the storage as long as it is known."""

    def __init__(self, tracker, n, m, w, flags, mask, rooms):
        self.tracker, self.n, self.m, self.w = tracker, n, m, w
        self.flags, self.mask, self.rooms, self.textures = flags, mask, rooms, {}
        self.storage = Storage(self)

    def well_formed(self):
        """A set stays well formed until somebody else writes its storage, or lends less of it."""
        if refusals.opening(self.n, self.m, self.w, self.flags, self.rooms):
            return False
        return self.storage is None or not self.storage.poked or self.storage.well_formed(self)

    def snapshot(self):
        return tuple(sorted(self.textures.items()))


class Verdict(NamedTuple):
    """What 01 says of a call. `answer` is None, a Refusal, a Conflict, or the text of a whole line.
    `rest`: what `merge_logs` tells after that, the line of the rest."""
    answer: object = None
    transitions: dict = {}
    sets: tuple = ()
    named: int = 0
    rest: str = ""


def read_half(words, mips):
    """Takes a half off the words: a state, or for each mip its records."""
    if words.pop(0) == "single":
        return int(words.pop(0))
    return [read_records(words, int(words.pop(0))) for _ in range(mips)]


def read_records(words, count):
    numbers = [int(word) for word in words[:3 * count]]
    del words[:3 * count]
    return list(zip(numbers[0::3], numbers[1::3], numbers[2::3]))


def grid_half(half, mips, layers):
    if isinstance(half, int):
        return grid.Half(True, (half,) * (mips * layers))
    return grid.Half(False, tuple(state for mip in half for start, end, state in mip
                                  for _ in range(end - start)))


class Model:
    def __init__(self):
        self.sets, self.head = {}, None

    def line(self, line, full_log=False):
        """The verdict on a call, None for a silent line. `full_log`: the call needs more entries than are free."""
        word, *rest = line.split(" ")
        if word == "case":
            self.__init__()
            return None
        if word in SILENT:
            return getattr(self, word)(rest)
        head, self.head = self.head, None
        numbers = [int(each) for each in rest]
        if word in rangemodel.CALLS:
            return Verdict(rangemodel.CALLS[word](numbers))
        if word == "empty_log":
            return Verdict(refusals.log(*numbers) or f"emptied 0 {numbers[0] + numbers[1]}")
        if word == "merge_logs":
            told, rest = logmodel.answer(numbers)
            return Verdict(told, rest=rest + "\n")
        if word in planmodel.CALLS:
            return Verdict(planmodel.answer(word, numbers))
        if word in ("open_scope", "open_tracker"):
            return self.open(word == "open_tracker", *numbers)
        return self.call(word, numbers, head, full_log)

    # ---- silent lines --------------------------------------------------------------------------------

    def put(self, words):
        number, index, mips, layers = (int(words.pop(0)) for _ in range(4))
        held = self.sets[number]
        halves = [read_half(words, mips) for _ in range(2 if held.tracker else 1)]
        held.textures[index] = grid.Texture(
            mips, layers, tuple(grid_half(half, mips, layers) for half in halves))
        held.storage.put(index, mips, layers, halves)

    def poke(self, words):
        number, part, offset, value = words
        self.sets[int(number)].storage.poke(part, int(offset), int(value))

    def room(self, words):
        number, *rooms = map(int, words)
        self.sets[number].rooms = rooms

    def log(self, words):
        self.head = tuple(map(int, words))

    # ---- calls on sets -------------------------------------------------------------------------------

    def open(self, tracker, number, n, m, w, *rest):
        flags, (mask, *rooms) = UsageFlags(*rest[:4]), rest[4:] if tracker else (0, *rest[4:])
        refusal = refusals.opening(n, m, w, flags, rooms)
        if refusal:
            return Verdict(refusal)
        self.sets[number] = Set(tracker, n, m, w, flags, mask, rooms)
        return self.verdict(None)

    def verdict(self, answer, transitions={}, named=0):
        sets = tuple((number, held.tracker, held.snapshot()) for number, held in sorted(self.sets.items()))
        return Verdict(answer, transitions, sets, named)

    def call(self, word, numbers, head, full_log):
        handed = [self.sets[number] for number in (numbers[:1] if word in SINGLE_CALLS else numbers[:2])]
        refusal = self.check(word, numbers, handed, head)
        if refusal or full_log:
            return Verdict(refusal or Refusal(15, 0))
        if word in SINGLE_CALLS:
            index, mips, layers, state, *selector = numbers[1:]
            use = grid.use_of(mips, layers, state, selector or None)
            given = [(index, mips, layers, use, use)]
        else:
            indices = numbers[2:] if word == SPARSE else sorted(handed[1].textures)
            given = [self.given(handed[1], index) for index in dict.fromkeys(indices)
                     if index in handed[1].textures]
        answer = self.make(handed[0], given, word.startswith("merge"))
        if word == SPARSE:
            self.remove(handed[1], given)
        return self.verdict(*answer)

    def check(self, word, numbers, handed, head):
        """01's table, top to bottom."""
        if not all(held.well_formed() for held in handed):
            return Refusal(4, 0)
        refusal = None
        if head and not word.startswith("merge"):
            refusal = refusals.log(*head)
        if word in SINGLE_CALLS:
            _, index, mips, layers, state, *selector = numbers
            return refusal or refusals.single(handed[0], index, mips, layers, state, selector or None)
        if word == SPARSE:
            return refusal or refusals.sparse(handed[0], handed[1], numbers[2:])
        return refusal or refusals.whole_set(*handed)

    @staticmethod
    def remove(source, given):
        source.storage = None
        for index, *_ in given:
            del source.textures[index]

    @staticmethod
    def given(source, index):
        """What a set hands in: start and end of a tracker, twice the same of a scope."""
        mips, layers, halves = source.textures[index]
        return index, mips, layers, grid.Use(*halves[0]), grid.Use(*halves[-1])

    def make(self, to, given, merging):
        """Changes a set: answer, transitions, how many subresources were named."""
        to.storage = None
        transitions, named = {}, 0
        for index, mips, layers, start, end in given:
            named += sum(state is not None for state in start.states)
            if merging:
                conflict = self.merge(to, index, mips, layers, start)
                if conflict:
                    return conflict, {}, named
            else:
                found = self.track(to, index, mips, layers, start, end)
                transitions.update({(index, at // layers, at % layers): pair for at, pair in found.items()})
        return None, transitions, named

    @staticmethod
    def merge(to, index, mips, layers, use):
        held = to.textures.get(index)
        if held is None:
            half, at = grid.insert(to.flags, use), None
        else:
            half, at = grid.merge(to.flags, held.halves[0], use)
        to.textures[index] = grid.Texture(mips, layers, (half,))
        if at is None:
            return None
        return grid.Conflict(index, at // layers, at % layers, half.states[at], use.states[at])

    @staticmethod
    def track(to, index, mips, layers, start_use, end_use):
        held = to.textures.get(index)
        if held is None:
            halves, found = (grid.insert(to.flags, start_use), grid.insert(to.flags, end_use)), {}
        else:
            start, end = held.halves
            found = grid.barrier(to.flags, to.mask, end, start_use)
            halves = grid.update(to.flags, start, end, end_use)
        to.textures[index] = grid.Texture(mips, layers, halves)
        return found
