#!/usr/bin/env python3
"""The command `plans`: the library's calls on plan files beside planmodel.py, many at once.

    planbulk.py LIBRARY.so [--calls N] [--seed S] [--self-test]
"""
import argparse
import ctypes
import itertools
import pathlib
import random
import shutil
import subprocess
import sys
import tempfile
import time
from array import array
from collections import Counter

import broken
import plancases
import planmodel
from planmodel import HEADER, ITEM_BYTES, LONGEST, USE_BYTES, USED, WIDTHS

DONE, REFUSED = 0, 1
# Bytes before and after what is borrowed, which must stay too; the most that is borrowed, and the bytes of one of it.
AROUND, MOST = 64, 1 << 21
SIZES = {"read_plan": 1, "write_plan": 1, "plan_uses": 4}
# What each call must meet: numbers of refusals, and None for an answer that is none.
WANTED = {"read_plan": (None, 20, 21, 22, 23, 15), "write_plan": (None, 24, 23, 25, 15), "plan_uses": (None, 15)}


class CountedAnswer(ctypes.Structure):
    """struct track_counted_answer: the ten numbers of an answer, and a count."""
    _fields_ = [("answer", ctypes.c_uint32 * 10), ("count", ctypes.c_size_t)]


class Differs(Exception):
    """The library and the model part."""


class Library:
    """The calls, over memory that is looked at whole afterwards."""

    def __init__(self, path):
        library = ctypes.CDLL(path)
        self.calls = {word: getattr(library, "track_" + word) for word in planmodel.CALLS}
        for call in self.calls.values():
            call.restype = CountedAnswer
            call.argtypes = [ctypes.c_void_p, ctypes.c_size_t] * 2
        self.given = ctypes.create_string_buffer(MOST)
        self.lent = ctypes.create_string_buffer(MOST + 2 * AROUND)
        self.before = planmodel.lent_bytes(MOST + 2 * AROUND)

    def call(self, word, given, room):
        """The answer, and what is borrowed after the call, with what is around it."""
        whole = room * SIZES[word] + 2 * AROUND
        ctypes.memmove(self.given, given, len(given))
        ctypes.memmove(self.lent, self.before, whole)
        got = self.calls[word](ctypes.addressof(self.given), len(given), ctypes.addressof(self.lent) + AROUND, room)
        if ctypes.string_at(self.given, len(given)) != given:
            raise Differs(f"{word} writes to what it reads: {tell(given, room)}")
        return (*got.answer, got.count), ctypes.string_at(self.lent, whole)


class Comparison:
    def __init__(self, library):
        self.library, self.met = library, Counter()

    def check(self, word, given, room):
        """One call, by the library and by the model: what the model answers."""
        want = planmodel.call(word, given, room)
        answer, memory = self.library.call(word, given, room)
        self.met[word, want.refused] += 1
        kind = (REFUSED, want.refused) if want.refused else (DONE, 0)
        if answer != (*kind, *[0] * 8, want.count):
            raise Differs(f"{word}: the model {kind}, count {want.count}, the library {answer}: {tell(given, room)}")
        made = array("I", want.made).tobytes() if SIZES[word] == 4 else want.made
        before = self.library.before
        if memory != before[:AROUND] + made + before[AROUND + len(made):len(memory)]:
            raise Differs(f"{word}: the memory is not what the model leaves: {tell(given, room)}")
        return want

    def some(self, word, given):
        """With the room that is always enough, and with a byte or number less than is needed."""
        got = self.check(word, given, enough(word, given))
        if got.made:
            self.check(word, given, len(got.made) - 1)
        return got

    def all(self, word, given):
        """With every room that may matter."""
        got = self.some(word, given)
        for room in {0, len(got.made), len(got.made) + 1}:
            self.check(word, given, room)
        return got

    def file(self, file, check):
        """Read; what is accepted is written again as the same bytes."""
        got = check("read_plan", file)
        if got.refused is None and check("write_plan", got.made).made != file:
            raise Differs(f"read and written, this is another file: {tell(file, 0)}")

    def list(self, items, check):
        """Written, and its uses; what is accepted is read again as the same events."""
        check("plan_uses", items)
        got = check("write_plan", items)
        if got.refused is None and events(check("read_plan", got.made).made) != events(items):
            raise Differs(f"written and read, this is another list: {tell(items, 0)}")


def tell(given, room):
    return f"room {room}, {len(given)} bytes, {given[:200].hex()}"


def enough(word, given):
    """A field of three bytes can be two items; an item a use."""
    if word == "read_plan":
        return 2 * ITEM_BYTES * (len(given) // HEADER)
    return len(given) // ITEM_BYTES * (HEADER + USE_BYTES if word == "write_plan" else len(WIDTHS))


def events(items):
    """What is compared of a list: of items that are no uses the kind alone."""
    return [(kind, use if kind == USED else None) for kind, use in planmodel.events_in(items)]


def fixed(compare):
    """All files of up to seven bytes from 0 to 3 and of up to six with 15 and 255 too, all lists of up to seven events
    of the kinds 0 to 3, and compare's own cases."""
    for file in itertools.chain(plancases.short_files(7), plancases.short_files(6, (0, 1, 2, 3, 15, 255)),
                                plancases.plans(), plancases.turned_away_files()):
        compare.file(file, compare.all)
    for items in itertools.chain(map(plancases.items, plancases.short_kinds(7)), plancases.turned_away_lists()):
        compare.list(items, compare.all)


def long(compare):
    """Groups of 65,535 bytes, three less and three more, alone and in others; longer plans without such a group."""
    for more, depth, last in itertools.product((-1, 0, 1), (1, 2, 8, 9), ([], [1], [2], [3], [4])):
        compare.list(plancases.long_list(more, depth, last), compare.some)
    whole = planmodel.call("write_plan", plancases.long_list(0), MOST).made
    cut = [whole[:-1], whole + b"\1", plancases.header(planmodel.GROUP, LONGEST) + whole[:LONGEST]]
    for file in (whole, whole + whole, *cut, plancases.use() * 4000):
        compare.file(file, compare.some)


def around_plan(compare, rng):
    """A random plan, and what damage makes of it."""
    file, items = plancases.random_plan(rng)
    compare.file(file, compare.some)
    compare.list(items, compare.some)
    for _ in range(8):
        compare.file(plancases.damaged_file(rng, file), compare.some)
        compare.list(plancases.damaged_list(rng, items), compare.some)
    compare.list(plancases.random_list(rng), compare.some)


def refusals_met(met):
    """Tells how often each answer was met; whether none is missing."""
    missing = []
    for word, numbers in WANTED.items():
        print(f"{word}: " + ", ".join(f"{number or 'done'}: {met[word, number]:,}" for number in numbers))
        missing += [f"MISSING: no {word} answers {number or 'done'}" for number in numbers if not met[word, number]]
    print("\n".join(missing), end="\n" if missing else "")
    return not missing


def run(path, calls, seed):
    begin, compare = time.monotonic(), Comparison(Library(path))
    try:
        fixed(compare)
        long(compare)
        first, rng = sum(compare.met.values()), random.Random(seed)
        while sum(compare.met.values()) < first + calls:
            around_plan(compare, rng)
    except Differs as difference:
        print(f"differs after {sum(compare.met.values()):,} calls: {difference}")
        return 1
    total = sum(compare.met.values())
    seconds = time.monotonic() - begin
    print(f"plans: {total:,} calls, {total - first:,} of them random, seed {seed}; {seconds:.1f} seconds; no difference")
    return 0 if refusals_met(compare.met) else 1


def reported(path, rule):
    """Whether a model with this rule broken is told from the library."""
    with tempfile.TemporaryDirectory() as folder:
        tools = pathlib.Path(folder) / "tools"
        shutil.copytree(pathlib.Path(__file__).parent, tools, ignore=shutil.ignore_patterns("__pycache__"))
        model = tools / rule.file
        text = model.read_text()
        if text.count(rule.old) != 1:
            sys.exit(f"plans: {rule.file} has this {text.count(rule.old)} times: {rule.old}")
        model.write_text(text.replace(rule.old, rule.new))
        command = [sys.executable, str(tools / "planbulk.py"), path, "--calls", "20000"]
        done = subprocess.run(command, capture_output=True, text=True)
    good = done.returncode == 1 and done.stdout.startswith("differs")
    print(f"{'reported' if good else 'MISSED'}: {rule.what}", flush=True)
    if not good:
        print((done.stdout + done.stderr)[-1500:])
    return good


def main():
    parser = argparse.ArgumentParser(prog="plans")
    parser.add_argument("library")
    parser.add_argument("--calls", type=int, default=1_000_000)
    parser.add_argument("--seed", default="1")
    parser.add_argument("--self-test", action="store_true")
    chosen = parser.parse_args()
    if not chosen.self_test:
        return run(chosen.library, chosen.calls, chosen.seed)
    results = [reported(chosen.library, rule) for rule in broken.PLANS]
    print(f"plans: {sum(results)} of {len(results)} broken rules reported")
    return 0 if all(results) else 1


if __name__ == "__main__":
    sys.exit(main())
