#!/usr/bin/env python3
"""Writes the stored cases, cases/NAME.txt, and what they must answer, cases/NAME.expected.

    store.py            writes them, and what the program `replay` is run on: crates/replay/stdin and stdout
    store.py --check    tells whether they are what would be written now

For each usage flags some calls that pass, chosen for variety; 01's table for the bench flags in refusals.txt; the calls
on ranged states in ranges.txt; unused words and ownership words in words.txt; merges of logs in logs.txt; plan files in
plans.txt, but for number 25, whose lines are long. The drivers must be built.
"""
import itertools
import re
import sys

import answer
import examples
import expect
import generate
import logcases
import plancases
import rangecases
import samples
import words
from edges import Edges
from flags import ORACLE
from refusals import Refusal

SEED = "stored"
CALLS = 340
RANDOM_RANGES = 40
RANDOM_WORDS = 24
RANDOM_LOGS = 80
RANDOM_PLANS = 40
# A case at the limits is long; those that are stored answer no more than this many bytes, and need no more room.
LONGEST = 9000
MOST_ROOM = 12288
FOLDER = ORACLE / "cases"
PROGRAM = ORACLE.parent / "crates" / "replay"
NUMBERS = re.compile(r"\d+")


def kinds():
    """The kinds of random cases in turn, and their numbers."""
    for number in itertools.count():
        yield from ((kind, number) for kind in ("small", "put", "larger", "limit"))


def passed(steps):
    """The case without what is refused and without logs, so that a driver can read it as it stands."""
    return [step.line for step in steps if not step.line.startswith("log ")
            and not (step.verdict and isinstance(step.verdict.answer, Refusal))]


def small(steps):
    rooms = [int(step.line.split(" ")[-1]) for step in steps if step.line.startswith("open_")]
    return max(rooms) <= MOST_ROOM and sum(len(step.expected()) for step in steps) <= LONGEST


def signatures(steps):
    """What is new about a case: for each call its word, its answer, and the forms of the textures after it."""
    for step in steps:
        if step.answer and not step.line.startswith(("case", "open_")):
            forms = set(NUMBERS.sub("", line) + str(line.count(" ")) for line in step.answer.splitlines())
            yield step.line.split(" ")[0], tuple(sorted(forms)), min(step.entries(), 4)


def chosen(name):
    """Random cases until there are enough calls; each shows at least three things that none before it does."""
    seen, cases, calls = set(), [], 0
    for kind, number in kinds():
        if calls >= CALLS:
            return cases
        steps, = expect.run_cases([generate.case(kind, name, expect.FLAGS[name], SEED, number)], name)
        new = set(signatures(steps)) - seen
        if len(new) < 3 or not small(steps):
            continue
        seen |= new
        cases.append(passed(steps))
        calls += sum(1 for step in steps if step.verdict and not step.line.startswith("open_")
                     and not isinstance(step.verdict.answer, Refusal))


def numbered(cases):
    return [[f"case {at}", *lines[1:]] for at, lines in enumerate(cases)]


def files():
    """Name and cases of each stored file."""
    for name, flags in expect.FLAGS.items():
        first = samples.cases() + examples.cases() if name == "bench" else []
        yield name, numbered([lines for lines in first if lines[1].startswith("open_")] + chosen(name))
    yield "refusals", Edges(expect.FLAGS["bench"]).cases()
    fixed = [["case", *rangecases.always()], ["case", *rangecases.refused()]]
    yield "ranges", numbered(fixed + [rangecases.case(SEED, at, 1) for at in range(RANDOM_RANGES)])
    bench = expect.FLAGS["bench"]
    yield "words", numbered(words.cases(Edges(bench)) + [
        generate.case("words", "bench", bench, SEED, at) for at in range(RANDOM_WORDS)])
    fixed = [["case", *logcases.always()], ["case", *logcases.refused()]]
    yield "logs", numbered(fixed + [logcases.case(SEED, at, 1) for at in range(RANDOM_LOGS)])
    fixed = [["case", *lines] for lines in plancases.stored()]
    yield "plans", numbered(fixed + [plancases.case(SEED, at, 1) for at in range(RANDOM_PLANS)])


def texts():
    """Path and text of each file that is written; the program is run on all stored cases, one file after another."""
    all_calls, all_answers = "", ""
    for name, cases in files():
        calls = "".join(line + "\n" for lines in cases for line in lines)
        answers = answer.answer(cases)
        yield FOLDER / (name + ".txt"), calls
        yield FOLDER / (name + ".expected"), answers
        all_calls, all_answers = all_calls + calls, all_answers + answers
        print(f"{name}: {len(cases)} cases, {len(calls.splitlines())} lines")
    yield PROGRAM / "stdin", all_calls
    yield PROGRAM / "stdout", all_answers


def main(check):
    changed = False
    for path, text in texts():
        if check:
            changed |= not path.exists() or path.read_text() != text
        else:
            path.write_text(text)
    if check:
        print("the stored cases are not what would be written now" if changed else "the stored cases are up to date")
    return changed


if __name__ == "__main__":
    sys.exit(main("--check" in sys.argv[1:]))
