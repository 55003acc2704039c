"""Finds where two readers of a case part, and makes the case small."""
import re
from collections import Counter
from typing import NamedTuple

import expect
import rust
import safe
from grid import Conflict
from refusals import Refusal

CASE = re.compile(r"^(?=case )", re.M)


class Difference(NamedTuple):
    name: str
    lines: list
    text: str


class Readers(NamedTuple):
    """Who reads the cases: the Rust's driver (None: the one that is built here), and the proved program, if any.
    `room`: how many numbers the program has for a slice of ranges; larger cases are not for it.
    `safe`: it keeps the storage itself, so cases are without what it cannot be given."""
    driver: object = None
    program: object = None
    room: int = 12288
    safe: bool = False

    def given(self, cases):
        return [safe.case(lines) for lines in cases] if self.safe else cases


def examine(cases, name, readers, count):
    """The first difference in each case that has one. Counts calls, what became of them, and each refusal's number."""
    try:
        run = expect.run_cases(cases, name, readers.driver)
    except rust.Ended as error:
        return ended(cases, name, readers, str(error))
    for steps in run:
        count_calls(steps, count)
    found = [against_rules(steps, name) for steps in run]
    if readers.program:
        fitting = [steps for steps in run if fits(steps, readers.room)]
        count["cases too large for the program"] += len(run) - len(fitting)
        found += against_program(fitting, name, readers.program)
    return [each for each in found if each]


def ended(cases, name, readers, text):
    """The driver did not come to its end: finds the case by halves."""
    half = len(cases) // 2
    halves = [cases[:half], cases[half:]] if half else []
    found = [each for some in halves for each in examine(some, name, readers, Counter())]
    return found or [Difference(name, [line for lines in cases for line in lines], text)]


def count_calls(steps, count):
    count["cases"] += 1
    for step in steps:
        if step.verdict is None:
            continue
        if isinstance(step.verdict.answer, Refusal):
            count["refused calls"] += 1
            count[step.verdict.answer.number] += 1
            continue
        count["openings" if step.line.startswith("open_") else "calls"] += 1
        count["conflicts"] += isinstance(step.verdict.answer, Conflict)
        count["calls with transitions"] += bool(step.verdict.transitions)


def against_rules(steps, name):
    found = expect.first_difference(steps, name)
    if found is None:
        return None
    at, text = found
    lines = [step.line for step in steps[:at + 1]]
    return Difference(name, lines, f"the Rust answers\n{steps[at].answer}{text}")


def fits(steps, room):
    """Whether no opening of the case has more room than that."""
    return all(int(word) <= room for step in steps if step.line.startswith("open_")
               for word in step.line.split(" ")[9 if step.line.startswith("open_scope") else 10:])


def against_program(run, name, program):
    try:
        got = CASE.split(rust.run(program, [step.line for steps in run for step in steps]))[1:]
    except rust.Ended as error:
        if len(run) == 1:
            return [Difference(name, [step.line for step in run[0]], str(error))]
        half = len(run) // 2
        return against_program(run[:half], name, program) + against_program(run[half:], name, program)
    got += [""] * (len(run) - len(got))
    return [program_difference(steps, text, name) for steps, text in zip(run, got)]


def program_difference(steps, got, name):
    """The first line where the program's text is not the expected one."""
    expected = "".join(step.expected() for step in steps)
    if got == expected:
        return None
    pairs = zip(expected.splitlines() + ["(no line)"], got.splitlines() + ["(no line)"])
    want, have = next((pair for pair in pairs if pair[0] != pair[1]), ("(no line)", "(more lines)"))
    return Difference(name, [step.line for step in steps], f"expected  {want}\nprogram   {have}")


def minimise(difference, readers):
    """Leaves out lines, many at once and then fewer, as long as some difference remains."""
    best, size = difference, len(difference.lines) // 2
    while size > 0:
        at = 1
        while at < len(best.lines):
            smaller = differs(best.lines[:at] + best.lines[at + size:], best.name, readers)
            if smaller:
                best = smaller
            else:
                at += size
        size //= 2
    return best


def differs(lines, name, readers):
    """A difference in this one case; None also if the case makes no sense without what was left out."""
    try:
        found = examine([lines], name, readers, Counter())
    except (KeyError, AttributeError, rust.Malformed):
        return None
    return found[0] if found else None
