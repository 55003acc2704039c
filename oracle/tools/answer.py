#!/usr/bin/env python3
"""Reads cases, writes what they must answer: the Rust's answers, and 01's refusals.

    answer.py < CALLS > EXPECTED
"""
import itertools
import sys

import expect

NAMES = {flags: name for name, flags in expect.FLAGS.items()}


def read_cases(lines):
    """Splits lines into cases; each begins with its `case` line."""
    cases = []
    for line in lines:
        if line.startswith("case "):
            cases.append([])
        cases[-1].append(line)
    return cases


def flags_of(case):
    """The name of the first usage flags that a driver is built for; a case without sets can go to any."""
    for word, *rest in (line.split(" ") for line in case):
        if word.startswith("open_"):
            name = NAMES.get(tuple(map(int, rest[4:8])))
            if name:
                return name
    return "bench"


def answer(cases):
    """The expected text of all cases."""
    text = []
    for name, group in itertools.groupby(cases, flags_of):
        for steps in expect.run_cases(list(group), name):
            text += [step.expected() for step in steps]
    return "".join(text)


if __name__ == "__main__":
    sys.stdout.write(answer(read_cases(sys.stdin.read().splitlines())))
