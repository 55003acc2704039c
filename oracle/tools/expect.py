"""What a case must answer: the Rust's answers where 01 does not refuse, 01's refusals where it does."""
from typing import NamedTuple, Optional

import planmodel
import rust
from flags import read_flags
from judge import difference
from model import Model, Verdict
from refusals import Refusal

FLAGS = read_flags()
# Calls that wgpu-core does not have.
OWN = ("empty_log", "merge_logs", *planmodel.CALLS)


class Step(NamedTuple):
    """A line of a case, 01's verdict on it (None: a silent line), the Rust's answer, the log head lent with it."""
    line: str
    verdict: Optional[Verdict]
    answer: Optional[str]
    head: Optional[tuple]

    def entries(self):
        return self.answer.count("\ntransition ")

    def expected(self):
        """The text that a program must write for the line."""
        if self.verdict is None:
            return self.line + "\n" if self.line.startswith("case") else ""
        answer = self.verdict.answer
        if isinstance(answer, Refusal):
            return f"refused {answer.number} {answer.place} kept\n" + self.verdict.rest
        if isinstance(answer, str):
            return answer + "\n" + self.verdict.rest
        if self.head is None or self.line.startswith("merge"):
            return self.answer
        written, free, _ = self.head
        entries = self.entries()
        lines = self.answer.splitlines(True)
        lines.insert(1 + entries, f"log {written + entries} {free - entries}\n")
        return "".join(lines)


def for_rust(line, verdict, name):
    """The line as the driver reads it, or None if it is not for the driver."""
    word, *rest = line.split(" ")
    if word in ("case", "put"):
        return line
    if verdict is None or isinstance(verdict.answer, Refusal) or word in OWN:
        return None
    if word.startswith("open"):
        # A set that owns nothing looks the same with any flags, and one with others is never changed.
        rest[4:8] = map(str, FLAGS[name])
    return " ".join([word] + rest)


def judge_case(lines, full):
    """The verdict on each line; `full` has the positions of calls that need more log entries than are free."""
    model = Model()
    return [model.line(line, at in full) for at, line in enumerate(lines)]


def heads(lines):
    """For each line the log head that is lent with it, if a `log` line stands before it."""
    before = [None] + lines[:-1]
    return [tuple(map(int, last.split(" ")[1:])) if last and last.startswith("log ") else None for last in before]


def run_cases(cases, name, program=None, full=None):
    """The steps of each case, which is a list of lines. `full`: for each case, what judge_case takes."""
    full = full or [set() for _ in cases]
    verdicts = [judge_case(lines, known) for lines, known in zip(cases, full)]
    asked = [[for_rust(line, verdict, name) for line, verdict in zip(lines, judged)]
             for lines, judged in zip(cases, verdicts)]
    sent = [line for case in asked for line in case if line]
    answers = iter(rust.answers(rust.run(program or rust.driver(name), sent)))
    run = []
    for lines, judged, case in zip(cases, verdicts, asked):
        got = [next(answers) if line and not line.startswith("put") else None for line in case]
        run.append([Step(*each) for each in zip(lines, judged, got, heads(lines))])
    assert next(answers, None) is None
    return [again_if_full(*each, name, program) for each in zip(cases, run, full)]


def again_if_full(lines, steps, full, name, program):
    """Number 15 is 01's, the number of entries is the Rust's: a call that needs too many is taken back."""
    for at, step in enumerate(steps):
        if step.head and step.answer and not step.line.startswith("merge") and step.entries() > step.head[1]:
            return run_cases([lines], name, program, [full | {at}])[0]
    return steps


def first_difference(steps, name):
    """Where the Rust and 01 part: position in the case and a text, or None."""
    for at, step in enumerate(steps):
        if step.answer is not None and step.verdict is not None:
            found = difference(step.answer, step.verdict, FLAGS[name])
            if found:
                return at, found
    return None
