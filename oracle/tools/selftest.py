"""Breaks rules one at a time in a copy of this directory, and demands that `compare` reports each."""
import os
import pathlib
import shutil
import subprocess
import sys
import tempfile

import answer
import broken
import logcases
import logmodel
import plancases
import planmodel
import rust
from flags import ORACLE

QUICK = ["--no-build", "--flags", "bench", "--calls", "2000"]
# A copy has its drivers where nobody has said otherwise. No compiled Python is kept: of two copies of one size, broken within a second,
# the second would be run as the first.
PLAIN = {name: value for name, value in os.environ.items() if name not in ("CARGO_TARGET_DIR", "ORACLE_VENDOR")}
PLAIN["PYTHONDONTWRITEBYTECODE"] = "1"
SPOILED = """#!{python}
import subprocess, sys
text = subprocess.run([{python!r}, {answer!r}], input=sys.stdin.read(), text=True, stdout=subprocess.PIPE).stdout
sys.stdout.write(text.replace({old!r}, {new!r}, 1))
"""


def copy_oracle(folder):
    """A copy that has the drivers of this one."""
    copy = folder / "oracle"
    shutil.copytree(ORACLE, copy, ignore=shutil.ignore_patterns("target*", "cases", "__pycache__"))
    # build reads tools/need.
    shutil.copytree(ORACLE.parent / "tools", folder / "tools")
    shutil.copytree(rust.BUILT, copy / "rust" / "target" / "release",
                    ignore=shutil.ignore_patterns("deps", "incremental", "build", "examples", "*.rlib"))
    return copy


def compare(copy, *more):
    command = [sys.executable, str(copy / "compare"), *QUICK, *more]
    done = subprocess.run(command, capture_output=True, text=True, env=PLAIN)
    return done.returncode, done.stdout + done.stderr


def with_edit(path, rule, run):
    """Runs something while a file has a rule broken."""
    before = path.read_text()
    if before.count(rule.old) != 1:
        sys.exit(f"self-test: {path.name} has this {before.count(rule.old)} times: {rule.old}")
    path.write_text(before.replace(rule.old, rule.new))
    try:
        return run()
    finally:
        path.write_text(before)


def reported(status, text):
    """Status 1 and a smallest case, or a refusal that is missing: anything else is a fault of the comparison itself."""
    return status == 1 and ("smallest differing case" in text or "MISSING: no fixed case is refused" in text)


def build_and_compare(copy):
    workspace = copy / "rust"
    subprocess.run(["cargo", "build", "--quiet", "--release", "--offline", "--bin", "bench", "--manifest-path",
                    str(workspace / "Cargo.toml"), "--target-dir", str(workspace / "target")], check=True)
    return compare(copy)


def spoiled_program(copy, rule):
    path = copy / "spoiled"
    path.write_text(SPOILED.format(python=sys.executable, answer=str(copy / "tools" / "answer.py"),
                                   old=rule.old, new=rule.new))
    path.chmod(0o755)
    return compare(copy, "--program", str(path))


def attempts(copy, other):
    """Each broken rule, and what compare says. `other`: a second copy, by which a program reads."""
    for rule in broken.RULES:
        yield rule, with_edit(copy / "tools" / rule.file, rule, lambda: compare(copy))
    for rule in broken.TABLE + broken.PLANS:
        program = str(other / "tools" / "answer.py")
        yield rule, with_edit(other / "tools" / rule.file, rule, lambda: compare(copy, "--program", program))
    for rule in broken.PROGRAM:
        yield rule, spoiled_program(copy, rule)
    for rule in broken.RUST:
        yield rule, with_edit(copy / "rust" / "upstream" / rule.file, rule, lambda: build_and_compare(copy))


def tell(rule, result):
    good = reported(*result)
    print(f"{'reported' if good else 'MISSED'}: {rule.file}: {rule.what}", flush=True)
    if not good:
        print(result[1][-1500:])
    return good


def example_holds():
    """README.md's example, calls on the left and answers on the right."""
    text = (ORACLE / "README.md").read_text().splitlines()
    first = next(at for at, line in enumerate(text) if line.startswith("    case 1 "))
    rows = [line[4:] for line in text[first:text.index("", first)]]
    calls = [row[:57].rstrip() for row in rows if row[:57].strip()]
    answers = "".join(row[57:] + "\n" for row in rows if row[57:])
    return answer.answer([calls]) == answers


def merge_holds():
    """Request 14, of all pairs of short logs: "merged part and rest together hold every entry of both exactly once,
    ascending, each log's own order kept". A stable sort of both is that; and of one log nothing is left."""
    for logs in logcases.pairs(logcases.ascending(3), logcases.ascending(3)):
        first, second = map(logmodel.entries, logs)
        merged, of_first, of_second = logmodel.merge(first, second)
        together = sorted(first + second, key=lambda entry: entry[0])
        if merged + of_first + of_second != together or of_first and of_second:
            return False
    return True


def same_again(first, then, given):
    """What is accepted, read and written or written and read. `None` where it is refused."""
    made = planmodel.call(first, given, plancases.PLENTY)
    return None if made.refused else planmodel.call(then, made.made, plancases.PLENTY).made


def plans_hold():
    """Request 08, of all short ones and of each form: "An accepted file read and written is the same bytes, an accepted
    list written and read the same list"; of items that are no uses the kinds alone are compared."""
    for file in [*plancases.short_files(6), *plancases.plans()]:
        if same_again("read_plan", "write_plan", file) not in (None, file):
            return False
    for kinds in [*plancases.short_kinds(5), *plancases.deep_lists()]:
        items = plancases.items(kinds)
        cleared = b"".join(items[at:at + 16] if kind == planmodel.USED else plancases.item(kind)
                           for at, kind in zip(range(0, len(items), 16), kinds))
        if same_again("write_plan", "read_plan", items) not in (None, cleared):
            return False
    return True


def main():
    if not example_holds():
        print("README.md's example is not what the calls answer")
        return 1
    if not merge_holds():
        print("a merge of two logs is not what request 14 says of it")
        return 1
    if not plans_hold():
        print("a plan read and written, or written and read, is not the same again")
        return 1
    with tempfile.TemporaryDirectory() as folder:
        copy = copy_oracle(pathlib.Path(folder))
        status, text = compare(copy, "--program", str(copy / "tools" / "answer.py"))
        if status != 0:
            print(f"differences without any breakage:\n{text}")
            return 1
        other = copy_oracle(pathlib.Path(folder) / "other")
        results = [tell(*attempt) for attempt in attempts(copy, other)]
    print(f"self-test: {sum(results)} of {len(results)} broken rules reported")
    return 0 if all(results) else 1
