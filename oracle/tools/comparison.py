"""The command `compare`."""
import argparse
import shutil
import subprocess
import sys
import time
from collections import Counter

import answer
import batches
import differ
import expect
import refusals
import rust
import samples
import selftest
from flags import ORACLE

# Of fewer random calls a seed may miss one of the numbers 16 to 19.
ENOUGH = 5000


def arguments():
    parser = argparse.ArgumentParser(
        prog="compare", description="Runs the same calls through the Rust of wgpu-core, through document 01's grid "
        "rules, and through the proved program if it is given, and tells where they part.")
    parser.add_argument("--calls", type=int, default=200_000, help="calls that pass 01's checks, over all flags")
    parser.add_argument("--seed", default="1")
    parser.add_argument("--flags", default=",".join(expect.FLAGS), help="names of flags.txt, with commas")
    parser.add_argument("--program", help="the proved program: reads the calls, writes the answers")
    parser.add_argument("--room", type=int, default=differ.Readers().room,
                        help="numbers that the program has for a slice of ranges; larger cases are not handed to it")
    parser.add_argument("--safe", action="store_true",
                        help="the program keeps the storage itself: only calls that it can be given (tools/safe.py)")
    parser.add_argument("--no-build", action="store_true", help="run the drivers that are there")
    parser.add_argument("--self-test", action="store_true", help="break rules one at a time; each must be reported")
    chosen = parser.parse_args()
    if chosen.program and not shutil.which(chosen.program):
        parser.error(f"there is no program {chosen.program}; if it is the proved one, `rt run <stdin` in crates/replay writes it")
    return chosen


def build():
    begin = time.monotonic()
    subprocess.run([str(ORACLE / "build")], check=True)
    print(f"build: {time.monotonic() - begin:.1f} seconds")


def compare_flags(name, calls, seed, readers):
    """Runs the share of one set of usage flags, up to the first batch that differs: the counts of the fixed cases and
    of the random ones, and differences."""
    flags, fixed, count = expect.FLAGS[name], Counter(), Counter()
    for cases in batches.fixed(name, flags):
        found = differ.examine(readers.given(cases), name, readers, fixed)
        if found:
            return fixed, count, found
    for kind, share in batches.shares(readers.safe).items():
        wanted, done = calls * share // 100, Counter()
        while done["calls"] < wanted:
            cases = batches.random_batch(kind, name, flags, seed, done["cases"], wanted)
            found = differ.examine(readers.given(cases), name, readers, done)
            if found:
                return fixed, count + done, found
        count += done
    return fixed, count, []


def line_of(count):
    words = ("cases", "openings", "calls", "refused calls", "conflicts", "calls with transitions",
             "cases too large for the program", "differences")
    return ", ".join(f"{count[word]:,} {word}" for word in words)


def refusals_met(fixed, random, wanted):
    """Tells how often each number was met; whether none is missing. `wanted`: of the fixed cases, and of the random."""
    missing = []
    for name, count, numbers in zip(("fixed", "random"), (fixed, random), wanted):
        met = ", ".join(f"{number}: {count[number]:,}" for number in refusals.NUMBERS if count[number])
        print(f"refused in {name} cases: {met or 'none'}")
        missing += [f"MISSING: no {name} case is refused with {number}" for number in numbers if not count[number]]
    print("\n".join(missing), end="\n" if missing else "")
    return not missing


def wanted_numbers(names, calls, safe):
    """What a run must meet. Only with the bench flags every number can arise, and has its fixed cases."""
    table = [number for number in refusals.NUMBERS if "bench" in names
             and not (safe and number in refusals.STORAGE + refusals.PLANS)]
    return table, refusals.INTERVALS if calls >= ENOUGH else ()


def samples_hold(readers):
    try:
        wrong = samples.differences(expect.run_cases(samples.cases(), "bench", readers.driver))
    except rust.Ended as error:
        wrong = [str(error)]
    print("\n".join(wrong) or f"B1 to B14 and the edges that pass: {len(samples.SAMPLES)} samples hold")
    return not wrong


def stored_hold(readers):
    """The stored answers are what the Rust and 01 answer now, and what the program answers."""
    wrong = [text for path in sorted((ORACLE / "cases").glob("*.txt")) for text in stored_faults(path, readers)]
    print("\n".join(wrong) or "the stored cases hold")
    return not wrong


def stored_faults(path, readers):
    calls, expected = path.read_text().splitlines(), path.with_suffix(".expected").read_text()
    try:
        if answer.answer(answer.read_cases(calls)) != expected:
            yield f"stored {path.stem}: the Rust or 01 answers otherwise now"
        if readers.program and not readers.safe and rust.run(readers.program, calls) != expected:
            yield f"stored {path.stem}: the program answers otherwise"
    except rust.Ended as error:
        yield f"stored {path.stem}: {error}"


def tell(difference, readers):
    least = differ.minimise(difference, readers)
    print(f"\nsmallest differing case, flags {least.name}:")
    print("\n".join("    " + line for line in least.lines))
    print(least.text)


def compare(names, calls, seed, readers):
    """Whether no difference was found, and every refusal met that had to be."""
    begin, all_fixed, all_random, all_found = time.monotonic(), Counter(), Counter(), []
    for name in names:
        fixed, random, found = compare_flags(name, calls // len(names), seed, readers)
        fixed["differences"] = len(found)
        print(f"{name}: {line_of(fixed + random)}", flush=True)
        all_fixed += fixed
        all_random += random
        all_found += found
    seconds, total = time.monotonic() - begin, all_fixed + all_random
    print(f"in all: {line_of(total)}; {seconds:.1f} seconds, {total['calls'] / seconds:,.0f} calls a second")
    if all_found:
        tell(min(all_found, key=lambda found: len(found.lines)), readers)
        return False
    return refusals_met(all_fixed, all_random, wanted_numbers(names, calls, readers.safe))


def main():
    chosen = arguments()
    if not chosen.no_build:
        build()
    if chosen.self_test:
        return selftest.main()
    readers = differ.Readers(None, chosen.program, chosen.room, chosen.safe)
    held = samples_hold(readers) and stored_hold(readers)
    same = compare(chosen.flags.split(","), chosen.calls, chosen.seed, readers)
    if not chosen.program:
        print("the proved program was not given: the Rust and 01's rules were compared")
    return 0 if held and same else 1
