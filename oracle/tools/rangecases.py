"""Cases for isolate, coalesce and iter_filter: those that are always made, refused ones, and random ones."""
import random

import rangemodel
from chance import TOP, faulty


def text(records):
    return "".join(f" {start} {end} {state}" for start, end, state in records)


def isolate(start, end, default, records, spare=2):
    lent = len(rangemodel.isolate(records, start, end, default)[2]) + spare
    return f"isolate {start} {end} {default} {len(records)} {lent}" + text(records)


def coalesce(records, spare=1):
    return f"coalesce {len(records)} {len(records) + spare}" + text(records)


def iter_filter(start, end, records, spare=2):
    return f"iter_filter {start} {end} {len(records)} {len(records)} {len(records) + spare}" + text(records)


def all_three(start, end, records, default=9):
    return [isolate(start, end, default, records), coalesce(records), iter_filter(start, end, records)]


def random_records(rng):
    """Up to five ranges with gaps, near 0 or near the largest number."""
    count = rng.choice([0, 1, 1, 2, 2, 3, 4, 5])
    base = TOP - rng.randint(2 * count, 14) if rng.random() < 0.15 else 0
    ends = sorted(rng.sample(range(base, min(base + 14, TOP) + 1), min(2 * count, TOP - base + 1)))
    records, at = [], 0
    while len(records) < count and at + 1 < len(ends):
        records.append((ends[at], ends[at + 1], rng.choice([1, 1, 2, 4])))
        at += 1 if rng.random() < 0.6 else 2
    return base, records


def random_calls(rng):
    base, records = random_records(rng)
    start = min(base + rng.randint(0, 15), TOP - 1)
    end = rng.randint(start + 1, min(start + 8, TOP)) if rng.random() < 0.95 else rng.randint(start + 1, TOP)
    return all_three(start, end, records)


def steps(count, width, states):
    """`count` ranges without gaps, each `width` long."""
    return [(at * width, (at + 1) * width, states[at % len(states)]) for at in range(count)]


def always():
    """01's samples, no range, one range, 256 ranges, gaps, and the largest ends."""
    calls = [isolate(3, 7, 9, [(2, 4, 5), (6, 8, 6)]), isolate(5, 7, 9, [(0, 2, 5)])]
    calls += all_three(0, 1, []) + all_three(0, TOP, []) + all_three(TOP - 1, TOP, [])
    one = [(4, 8, 5)]
    for start in range(2, 10):
        for end in range(start + 1, 11):
            calls += [isolate(start, end, 9, one), iter_filter(start, end, one)]
    for records in ([(0, TOP, 3)], [(0, 1, 3), (TOP - 1, TOP, 3)], [(TOP - 2, TOP - 1, 1), (TOP - 1, TOP, 1)]):
        for start, end in ((0, TOP), (0, 1), (1, TOP - 1), (TOP - 1, TOP), (TOP - 2, TOP)):
            calls += all_three(start, end, records)
    for records in (steps(256, 1, [1, 2]), steps(256, 1, [7]), steps(128, 1, [1, 2]),
                    [(2 * at, 2 * at + 1, 5) for at in range(128)]):
        for start, end in ((0, 256), (17, 18), (100, 201), (255, 300)):
            calls += all_three(start, end, records)
    return calls


def refused():
    """Numbers 18, 19, 14 and 15 at their edges, and each before the next."""
    good = ["2 5 2 4 5 6 8 6", "2 4 2 4 5 6 8 6", "1 3 0 8 5", "1 2 0 8 5", "0 0", "0 1"]
    bad = ["3 2 1 2 5 3 4 5", f"{TOP} 1 0 1 5", "1 0", "1 3 3 3 5", "1 3 4 3 5", "2 5 0 2 5 1 3 5", "2 5 4 5 5 0 1 5",
           "3 9 0 2 5 2 3 5 3 3 5", "1 1 3 3 5"]
    for told in good + bad:
        length, lent, *rest = told.split(" ")
        for index in ("3 7", "7 7", "8 7"):
            yield f"isolate {index} 9 {told}"
            for room in (0, 1, 2):
                yield " ".join(["iter_filter", index, length, lent, str(room), *rest])
        yield f"coalesce {told}"
    for index in ("8 7", f"{TOP} {TOP}", f"{TOP} 0", "0 0", f"0 {TOP}", "7 8", "1 0", "0 1", f"{TOP} {TOP - 1}",
                  f"{TOP - 1} {TOP}"):
        yield from (f"isolate {index} 9 2 5 2 4 5 6 8 6", f"iter_filter {index} 2 2 2 2 4 5 6 8 6")
        # Beside 14, and beside 15.
        yield from (f"isolate {index} 9 2 5 6 8 6 2 4 5", f"iter_filter {index} 2 2 2 6 8 6 2 4 5")
        yield from (f"isolate {index} 9 2 2 2 4 5 6 8 6", f"iter_filter {index} 2 2 0 2 4 5 6 8 6")


def random_refused(rng):
    """Now and then layers of no length, or reversed; the ranges may be refused too."""
    if rng.random() >= 0.25:
        return []
    _, records = random_records(rng)
    start, end = faulty(rng, 14)
    shown = text(records if rng.random() < 0.7 else records[::-1])
    count, spare = len(records), rng.randrange(3)
    return [f"isolate {start} {end} 9 {count} {count + spare}{shown}",
            f"iter_filter {start} {end} {count} {count} {spare}{shown}"]


def case(seed, number, count):
    """A case of random calls. The refused ones are drawn apart, so that the others do not depend on them."""
    rng, apart = (random.Random(f"{seed} ranges {number}{more}") for more in ("", " refused"))
    return [f"case {number}"] + [call for _ in range(count) for call in random_calls(rng) + random_refused(apart)]
