"""Cases for merge_logs: all pairs of short logs, those that are refused, and random ones, long ones among them."""
import itertools
import random

import logmodel
from chance import TOP
from refusals import ENTRY_NUMBERS

HEADS = [(0, 0, 0), (0, 6, 42), (2, 4, 42), (6, 0, 42), (0, 7, 42), (7, 0, 42), (3, 4, 42), (0, 6, 41), (0, 6, 48),
         (TOP, 1, 70), (1, TOP, 70), (TOP, TOP, 70), (0, 1, 6), (2, 3, 36)]
# How many entries a random log has at most, and how often.
LENGTHS = {3: 50, 8: 30, 40: 18, 400: 2}


def log_of(indices, number):
    """The numbers of a log with these indices. The others count on from `number`, so that no two entries are alike."""
    places = range(number, number + len(indices) * (ENTRY_NUMBERS - 1), ENTRY_NUMBERS - 1)
    return [each for index, at in zip(indices, places) for each in (index, *range(at, at + ENTRY_NUMBERS - 1))]


def call(written, free, lent, first, second):
    return logmodel.line_of("merge_logs", [written, free, lent, len(first), len(second), *first, *second])


def needed(first, second):
    return len(logmodel.merge(logmodel.entries(first), logmodel.entries(second))[0])


def fitting(first, second, written=0, spare=0, past=0):
    """With `spare` more free entries than are merged, and `past` numbers lent that the head does not tell."""
    free = needed(first, second) + spare
    return call(written, free, ENTRY_NUMBERS * (written + free) + past, first, second)


def short(most):
    """All logs of up to so many entries with indices from 0 to 2, those that descend among them."""
    return [list(indices) for count in range(most + 1) for indices in itertools.product(range(3), repeat=count)]


def ascending(most):
    return [indices for indices in short(most) if indices == sorted(indices)]


def pairs(some, others):
    return [(log_of(one, 10), log_of(other, 40)) for one in some for other in others]


def always():
    """All pairs of ascending logs of up to three entries, with heads in turn, and the largest indices."""
    for at, (first, second) in enumerate(pairs(ascending(3), ascending(3))):
        yield fitting(first, second, at % 4, at % 3, at % 9)
    large = [[TOP], [0, TOP], [TOP - 1, TOP], [TOP, TOP], [TOP - 1], [0]]
    for first, second in pairs(large, large):
        yield fitting(first, second)


def one_entry_less():
    """Number 15 at its edge: one free entry less than are merged, though the third log has room."""
    for first, second in pairs(ascending(2), ascending(2)):
        free = needed(first, second)
        if free:
            yield call(1, free - 1, ENTRY_NUMBERS * (free + 2), first, second)


def descending():
    """Number 31: every short log that descends, as the first and as the second, also past what would be merged."""
    others = [[], [0], [1], [2], [0, 1, 2]]
    bad = [indices for indices in short(3) if indices != sorted(indices)]
    for first, second in pairs(bad, others) + pairs(others, bad) + pairs(bad[:3], bad[:3]):
        yield fitting(first, second)
    for indices in ([0, TOP, TOP - 1], [TOP, 0], [1, 2, 3, 4, 5, 6, 7, 6], [0, 0, 0, 0, 0, 0, 1, 0]):
        for first, second in pairs([indices], [[0], [TOP]]) + pairs([[0], [TOP]], [indices]):
            yield fitting(first, second)


def cut():
    """Number 31: logs that stop inside an entry."""
    whole = log_of([0, 1, 2], 10)
    for length in (1, 2, 3, 4, 5, 6, 8, 13, 15, 20):
        part = whole[:length]
        for first, second in ((part, []), ([], part), (part, whole), (whole, part), (part, part)):
            yield fitting(first, second, spare=6)


def heads():
    """Number 5 at its edge, and every order of 5, 31 and 15."""
    good, bad = log_of([0, 1, 1], 10), log_of([1, 0], 40)
    logs = [(good, good), ([], []), (good, []), ([], good), (bad, good), (good, bad), (good, good[:-1]), ([1], good)]
    return [call(*head, first, second) for head in HEADS for first, second in logs]


def refused():
    return [*one_entry_less(), *descending(), *cut(), *heads()]


def random_log(rng, most, top):
    """An ascending log; its other numbers are small, so that lines stay short, or any."""
    other = rng.choice([9, 99, TOP])
    return [number for index in sorted(rng.randint(0, top) for _ in range(rng.randint(0, most)))
            for number in (index, *(rng.randint(0, other) for _ in range(ENTRY_NUMBERS - 1)))]


def random_logs(rng):
    most = rng.choices(list(LENGTHS), LENGTHS.values())[0]
    top = rng.choice([0, 2, most, 2 * most, TOP])
    return random_log(rng, most, top), random_log(rng, rng.choice([most, most, 3]), top)


def random_call(rng):
    return fitting(*random_logs(rng), rng.randrange(4), rng.choice([0, 0, 1, 5]), rng.randrange(9))


def random_refused(rng):
    """Now and then logs that one of 5, 31 and 15 may refuse: moved, cut, with too small a head or too large a one."""
    if rng.random() >= 0.25:
        return []
    first, second = random_logs(rng)
    free, damage = needed(first, second), rng.randrange(4)
    if damage == 0:
        moved = rng.sample(logmodel.entries(first), len(first) // ENTRY_NUMBERS)
        first = [number for entry in moved for number in entry]
    elif damage == 1:
        second = second[:rng.randint(0, len(second))]
    free = max(0, free - (damage == 2))
    return [call(0, free, max(0, ENTRY_NUMBERS * free - (damage == 3)), first, second)]


def case(seed, number, count):
    """A case of random calls. The refused ones are drawn apart, so that the others do not depend on them."""
    rng, apart = (random.Random(f"{seed} logs {number}{more}") for more in ("", " refused"))
    return [f"case {number}"] + [line for _ in range(count) for line in [random_call(rng), *random_refused(apart)]]
