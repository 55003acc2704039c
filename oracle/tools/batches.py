"""Which cases a comparison makes, in batches that are run together."""
import examples
import generate
import logcases
import plancases
import rangecases
import samples
import words
from edges import Edges

# Of a hundred calls; the fixed cases come first and are not counted here.
SHARES = {"small": 54, "put": 16, "words": 4, "larger": 12, "limit": 2, "ranges": 8, "logs": 2, "plans": 2}
BATCH = {"small": 300, "put": 300, "words": 300, "larger": 200, "limit": 10, "ranges": 100, "logs": 100,
         "plans": 100}
# The calls on ranges, logs or plan files alone.
ALONE = {"ranges": rangecases, "logs": logcases, "plans": plancases}


def shares(safe):
    """Of each kind; a safe interface has no calls on ranges, logs or plan files alone."""
    return {kind: share for kind, share in SHARES.items() if not (safe and kind in ALONE)}


def fixed(name, flags):
    """Cases that are always run: 01's table, unused words, samples, examples; ranges, logs and plan files at their
    edges."""
    yield Edges(flags).cases()
    yield words.cases(Edges(flags))
    if name == "bench":
        alone = [["case 0", *made.always(), *made.refused()] for made in ALONE.values()]
        yield samples.cases() + examples.cases() + alone


def random_batch(kind, name, flags, seed, first, wanted):
    """The next cases of a kind, of which about `wanted` calls are wanted in all."""
    numbers = range(first, first + min(BATCH[kind], wanted // 12 + 1))
    if kind in ALONE:
        return [ALONE[kind].case(f"{seed} {name}", at, 7) for at in numbers]
    return [generate.case(kind, name, flags, seed, at) for at in numbers]
