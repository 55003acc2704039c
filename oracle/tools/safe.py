"""Cases for a program that keeps the storage itself, as the Rust crate of bindings/ does: `compare --safe`.

Nobody can damage such storage, lend less of it, or make up a log's head or its entries. What a case has of that is left
out, and states that are put in are made by calls, as far as calls make them. Calls on ranges, logs and plan files alone
are left out too. What is left is a case like any other.
"""
from model import SILENT, read_half
from planmodel import CALLS as PLAN_CALLS
from rangemodel import CALLS as RANGE_CALLS

# Of the states that are put in, at most so many ranges of a half are made.
MOST_RANGES = 24
# The largest log that is filled by calls.
MOST_ENTRIES = 4096
LIMITS = (64, 16, 256)


def case(lines):
    """The case without what a safe interface cannot be given."""
    flags, made = {}, []
    for line in lines:
        word, *rest = line.split(" ")
        if word.startswith("open_"):
            made.append(opening(word, rest))
            flags[rest[0]] = word, int(rest[7])
        elif word == "put":
            made += calls(*flags[rest[0]], rest)
        elif word in ("log", "empty_log"):
            made += [line] if fits(*map(int, rest)) else []
        elif word not in (*SILENT, *RANGE_CALLS, *PLAN_CALLS, "merge_logs"):
            made.append(line)
    return made


def opening(word, rest):
    """An opening with the room that the program will lend: enough."""
    sizes = [int(each) for each in rest[1:4]]
    if all(1 <= size <= most for size, most in zip(sizes, LIMITS)):
        first = 8 if word == "open_scope" else 9
        rest = rest[:first] + [str(3 * sizes[0] * sizes[1] * sizes[2])] * (len(rest) - first)
    return " ".join([word] + rest)


def fits(written, free, lent):
    return 7 * (written + free) <= lent and written + free <= MOST_ENTRIES


def calls(opened, unknown, rest):
    """Single uses that leave a texture much as it would be put in."""
    word = "set_single" if opened == "open_tracker" else "merge_single"
    texture, words = " ".join(rest[:4]), rest[4:]
    while words:
        half = read_half(words, int(rest[2]))
        for state, selector in [(half, "")] if isinstance(half, int) else parts(half):
            if state & ~unknown:
                yield f"{word} {texture} {state & ~unknown}{selector}"


def parts(mips):
    """The first ranges, each with its selector."""
    ranges = [(state, f" {mip} {mip + 1} {start} {end}")
              for mip, records in enumerate(mips) for start, end, state in records]
    return ranges[:MOST_RANGES]
