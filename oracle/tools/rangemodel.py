"""isolate, coalesce and iter_filter by what they do to the layers, and what the calls answer."""
import refusals
from refusals import Refusal


def isolate(records, start, end, default):
    """Cut at start and end, fill the gaps between: position, count, records."""
    before = [(a, min(b, start), s) for a, b, s in records if a < start]
    after = [(max(a, end), b, s) for a, b, s in records if b > end]
    run, at = [], start
    for a, b, state in overlaps(records, start, end):
        if a > at:
            run.append((at, a, default))
        run.append((a, b, state))
        at = b
    if at < end:
        run.append((at, end, default))
    return len(before), len(run), before + run + after


def coalesce(records):
    """Join neighbours that touch and have the same state."""
    out = []
    for start, end, state in records:
        if out and out[-1][1:] == (start, state):
            out[-1] = (out[-1][0], end, state)
        else:
            out.append((start, end, state))
    return out


def overlaps(records, start, end):
    """What iter_filter lists: the parts of the records inside start..end."""
    return [(max(a, start), min(b, end), s) for a, b, s in records if b > start and a < end]


def filler(at):
    """Record `at` of a lent run, before a call, where the line does not give it."""
    return (1000 + at, 2000 + at, 3000 + at)


def lent_run(records, used, lent):
    """The run after a call: the result, zeros where records were freed, the rest as before."""
    freed = [(0, 0, 0)] * (used - len(records))
    shown = records + freed
    return shown + [filler(at) for at in range(len(shown), lent)]


def line_of(text, records):
    return " ".join([text] + [str(number) for record in records for number in record])


def read_records(length, lent, numbers):
    """The records that a line gives."""
    given = numbers[:3 * min(length, lent)]
    return list(zip(given[0::3], given[1::3], given[2::3]))


def answer_isolate(numbers):
    start, end, default, length, lent, *rest = numbers
    records = read_records(length, lent, rest)
    refusal = refusals.ranged(start, end, length, lent, records)
    if refusal:
        return refusal
    position, count, result = isolate(records, start, end, default)
    if len(result) > lent:
        return Refusal(15, 0)
    return line_of(f"isolated {position} {count} {len(result)}", lent_run(result, length, lent))


def answer_coalesce(numbers):
    length, lent, *rest = numbers
    records = read_records(length, lent, rest)
    refusal = refusals.ranges(length, lent, records)
    if refusal:
        return refusal
    result = coalesce(records)
    return line_of(f"coalesced {len(result)}", lent_run(result, length, lent))


def answer_iter_filter(numbers):
    start, end, length, lent, lent_out, *rest = numbers
    records = read_records(length, lent, rest)
    refusal = refusals.ranged(start, end, length, lent, records)
    if refusal:
        return refusal
    result = overlaps(records, start, end)
    if len(result) > lent_out:
        return Refusal(15, 0)
    return line_of(f"filtered {len(result)}", lent_run(result, 0, lent_out))


# Each answers a Refusal or the text of a line.
CALLS = {"isolate": answer_isolate, "coalesce": answer_coalesce, "iter_filter": answer_iter_filter}
