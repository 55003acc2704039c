"""merge_logs, by the words of document 02's request 14 alone: wgpu-core has no such call."""
import refusals
from refusals import ENTRY_NUMBERS, Refusal


def entries(log):
    return [log[at:at + ENTRY_NUMBERS] for at in range(0, len(log), ENTRY_NUMBERS)]


def merge(first, second):
    """The entries "until one is used up, the first recorder's entry going first on equal index", and both rests."""
    merged, first, second = [], list(first), list(second)
    while first and second:
        earlier = first if first[0][0] <= second[0][0] else second
        merged.append(earlier.pop(0))
    return merged, first, second


def filler(at):
    """Number `at` of the third log before a call. Its older entries descend: nobody judges them."""
    return max(90000 - at, 0)


def appended(merged, written, lent):
    """All numbers of the third log after a call."""
    third = [filler(at) for at in range(lent)]
    numbers, begin = [number for entry in merged for number in entry], ENTRY_NUMBERS * written
    third[begin:begin + len(numbers)] = numbers
    return third


def line_of(text, numbers):
    return " ".join([text, *map(str, numbers)])


def rest(name, log, left):
    """The line of what is handed back: the last entries of a log, as many as are left of it."""
    begin = len(log) - ENTRY_NUMBERS * len(left)
    return line_of(f"rest {name} {begin}", log[begin:])


def answer(numbers):
    """A Refusal or the text of a line, and the line of the rest."""
    written, free, lent, n, m, *logs = numbers
    first, second = logs[:n], logs[n:n + m]
    nothing = rest("second", second, [])
    refusal = refusals.merging(written, free, lent, first, second)
    if refusal:
        return refusal, nothing
    merged, of_first, of_second = merge(entries(first), entries(second))
    if len(merged) > free:
        return Refusal(15, 0), nothing
    told = line_of(f"merged {written + len(merged)} {free - len(merged)}", appended(merged, written, lent))
    return told, rest("first", first, of_first) if of_first else rest("second", second, of_second)
