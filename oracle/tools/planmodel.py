"""read_plan, write_plan and plan_uses, by the words of document 02's request 08 alone: wgpu-core has no such calls.

A plan is a list of events here: a kind, and of a use its 15 bytes.
"""
import itertools
from typing import NamedTuple, Optional

import logmodel
from refusals import Refusal

GROUP, USE = 1, 2
OPENED, USED, CLOSED = 1, 2, 3
HEADER, USE_BYTES, ITEM_BYTES = 3, 15, 16
DEEPEST, LONGEST = 8, 65535
# "index 4, mips 1, layers 2, mip start 1, mip end 1, layer start 2, layer end 2, state 2"
WIDTHS = (4, 1, 2, 1, 1, 2, 2, 2)


class TurnedAway(Exception):
    """By the number of a refusal: the place of all of them is 0."""


class Answer(NamedTuple):
    """A refusal's number, or None; what is written, as bytes or as numbers; how many items, bytes or uses that are."""
    refused: Optional[int] = None
    made: object = b""
    count: int = 0


def number(some):
    """Request 08: "all numbers go low byte first"."""
    return sum(byte << 8 * at for at, byte in enumerate(some))


# ---- reading ---------------------------------------------------------------------------------------------------------

def check_field(rest, depth):
    """What a field is turned away for, "in this order". `rest`: what its group, or the file, has from it on; `depth`:
    in how many groups it stands."""
    if len(rest) < HEADER or number(rest[1:HEADER]) > len(rest) - HEADER:
        raise TurnedAway(20)
    tag, length = rest[0], number(rest[1:HEADER])
    if tag not in (GROUP, USE):
        raise TurnedAway(21)
    if tag == USE and length != USE_BYTES:
        raise TurnedAway(22)
    if tag == GROUP and depth == DEEPEST:
        raise TurnedAway(23)


def events_of(rest, depth=0):
    """The events of a run of fields, "in file order"."""
    events = []
    while rest:
        check_field(rest, depth)
        end = HEADER + number(rest[1:HEADER])
        tag, content, rest = rest[0], rest[HEADER:end], rest[end:]
        if tag == USE:
            events.append((USED, content))
        else:
            events += [(OPENED, None), *events_of(content, depth + 1), (CLOSED, None)]
    return events


def item(kind, use):
    return bytes([kind]) + (use or bytes(USE_BYTES))


def read(file, room):
    events = events_of(file)
    if ITEM_BYTES * len(events) > room:
        raise TurnedAway(15)
    return b"".join(itertools.starmap(item, events)), len(events)


# ---- writing ---------------------------------------------------------------------------------------------------------

def events_in(items):
    """The events of a list of items; a rest of fewer bytes than an item is none."""
    starts = range(0, len(items) - ITEM_BYTES + 1, ITEM_BYTES)
    return [(items[at], items[at + 1:at + ITEM_BYTES]) for at in starts]


def depths(events):
    """How many groups are open after each event."""
    steps = {OPENED: 1, CLOSED: -1}
    return list(itertools.accumulate(steps.get(kind, 0) for kind, _ in events))


def balanced(events, depth):
    """Whether every group is opened before it is closed, and closed; what is no event is in no balance."""
    kinds = all(kind in (OPENED, USED, CLOSED) for kind, _ in events)
    return kinds and min(depth, default=0) >= 0 and depth[-1:] in ([], [0])


def field(tag, content):
    if len(content) > LONGEST:
        raise TurnedAway(25)
    return bytes([tag]) + len(content).to_bytes(2, "little") + content


def file_of(events):
    """The bytes of a balanced list. Each opened group collects its content until it is closed."""
    contents = [b""]
    for kind, use in events:
        if kind == OPENED:
            contents.append(b"")
        elif kind == USED:
            contents[-1] += field(USE, use)
        else:
            content = contents.pop()
            contents[-1] += field(GROUP, content)
    return contents[0]


def write(items, room):
    events = events_in(items)
    depth = depths(events)
    if not balanced(events, depth):
        raise TurnedAway(24)
    if max(depth, default=0) > DEEPEST:
        raise TurnedAway(23)
    file = file_of(events)
    if len(file) > room:
        raise TurnedAway(15)
    return file, len(file)


# ---- the uses of a list ----------------------------------------------------------------------------------------------

def numbers_of(use):
    ends = itertools.accumulate(WIDTHS)
    return [number(use[end - width:end]) for end, width in zip(ends, WIDTHS)]


def uses(items, room):
    """Each use's eight numbers, for the list calls that merge them."""
    listed = [numbers_of(use) for kind, use in events_in(items) if kind == USED]
    if len(WIDTHS) * len(listed) > room:
        raise TurnedAway(15)
    return [each for numbers in listed for each in numbers], len(listed)


# ---- lines -----------------------------------------------------------------------------------------------------------

def filler(at):
    """Byte `at` of what is lent, before a call."""
    return 89 + at % 11


def lent_bytes(count):
    return bytes(map(filler, range(count)))


def lent_numbers(count):
    return [logmodel.filler(at) for at in range(count)]


# For each word the call, what it is lent, and the word of its answer.
CALLS = {"read_plan": (read, lent_bytes, "read"), "write_plan": (write, lent_bytes, "written"),
         "plan_uses": (uses, lent_numbers, "listed")}


def call(word, given, room):
    try:
        return Answer(None, *CALLS[word][0](given, room))
    except TurnedAway as refused:
        return Answer(refused.args[0])


def answer(word, numbers):
    """A Refusal or the text of a line."""
    lent, n, *given = numbers
    got = call(word, bytes(given[:n]), lent)
    if got.refused:
        return Refusal(got.refused, 0)
    _, before, told = CALLS[word]
    return logmodel.line_of(f"{told} {got.count}", [*got.made, *before(lent)[len(got.made):]])
