"""Cases for read_plan, write_plan and plan_uses: all short files and lists, each refusal at its edge and before the
next one, room at its edges, and random plans, damaged ones among them."""
import itertools
import random

import logmodel
import planmodel
from planmodel import CLOSED, DEEPEST, GROUP, HEADER, ITEM_BYTES, LONGEST, OPENED, USE, USE_BYTES, USED

# How many events a random plan has at most, and how often.
LENGTHS = {4: 40, 12: 40, 40: 18, 200: 2}
# Room that is never too little, for what needs less than a line has.
PLENTY = 1 << 20


# ---- parts of files and lists ----------------------------------------------------------------------------------------

def use_bytes(first):
    """The bytes of a use, no two alike."""
    return bytes((first + at) % 256 for at in range(USE_BYTES))


def header(tag, length):
    return bytes([tag]) + length.to_bytes(2, "little")


def use(first=16):
    return header(USE, USE_BYTES) + use_bytes(first)


def group(*fields):
    content = b"".join(fields)
    return header(GROUP, len(content)) + content


def nested(depth, inside=b""):
    """So many groups, one in the other."""
    for _ in range(depth):
        inside = group(inside)
    return inside


def item(kind, rest=bytes(USE_BYTES)):
    return bytes([kind]) + rest


def items(kinds, first=16):
    """A list of these kinds; every item has bytes of its own, those that are no uses too."""
    return b"".join(item(kind, use_bytes(first + 20 * at)) for at, kind in enumerate(kinds))


def kinds_nested(depth, *inside):
    return [OPENED] * depth + list(inside) + [CLOSED] * depth


# ---- lines -----------------------------------------------------------------------------------------------------------

def line(word, lent, given):
    return logmodel.line_of(word, [lent, len(given), *given])


def needed(word, given):
    """What an accepted call writes; of a refused one nothing."""
    return len(planmodel.call(word, given, PLENTY).made)


def fitting(word, given, spare=0):
    return line(word, needed(word, given) + spare, given)


def of_file(file, spare=0):
    return fitting("read_plan", file, spare)


def of_list(listed, spare=0):
    """A list, written, and its uses."""
    return [fitting("write_plan", listed, spare), fitting("plan_uses", listed, spare)]


def rooms(word, given):
    """Every room from none to more than enough, as far as it may matter."""
    most = needed(word, given)
    near = [room for room in range(most - 2, most + 2) if room >= 0]
    return [line(word, room, given) for room in sorted({0, 1, most // 2, *near, most + 8, most + 17})]


# ---- fixed cases -----------------------------------------------------------------------------------------------------

def short_files(most, alphabet=range(4)):
    return [bytes(file) for count in range(most + 1) for file in itertools.product(alphabet, repeat=count)]


def short_kinds(most):
    return [kinds for count in range(most + 1) for kinds in itertools.product(range(4), repeat=count)]


def short(bytes_, events):
    """All files of up to so many bytes from 0 to 3, and all lists of up to so many events of the kinds 0 to 3."""
    for at, file in enumerate(short_files(bytes_)):
        yield of_file(file, at % 3)
    for at, kinds in enumerate(short_kinds(events)):
        yield from of_list(items(kinds), at % 3)


def plans():
    """Files that are accepted, of every form."""
    return [b"", use(), group(), group(group()), use() + use(64), group(use()), use() + group() + use(255),
            group(use(), group(use(64), group()), use(128)), group() * 3, nested(DEEPEST), nested(DEEPEST, use()),
            nested(DEEPEST - 1, use() + group(use(9)) + group()), header(USE, USE_BYTES) + bytes(USE_BYTES),
            header(USE, USE_BYTES) + bytes([255] * USE_BYTES), group(*map(use, range(20)))]


def listed(file):
    return planmodel.call("read_plan", file, PLENTY).made


def accepted():
    for file in plans():
        yield from rooms("read_plan", file)
        yield from rooms("write_plan", listed(file))
        yield from rooms("plan_uses", listed(file))


def cut_short():
    """Number 20: a tag and length cut short, and a length past its group or the file, by one and by many."""
    whole = group(use(), group(use(64)))
    yield from (whole[:length] for length in range(len(whole)))
    for rest in (b"\1", b"\2", b"\7", b"\1\0", b"\2\17", b"\7\0"):
        yield from (rest, use() + rest, group(rest), group(use() + rest), group(rest) + use(), nested(DEEPEST, rest))
    for tag, length, content in ((GROUP, 1, 0), (GROUP, 256, 3), (GROUP, 65535, 9), (USE, 15, 14), (USE, 15, 0)):
        past = header(tag, length) + bytes(content)
        yield from (past, use() + past, group(past), group(past) + use() * 20)


def unknown_tags():
    """Number 21, with any length that is not too long."""
    for tag in (0, 3, 4, 7, 128, 254, 255):
        for field in (header(tag, 0), header(tag, 15) + bytes(15), header(tag, 3) + group()):
            yield from (field, group(field), use() + field, group() + field + use(), nested(DEEPEST, field))


def wrong_sizes():
    """Number 22: uses of other lengths, 15 in the high byte among them."""
    for length in (0, 1, 3, 14, 16, 18, 30, 255, 256, 271, 3840):
        field = header(USE, length) + bytes(length)
        yield from (field, group(field), use() + field, nested(DEEPEST, field))


def too_deep():
    """Number 23: seven levels to ten, each length off by one; a ninth level late, and beside others."""
    for depth in range(DEEPEST - 1, DEEPEST + 3):
        for inside in (b"", use()):
            whole = nested(depth, inside)
            yield whole
            for at in range(0, HEADER * depth, HEADER):
                yield from (changed(whole, at + 1, by) for by in (1, -1))
    yield from (group(*[nested(DEEPEST - 1)] * 3), nested(DEEPEST) * 3, nested(DEEPEST) + nested(DEEPEST + 1))
    yield from (nested(DEEPEST, use() + group(use())), nested(4, use() + nested(5)), nested(4, nested(4) * 2))


def changed(some, at, by):
    """With one byte more or less by so much, taken round."""
    return some[:at] + bytes([(some[at] + by) % 256]) + some[at + 1:]


def two_faults():
    """Two that fit one field, and two in fields that follow each other: the first field's is told."""
    deep = nested(DEEPEST)[:-HEADER]
    ninth = [nested(DEEPEST, header(tag, length) + bytes(content))
             for tag, length, content in ((7, 1, 0), (GROUP, 1, 0), (USE, 16, 15), (USE, 14, 14), (GROUP, 0, 0))]
    yield from (b"\7\1\0", b"\7\0\0", header(USE, 16) + bytes(15), header(USE, 16) + bytes(16), *ninth, deep)
    faults = (b"\7", header(7, 0), header(USE, 1) + b"\0", nested(DEEPEST + 1), header(USE, 14) + bytes(14))
    for one, other in itertools.product(faults, repeat=2):
        yield from (one + other, group(one) + other, group(one + other), use() + group(use(), one) + other)


def turned_away_files():
    return [*cut_short(), *unknown_tags(), *wrong_sizes(), *too_deep(), *two_faults()]


def unbalanced():
    """Number 24 at its edges, and before 23: lists of kinds."""
    yield from ([CLOSED], [OPENED], [CLOSED, OPENED], [OPENED, CLOSED, CLOSED], [OPENED, OPENED, CLOSED])
    yield from ([0], [4], [255])
    for depth in (DEEPEST, DEEPEST + 1, 30):
        whole = kinds_nested(depth, USED)
        yield from (whole[:-1], whole[1:], whole + [CLOSED], whole + [OPENED], whole + [4], [0] + whole)
        yield [CLOSED] + whole
    yield kinds_nested(1, 4)


def deep_lists():
    """Number 23 in writing: seven levels to ten, and a ninth late."""
    for depth in range(DEEPEST - 1, DEEPEST + 3):
        yield from (kinds_nested(depth), kinds_nested(depth, USED), kinds_nested(1) * 9 + kinds_nested(depth))
    yield from (kinds_nested(100), kinds_nested(4, *kinds_nested(4), *kinds_nested(5)))


def ragged():
    """A rest of fewer than 16 bytes is no item; what opened and closed items have beside their kind is not read."""
    for rest in (1, 2, 8, 15):
        for kind in (OPENED, USED, CLOSED, 9):
            more = item(kind)[:rest]
            yield from (more, items([USED]) + more, items([OPENED, USED, CLOSED]) + more, items([OPENED]) + more)


def turned_away_lists():
    return [*map(items, unbalanced()), *map(items, deep_lists()), *ragged()]


def no_room(word, given):
    """15 is last: with no room another number is told all the same."""
    return line(word, 0, given)


def long_list(more, depth=1, last=()):
    """A group of 65,535 bytes and `more` times three, in as many groups as `depth` says, and what comes after it."""
    used = LONGEST // (HEADER + USE_BYTES)
    empty = (LONGEST - used * (HEADER + USE_BYTES)) // HEADER + more
    return items(kinds_nested(depth, *[USED] * used, *[OPENED, CLOSED] * empty), 0) + items(last)


def long_lists():
    """Number 25, for which 15 would stand if the group were not too long; and the numbers before it. A file of such a
    length is not told: the lines would be too long for a program."""
    lists = [long_list(0), long_list(1), long_list(-1, 2), long_list(0, 2), long_list(1, 9), long_list(1, 1, [CLOSED])]
    return [no_room("write_plan", each) for each in lists]


def always(bytes_=5, events=4):
    return [*short(bytes_, events), *accepted()]


def refused():
    """Each number at its edge; with room and without any."""
    files, lists = turned_away_files(), turned_away_lists()
    return [*(of_file(file, 32) for file in files), *(no_room("read_plan", file) for file in files[::7]),
            *(made for each in lists for made in of_list(each, 32)),
            *(no_room("write_plan", each) for each in lists[::5]), *long_lists()]


def stored():
    """Of each form some: a few hundred lines, and none that is long."""
    files, lists = turned_away_files(), turned_away_lists()
    some = [*(of_file(file, 16) for file in files[::7]), *(made for each in lists[::5] for made in of_list(each, 3))]
    return [*short(3, 2), *list(accepted())[::4]], [line for line in some if len(line) < 2000]


# ---- random cases ----------------------------------------------------------------------------------------------------

def random_use(rng):
    """Small numbers, so that lines stay short, or any."""
    most = rng.choice([1, 9, 255])
    return bytes(rng.randint(0, most) for _ in range(USE_BYTES))


def random_events(rng):
    """A balanced list of events, at most eight levels deep."""
    events, depth, deep = [], 0, rng.choice([0, 2, DEEPEST, DEEPEST])
    for _ in range(rng.randint(0, rng.choices(list(LENGTHS), LENGTHS.values())[0])):
        kind = rng.choice([OPENED, USED, USED, CLOSED])
        if kind == USED:
            events.append((USED, random_use(rng)))
        elif kind == OPENED and depth < deep or kind == CLOSED and depth > 0:
            events.append((kind, bytes(USE_BYTES)))
            depth += 1 if kind == OPENED else -1
    return events + [(CLOSED, bytes(USE_BYTES))] * depth


def random_plan(rng):
    """A good plan, as a file and as a list."""
    events = random_events(rng)
    return planmodel.file_of(events), b"".join(itertools.starmap(item, events))


def headers(file, begin=0):
    """Where the fields of a good file begin."""
    at = 0
    while at < len(file):
        end = at + HEADER + planmodel.number(file[at + 1:at + HEADER])
        yield begin + at
        if file[at] == GROUP:
            yield from headers(file[at + HEADER:end], begin + at + HEADER)
        at = end


def damaged_file(rng, file):
    """With a byte changed, put in or taken out, cut, too deep, or with a tag or a length that is not as it was."""
    at, kind, fields = rng.randint(0, len(file)), rng.randrange(7), list(headers(file))
    if kind == 0:
        return file[:at]
    if kind == 1:
        return file[:at] + bytes([rng.choice([0, 1, 2, 3, 15, 255])]) + file[at:]
    if kind == 2 or not fields:
        return file[:at] + file[at + 1:]
    if kind == 3:
        at = min(at, len(file) - 1)
        return file[:at] + bytes([rng.choice([0, 1, 2, 3, 15, 255, rng.randrange(256)])]) + file[at + 1:]
    if kind == 4:
        return nested(rng.randint(1, DEEPEST), file)
    at = rng.choice(fields) + (rng.choice([1, 1, 2]) if kind == 5 else 0)
    return changed(file, at, rng.choice([1, -1, HEADER, -HEADER]))


def damaged_list(rng, given):
    """With an item of another kind, an item put in, taken out or moved, cut, or too deep."""
    whole = [given[at:at + ITEM_BYTES] for at in range(0, len(given), ITEM_BYTES)]
    at, kind = rng.randint(0, len(whole)), rng.randrange(6)
    if kind == 0:
        return given[:rng.randint(0, len(given))]
    if kind == 1 or not whole:
        whole.insert(at, item(rng.choice([0, OPENED, USED, CLOSED, 4, 255]), random_use(rng)))
    elif kind == 2:
        del whole[at - 1]
    elif kind == 3:
        whole[at - 1] = bytes([rng.choice([0, OPENED, USED, CLOSED, 4])]) + whole[at - 1][1:]
    elif kind == 4:
        whole.insert(rng.randint(0, len(whole) - 1), whole.pop(at - 1))
    else:
        depth = rng.randint(1, DEEPEST)
        whole = [item(OPENED)] * depth + whole + [item(CLOSED)] * depth
    return b"".join(whole)


def random_list(rng):
    """Items of any kinds."""
    return b"".join(item(rng.choice([0, OPENED, USED, CLOSED]), random_use(rng)) for _ in range(rng.randint(0, 8)))


def random_call(rng):
    file, given = random_plan(rng)
    spare = rng.choice([0, 0, 1, 7, 20])
    return fitting(*rng.choice([("read_plan", file), ("write_plan", given), ("plan_uses", given)]), spare)


def random_refused(rng):
    """Often a damaged file or list, or one with too little room."""
    if rng.random() >= 0.5:
        return []
    file, given = random_plan(rng)
    some = [("read_plan", damaged_file(rng, file)), ("write_plan", damaged_list(rng, given)),
            ("write_plan", random_list(rng)), ("plan_uses", damaged_list(rng, given))]
    word, given = rng.choice(some)
    return [line(word, max(0, needed(word, given) - rng.choice([0, 0, 1, 16])), given)]


def case(seed, number, count):
    """A case of random calls. The refused ones are drawn apart, so that the others do not depend on them."""
    rng, apart = (random.Random(f"{seed} plans {number}{more}") for more in ("", " refused"))
    return [f"case {number}"] + [line for _ in range(count) for line in [random_call(rng), *random_refused(apart)]]
