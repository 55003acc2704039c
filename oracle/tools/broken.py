"""Rules that the self-test breaks, one at a time: the file, what is broken, a text that it has once, and another."""
from typing import NamedTuple


class Broken(NamedTuple):
    file: str
    what: str
    old: str
    new: str


MERGE_SINGLE_MANY = "let merged_state = *current_simple | new_state;"
MERGE_MANY_SINGLE = """// simple states are never unknown.
                    let merged_state = merged_state - TextureUses::UNKNOWN;"""
BARRIER_UNKNOWN = """                if new_state == TextureUses::UNKNOWN {
                    continue;
                }

                if skip_barrier(current_simple"""
UPDATE_MANY_MANY = """                        }

                        *current_layer_state = new_state;"""

MIPS, LAYERS = "mip_interval(mip_start, mip_end)", "layer_interval(layer_start, layer_end)"
PAST = "past(mips, layers, mip_end, layer_end)"
SELECTED, STATE = "selector(mips, layers, selected)", "state(held.flags, given)"
RANGED, RANGES = "layer_interval(start, end)", "ranges(length, lent, records)"
HEAD, FIRST, SECOND = "log(written, free, lent)", "order(first)", "order(second)"
FREE, LOGS = "if len(merged) > free", "refusals.merging(written, free, lent, first, second)"
LEFT, MERGED = "return merged, first, second", "sum(merge(entries(first), entries(second))[0], [])"
CUT = "    if len(rest) < HEADER or number(rest[1:HEADER]) > len(rest) - HEADER:\n"
BALANCED = "    if not balanced(events, depth):\n        raise TurnedAway(24)\n"
DEEP = "    if max(depth, default=0) > DEEPEST:\n        raise TurnedAway(23)\n"
READ, LISTED = "    events = events_of(file)\n", "    events = events_in(items)\n"
NO_ROOM = "    if {} and not room:\n        raise TurnedAway(15)\n"
REST = 'rest("first", first, of_first) if of_first else rest("second", second, of_second)'

# Of the Rust: each must show as a difference from 01's rules.
RUST = [
    Broken("texture.rs", "Single with Single: the given state replaces",
           "let merged_state = *current_simple | new_simple;", "let merged_state = new_simple;"),
    Broken("texture.rs", "Single with Many: UNKNOWN taken off",
           MERGE_SINGLE_MANY, "let merged_state = (*current_simple | new_state) - TextureUses::UNKNOWN;"),
    Broken("texture.rs", "Many with Single: UNKNOWN left in", MERGE_MANY_SINGLE, ""),
    Broken("texture.rs", "Many with Many: an empty union is stored", "if merged_state.is_empty() {", "if false {"),
    Broken("texture.rs", "a barrier into UNKNOWN", BARRIER_UNKNOWN, "                if skip_barrier(current_simple"),
    Broken("texture.rs", "the start does not learn", "*current_start_state = new_single;", ""),
    Broken("texture.rs", "the end is not replaced", UPDATE_MANY_MANY, "                        }"),
    Broken("texture.rs", "the sparse call does not remove", "unsafe { scope.metadata.remove(index) };", ""),
    Broken("texture.rs", "an assertion that must fire, if assertions are on",
           "strict_assert!(index < self.size());", "strict_assert!(index + 1 < self.size());"),
    Broken("range.rs", "coalesce joins any neighbours", "&& cur.1 == next.1 {", "{"),
    Broken("range.rs", "iter_filter lists a range that only touches",
           "inner.end > range.start", "inner.end >= range.start"),
    Broken("range.rs", "isolate goes on past its end", "if range.end >= index.end {", "if range.end > index.end {"),
    Broken("metadata.rs", "owned indices are off by one",
           "let bit_start = word_index * BITS_PER_BLOCK;", "let bit_start = word_index * BITS_PER_BLOCK + 1;"),
]

# Of 01, as the tools read it. The first ones are 01's own list of misreadings.
RULES = [
    Broken("grid.py", "every equal pair is skipped", "old == new and mask & old == old", "old == new"),
    Broken("grid.py", "a conflict on Many undoes", "return Half(False, tuple(states)), at", "return held, at"),
    Broken("grid.py", "UNKNOWN beside a bit gives no transition",
           "flags.unknown in (old, given)", "(old | given) & flags.unknown"),
    Broken("grid.py", "UNKNOWN beside a bit is learned", "ends[at] == flags.unknown", "ends[at] & flags.unknown"),
    Broken("flags.py", "an exclusive use alone is incompatible", " and not one_bit(state)", ""),
    Broken("flags.py", "two inclusive uses are incompatible", "state & self.exclusive != 0 and not", "not"),
    Broken("grid.py", "Single with Many: UNKNOWN taken off",
           "union = states[at] | given\n", "union = (states[at] | given) & ~flags.unknown\n"),
    Broken("grid.py", "Many: UNKNOWN left in",
           "union = (states[at] | given) & ~flags.unknown", "union = states[at] | given"),
    Broken("grid.py", "a conflict on Single keeps what came before it",
           "            return held, at", "            return Half(held.single, tuple(states)), at"),
    Broken("grid.py", "Single with Many stays Single",
           "Half(use.single, tuple(states)), None", "Half(True, tuple(states)), None"),
    Broken("grid.py", "the start's mark follows the use", "Half(start.single,", "Half(use.single,"),
    Broken("grid.py", "the end's mark stays", "Half(use.single, tuple(ends))", "Half(end.single, tuple(ends))"),
    Broken("grid.py", "the start does not learn", "            starts[at] = given", "            pass"),
    Broken("grid.py", "a given UNKNOWN replaces the end", "given is None or given == flags.unknown", "given is None"),
    Broken("grid.py", "what is not named is UNINITIALIZED", "(flags.unknown if state", "(flags.uninitialized if state"),
    Broken("grid.py", "the full selector is Many", "or tuple(selector) == (0, mips, 0, layers)", ""),
    Broken("model.py", "a join hands in its start twice", "grid.Use(*halves[-1])", "grid.Use(*halves[0])"),
    Broken("model.py", "only the first texture of a set", "dict.fromkeys(indices)", "dict.fromkeys(indices[:1])"),
    Broken("model.py", "the sparse call does not remove", "self.remove(handed[1], given)", "pass"),
    Broken("model.py", "a scope merge goes on after a conflict", "return conflict, {}, named", "answer = conflict"),
    Broken("rangemodel.py", "isolate fills gaps of no length", "if a > at:", "if a >= at:"),
    Broken("rangemodel.py", "coalesce joins across a gap", "out[-1][1:] == (start, state)", "out[-1][2] == state"),
    Broken("rangemodel.py", "iter_filter lists a range that only touches", "and a < end]", "and a <= end]"),
    Broken("refusals.py", "no layers are reversed", "Refusal(19, 0) if", "Refusal(18, 0) if"),
    Broken("rangemodel.py", "freed records stay", "[(0, 0, 0)] * (used - len(records))", "[]"),
]

# Of the table and of merge_logs, as a program could misread them: here it reads by a copy of the tools with one rule
# broken.
TABLE = [
    Broken("refusals.py", "mips of no length are told as reversed", "return Refusal(16, 0)", "return Refusal(17, 0)"),
    Broken("refusals.py", "mips reversed are told as of no length", "Refusal(17, 0) if", "Refusal(16, 0) if"),
    Broken("refusals.py", "layers of no length are told as 10", "return Refusal(18, 0)", "return Refusal(10, 0)"),
    Broken("refusals.py", "layers reversed are told as of no length", "Refusal(19, 0) if", "Refusal(18, 0) if"),
    Broken("refusals.py", "layers before mips", f"{MIPS} or {LAYERS}", f"{LAYERS} or {MIPS}"),
    Broken("refusals.py", "mips have the layers' numbers", MIPS, MIPS.replace("mip_interval", "layer_interval")),
    Broken("refusals.py", "layers have the mips' numbers", LAYERS, LAYERS.replace("layer_interval", "mip_interval")),
    Broken("refusals.py", "an end past the extent before mips", f"{MIPS} or", f"{PAST} or {MIPS} or"),
    Broken("refusals.py", "an end past the extent before layers", f"or {LAYERS}", f"or {PAST} or {LAYERS}"),
    Broken("refusals.py", "the state before the selector",
           f"{SELECTED}\n            or {STATE}", f"{STATE}\n            or {SELECTED}"),
    Broken("refusals.py", "the calls on ranges have the mips' numbers",
           f"{RANGED} or", f"{RANGED} or".replace("layer", "mip")),
    Broken("refusals.py", "the calls on ranges look at the ranges first",
           f"{RANGED} or {RANGES}", f"{RANGES} or {RANGED}"),
    Broken("logmodel.py", "on equal index the second log's entry goes first",
           "first[0][0] <= second[0][0]", "first[0][0] < second[0][0]"),
    Broken("logmodel.py", "the rest is of the log that is used up",
           REST, 'rest("second", second, []) if of_first else rest("first", first, [])'),
    Broken("logmodel.py", "the first log's rest is told as the second's",
           'rest("first", first', 'rest("second", first'),
    Broken("logmodel.py", "an entry is lost where the logs meet", LEFT, "return merged[:-1], first, second"),
    Broken("logmodel.py", "the rest is merged too", LEFT, "return merged + first + second, [], []"),
    Broken("logmodel.py", "older entries are lost", "ENTRY_NUMBERS * written", "ENTRY_NUMBERS * (written // 2)"),
    Broken("logmodel.py", "a descent in the rest is not seen", LOGS, LOGS.replace("first, second", f"{MERGED}, []")),
    Broken("logmodel.py", "the rest needs free entries too", FREE, FREE.replace("merged", "entries(first + second)")),
    Broken("logmodel.py", "the last free entry is not used", FREE, FREE.replace(">", ">=")),
    Broken("logmodel.py", "15 before the others", LOGS, f"Refusal(15, 0) if len({MERGED}) > 7 * free else {LOGS}"),
    Broken("refusals.py", "equal indices descend", "indices != sorted(indices)", "indices != sorted(set(indices))"),
    Broken("refusals.py", "a log may stop inside an entry", "if len(log) % ENTRY_NUMBERS or", "if"),
    Broken("refusals.py", "only the first log is looked at", f"{FIRST} or {SECOND}", FIRST),
    Broken("refusals.py", "the two logs before the third's head",
           f"{HEAD} or {FIRST} or {SECOND}", f"{FIRST} or {SECOND} or {HEAD}"),
    Broken("refusals.py", "a log out of order is told as ranges are", "Refusal(31, 0) if", "Refusal(14, 0) if"),
]

# Of planmodel.py, as of the table; and `plans` holds the library against a copy with one rule broken.
PLANS = [Broken("planmodel.py", *each) for each in (
    ("a length is read high byte first", "in enumerate(some)", "in enumerate(reversed(some))"),
    ("a length is written high byte first", 'to_bytes(2, "little")', 'to_bytes(2, "big")'),
    ("a length past its group or the file is a shorter one", " or number(rest[1:HEADER]) > len(rest) - HEADER", ""),
    ("21 before 20", CUT, f"    if rest[0] not in (GROUP, USE):\n        raise TurnedAway(21)\n{CUT}"),
    ("22 before 20", CUT,
     f"    if rest[0] == USE and number(rest[1:HEADER]) != USE_BYTES:\n        raise TurnedAway(22)\n{CUT}"),
    ("23 before 20", CUT, f"    if rest[0] == GROUP and depth == DEEPEST:\n        raise TurnedAway(23)\n{CUT}"),
    ("tag 3 is a group too", "tag not in (GROUP, USE)", "tag not in (GROUP, USE, 3)"),
    ("a use may be longer", "length != USE_BYTES", "length < USE_BYTES"),
    ("nine levels are read", "depth == DEEPEST", "depth == DEEPEST + 1"),
    ("seven levels are read", "depth == DEEPEST", "depth == DEEPEST - 1"),
    ("nine levels are written", "default=0) > DEEPEST", "default=0) > DEEPEST + 1"),
    ("in reading 15 is first", READ, NO_ROOM.format("file") + READ),
    ("in writing 15 is first", LISTED, NO_ROOM.format("items") + LISTED),
    ("the last item needs room past its end", "ITEM_BYTES * len(events) > room", "ITEM_BYTES * len(events) >= room"),
    ("the last byte has no room", "len(file) > room", "len(file) >= room"),
    ("the last use needs no room", "len(WIDTHS) * len(listed) > room", "len(WIDTHS) * (len(listed) - 1) > room"),
    ("23 before 24", BALANCED + DEEP, DEEP + BALANCED),
    ("a group may stay open", " and depth[-1:] in ([], [0])", ""),
    ("its own header counts for 25", "len(content) > LONGEST", "len(content) + HEADER > LONGEST"),
    ("a group of 65,535 bytes is too long", "len(content) > LONGEST", "len(content) >= LONGEST"),
    ("a rest of a list is an item", "len(items) - ITEM_BYTES + 1", "len(items)"),
    ("items that are no uses have other bytes", "use or bytes(USE_BYTES)", "use or bytes([255] * USE_BYTES)"),
    ("a use has two bytes of mips", "WIDTHS = (4, 1, 2,", "WIDTHS = (4, 2, 1,"),
    ("what is closed is a use", "events_in(items) if kind == USED", "events_in(items) if kind in (USED, CLOSED)"),
)]

# What a program could write wrongly: here `old` is any text that answers have.
PROGRAM = [Broken("program", f"{old.strip()} is told as {new.strip() or 'nothing'}", old, new) for old, new in (
    ("refused 4 0 kept", "done"), ("refused 7 3 kept", "refused 7 0 kept"), (" kept", " changed"),
    ("refused 15 0", "refused 5 0"), ("conflict 0", "conflict 1"), ("transition 0 0 1", "transition 0 0 2"),
    ("many 1 0 ", "many 1 1 "), ("log 2 ", "log 3 "), ("emptied 0 8", "emptied 0 7"), ("single", "singel"),
    ("isolated 1 3 5", "isolated 1 3 4"), ("3005", "3004"), ("done\n", ""), ("merged 2 ", "merged 1 "),
    ("rest first", "rest second"), ("refused 31 0 kept", "refused 31 0 changed"), ("\nread 2 ", "\nread 1 "),
    ("written 3 ", "written 2 "), ("listed 1 ", "listed 2 "), ("refused 20 0 kept", "refused 20 0 changed"),
    ("refused 25 0", "refused 15 0"))]
