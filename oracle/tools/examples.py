"""Behaviours of the Rust that a reader would not expect, one a case. Bench flags; EXCLUSIVE is 4 and 16."""

FLAGS = "20 1 4096 8192"


def scope(number, n=1, m=2, w=4):
    return f"open_scope {number} {n} {m} {w} {FLAGS} {3 * n * m * w}"


def tracker(number, mask=0, n=1, m=2, w=4):
    return f"open_tracker {number} {n} {m} {w} {FLAGS} {mask} {3 * n * m * w} {3 * n * m * w}"


# A scope whose mip 0 is left cut in three equal ranges by a conflict that changed no subresource.
CUT = [scope(0), "merge_single 0 0 2 4 8 0 1 0 4", "merge_single 0 0 2 4 4 0 1 1 3"]

EXAMPLES = {
    "Many with Single, conflict: that mip is changed before it and not coalesced, later mips are untouched":
    [scope(0), "merge_single 0 0 2 4 8 0 1 1 2", "merge_single 0 0 2 4 4 0 1 2 3", "merge_single 0 0 2 4 8"],
    "Many with Many, conflict: the states stay, the ranges do not": CUT,
    "ranges that are left cut are copied by a first insert, and give more log entries":
    CUT + [tracker(1), "set_from_usage_scope 1 0", "set_single 1 0 2 4 2"],
    "a merge coalesces also where it is given UNKNOWN":
    CUT + [scope(1), "merge_single 1 0 2 4 2 1 2 0 1", "merge_usage_scope 0 1"],
    "an update passes UNKNOWN over before it isolates, so ranges stay cut":
    CUT + [tracker(1), "set_from_usage_scope 1 0", scope(2), "merge_single 2 0 2 4 2 1 2 0 1",
           "set_from_usage_scope 1 2"],
    "one log entry for many mips on Single, one for each mip and overlap on Many":
    [tracker(0), "set_single 0 0 2 4 4", "set_single 0 0 2 4 8 0 2 1 3", "set_single 0 0 2 4 2 0 2 0 2"],
    "Single set in part to its own state: Many, one range a mip":
    [tracker(0, 65535), "set_single 0 0 2 4 8", "set_single 0 0 2 4 8 0 1 1 3"],
    "Single with Many, conflict: the place is the whole given selector":
    [scope(0), "merge_single 0 0 2 4 4", "merge_single 0 0 2 4 8 0 2 1 3"],
    "Single with Many, conflict after subresources that would have changed: nothing changes":
    [scope(0), scope(1), "merge_single 0 0 2 4 8", "merge_single 1 0 2 4 4 1 2 1 3", "merge_usage_scope 0 1"],
    "Many with Many, conflict: the place is one mip and the isolated range":
    [scope(0), "merge_single 0 0 2 4 8 0 2 1 3", "merge_single 0 0 2 4 4 0 2 2 4"],
    "the sparse call: entries in list order; the second mention and what is not owned are passed over":
    [scope(0, 3), tracker(1, 0, 3), "merge_single 0 0 1 1 8", "merge_single 0 2 1 1 8", "set_single 1 0 1 1 2",
     "set_single 1 2 1 1 2", "set_and_remove_from_usage_scope_sparse 1 0 2 1 0 2 0", "merge_single 0 2 1 1 4"],
    "UNKNOWN beside a bit goes into a tracker and into its log":
    [scope(0), scope(1), "merge_single 0 0 1 2 8", "merge_single 1 0 1 2 2 0 1 0 1", "merge_usage_scope 0 1",
     tracker(2), "set_from_usage_scope 2 0", "set_single 2 0 1 2 4"],
    "a join logs by the given start's ranges and updates by the given end's":
    [tracker(0), tracker(1), "set_single 0 0 1 4 8", "set_single 1 0 1 4 2", "set_single 1 0 1 4 4 0 1 1 2",
     "set_from_tracker 0 1"],
    "a start is coalesced only in a mip where an UNKNOWN range of it was filled":
    [tracker(0), "put 0 0 1 4 many 3 0 1 8 1 2 8 2 4 8192 many 2 0 2 2 2 4 8192", "set_single 0 0 1 4 4 0 1 0 1",
     "set_single 0 0 1 4 4 0 1 2 3"],
    "a second mip conflicts: the first stays merged and coalesced":
    [scope(0), "merge_single 0 0 2 4 8 1 2 1 3", "merge_single 0 0 2 4 4"],
    "a scope merge stops at the first texture that conflicts":
    [scope(0, 3), scope(1, 3)] + [f"merge_single {number} {index} 1 1 {state}" for number, index, state in (
        (0, 0, 8), (0, 1, 4), (0, 2, 8), (1, 0, 2), (1, 1, 8), (1, 2, 2))] + ["merge_usage_scope 0 1"],
}


def cases(first=0):
    return [[f"case {first + at}", *lines] for at, lines in enumerate(EXAMPLES.values())]
