"""Document 01's bench samples B1 to B14 as cases, with the answers that it writes down."""

OPEN = "20 1 4096 8192"
SCOPE = "open_scope {} 1 2 4 " + OPEN + " 24"
TRACKER = "open_tracker {} 1 2 4 " + OPEN + " 10 24 24"
B4_USE = "0 2 4 8 0 1 1 3"
B4 = "many 3 0 1 8192 1 3 8 3 4 8192 1 0 4 8192"
TWO_SCOPES = [SCOPE.format(0), SCOPE.format(1), "merge_single 1 0 2 4 2 0 1 1 3"]
OTHER = "scope 1\ntexture 0 2 4 many 3 0 1 8192 1 3 2 3 4 8192 1 0 4 8192\n"


def scope(*calls):
    return [SCOPE.format(0), *("merge_single 0 " + call for call in calls)]


def tracker(*calls):
    return [TRACKER.format(0), *("set_single 0 " + call for call in calls)]


# Name, calls, what the last of them answers.
SAMPLES = [
    ("B1", scope("0 2 4 8"), "done\nscope 0\ntexture 0 2 4 single 8\n"),
    ("B2", scope("0 2 4 8", "0 2 4 2"), "done\nscope 0\ntexture 0 2 4 single 10\n"),
    ("B3", scope("0 2 4 8", "0 2 4 2", "0 2 4 4"),
     "conflict 0 0 2 0 4 10 4\nscope 0\ntexture 0 2 4 single 10\n"),
    ("B4", scope(B4_USE), f"done\nscope 0\ntexture 0 2 4 {B4}\n"),
    ("B5", scope(B4_USE, "0 2 4 2"),
     "done\nscope 0\ntexture 0 2 4 many 3 0 1 2 1 3 10 3 4 2 1 0 4 2\n"),
    ("B6", scope(B4_USE, "0 2 4 4"),
     "conflict 0 0 1 1 3 8 4\nscope 0\ntexture 0 2 4 many 3 0 1 4 1 3 8 3 4 8192 1 0 4 8192\n"),
    ("B7", TWO_SCOPES + ["merge_single 0 0 2 4 8", "merge_usage_scope 0 1"],
     "done\nscope 0\ntexture 0 2 4 many 3 0 1 8200 1 3 10 3 4 8200 1 0 4 8200\n" + OTHER),
    ("B8", TWO_SCOPES + ["merge_single 0 0 2 4 4", "merge_usage_scope 0 1"],
     "conflict 0 0 1 0 1 4 8192\nscope 0\ntexture 0 2 4 single 4\n" + OTHER),
    ("B9", tracker("0 2 4 4", B4_USE),
     "done\ntransition 0 0 1 1 3 4 8\n"
     "tracker 0\ntexture 0 2 4 single 4 many 3 0 1 4 1 3 8 3 4 4 1 0 4 4\n"),
    ("B10, 4 to 4", tracker("0 2 4 4", "0 2 4 4"),
     "done\ntransition 0 0 2 0 4 4 4\ntracker 0\ntexture 0 2 4 single 4 single 4\n"),
    ("B10, 8 to 8", tracker("0 2 4 8", "0 2 4 8"), "done\ntracker 0\ntexture 0 2 4 single 8 single 8\n"),
    ("B11", tracker(B4_USE, "0 2 4 4"),
     "done\ntransition 0 0 1 1 3 8 4\n"
     "tracker 0\ntexture 0 2 4 many 3 0 1 4 1 3 8 3 4 4 1 0 4 4 single 4\n"),
    ("B12", tracker(B4_USE) + [TRACKER.format(1), "set_single 1 0 2 4 2", "set_single 1 0 2 4 8",
                               "set_from_tracker 0 1"],
     "done\ntransition 0 0 1 1 3 8 2\ntracker 0\ntexture 0 2 4 many 1 0 4 8 1 0 4 8 single 8\n"
     "tracker 1\ntexture 0 2 4 single 2 single 8\n"),
    ("B13", ["isolate 3 7 9 2 6 2 4 5 6 8 6"],
     "isolated 1 3 5 2 3 5 3 4 5 4 6 9 6 7 6 7 8 6 1005 2005 3005\n"),
    ("B14", ["isolate 5 7 9 1 3 0 2 5"], "isolated 1 1 2 0 2 5 5 7 9 1002 2002 3002\n"),
    # "On the edge", those that pass; the refused ones are in edges.py.
    ("edge: N 64 opens", ["open_scope 0 64 1 1 " + OPEN + " 192"], "done\nscope 0\n"),
    ("edge: end 4 of 4", scope("0 2 4 8 0 1 2 4"),
     "done\nscope 0\ntexture 0 2 4 many 2 0 2 8192 2 4 8 1 0 4 8192\n"),
    ("edge: state 16", scope("0 2 4 16"), "done\nscope 0\ntexture 0 2 4 single 16\n"),
]


def cases():
    return [[f"case {at}", *lines] for at, (_, lines, _) in enumerate(SAMPLES)]


def differences(run):
    """Samples whose last answer is not what 01 says; `run` has the steps of `cases()`."""
    return [f"{name}: 01 has {want!r}, here {steps[-1].answer!r}"
            for (name, _, want), steps in zip(SAMPLES, run) if steps[-1].answer != want]
