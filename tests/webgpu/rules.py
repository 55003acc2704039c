"""What WebGPU must say of a scope: the library's own yes or no, and the known differences from it.

Each reason for a no has words that the browser's message must have: a scope that was only made wrongly does not count as a no.
"""
import subprocess
from typing import NamedTuple

BOUND = {"sampled": "RESOURCE", "read": "STORAGE_READ_ONLY", "write": "STORAGE_WRITE_ONLY", "read-write": "STORAGE_READ_WRITE"}
WRITABLE = ("write", "read-write")
# The reasons for a no, and words of Chromium's messages.
CONFLICT, COPIED, ALIASED, TWICE = "conflict", "copied onto itself", "aliased", "attached twice"
WORDS = {CONFLICT: ("includes writable usage and another usage in the same synchronization scope",),
         COPIED: ("Copy source and destination are overlapping layer ranges", " to itself."),
         ALIASED: ("Writable storage texture binding aliasing found",),
         TWICE: ("has read-write or write-write conflict with another attachment",)}
ASPECTS = "aspects"
# The known differences: everything else must agree.
DIFFERENCES = {ASPECTS: "depth and stencil are two subresources there and one here: yes there, no here",
               ALIASED: "two equal writable storage bindings of one place in a single draw or dispatch: no there, yes here",
               TWICE: "one region attached twice in a render pass: no there, yes here"}
# No differences, but the rule for single merges as it is proved says otherwise or nothing of them.
SLICES, TWO_STORAGES = "slices", "two storages"
BESIDE = {SLICES: "two slices of one mip of a 3D texture attached together: yes there and here",
          TWO_STORAGES: "write-only beside read-write storage, nothing else in conflict: no there and here"}


class Use(NamedTuple):
    state: str
    mips: list
    layers: list
    aspect: str


def bound(binding):
    return Use(BOUND[binding["use"]], binding["mips"], binding["layers"], binding["aspect"])


def attached(scope, attachment):
    """One use, or one for each aspect of a depth and stencil format."""
    flat = scope["texture"]["dimension"] == "2d"
    layer = attachment["layer"] if flat else 0
    place = [attachment["mip"], attachment["mip"] + 1], [layer, layer + 1]
    if attachment["how"] != "depth":
        return [Use("COLOR_TARGET", *place, "all")]
    form = scope["texture"]["format"]
    aspects = [aspect + "-only" for aspect in ("depth", "stencil") if aspect in form]
    return [Use("DEPTH_STENCIL_WRITE" if aspect in attachment["writes"] else "DEPTH_STENCIL_READ", *place, aspect)
            for aspect in aspects]


def copied(scope, end, state):
    layers = [end["layer"], end["layer"] + scope["layers"]] if scope["texture"]["dimension"] == "2d" else [0, 1]
    return Use(state, [end["mip"], end["mip"] + 1], layers, "all")


def steps(scope):
    """What a pass does: a dispatch is one step, which works with its bind groups; a step of a render pass may only set them."""
    return [{"draw": True, "groups": scope["groups"]}] if scope["kind"] == "dispatch" else scope.get("steps", [])


def bindings(step):
    return [binding for group in step["groups"] for binding in group]


def uses(scope):
    """Every use of the scope, one for each aspect of an attachment."""
    if scope["kind"] == "copy":
        return [copied(scope, scope["source"], "COPY_SRC"), copied(scope, scope["destination"], "COPY_DST")]
    found = [use for attachment in scope.get("attachments", []) for use in attached(scope, attachment)]
    return found + [bound(binding) for step in steps(scope) for binding in bindings(step)]


def whole(found):
    """As wgpu-core has them: an attachment is one use of all its aspects, and is written if one of them is."""
    written = any(use.state == "DEPTH_STENCIL_WRITE" for use in found)
    return [use._replace(state="DEPTH_STENCIL_WRITE") if written and use.state == "DEPTH_STENCIL_READ" else use for use in found]


# ---- the library's yes or no -------------------------------------------------------------------------

class Library:
    """merge_single on wgpu's uses, by the program judge."""

    def __init__(self, program, numbers):
        self.program, self.numbers = program, numbers

    def line(self, scope, found, apart):
        """What judge reads. `apart`: depth and stencil are two textures."""
        texture = scope["texture"]
        layers = texture["layers"] if texture["dimension"] == "2d" else 1
        words = [texture["mips"], layers, len(found)]
        for use in found:
            words += [int(apart and use.aspect == "stencil-only"), *use.mips, *use.layers, self.numbers[use.state]]
        return " ".join(map(str, words))

    def judge(self, scopes):
        """For each scope the answer on one texture, and the answer with depth and stencil apart."""
        lines = [line for scope in scopes for line in
                 (self.line(scope, whole(uses(scope)), False), self.line(scope, uses(scope), True))]
        flags = [str(self.numbers[name]) for name in ("EXCLUSIVE", "UNINITIALIZED", "COMPLEX", "UNKNOWN")]
        done = subprocess.run([self.program, *flags], input="\n".join(lines) + "\n", text=True, check=True, stdout=subprocess.PIPE)
        answers = [word == "1" for word in done.stdout.split()]
        return list(zip(answers[0::2], answers[1::2]))


# ---- the rules beside it -----------------------------------------------------------------------------

def overlap(one, other):
    return all(a[0] < b[1] and b[0] < a[1] for a, b in ((one["mips"], other["mips"]), (one["layers"], other["layers"])))


def pairs(items):
    return [(one, other) for at, one in enumerate(items) for other in items[:at]]


def aliased(scope):
    """A dispatch or a draw has two bindings of one place, both writable."""
    return any(one["use"] in WRITABLE and other["use"] in WRITABLE and overlap(one, other)
               for step in steps(scope) if step["draw"] for one, other in pairs(bindings(step)))


def twice(scope):
    """A pass has one region as two attachments."""
    return any(one == other for one, other in pairs(scope.get("attachments", [])))


def reasons(scope, apart):
    """Why WebGPU must say no; none: it must say yes. `apart`: the library's answer with depth and stencil apart."""
    found = set()
    if not apart:
        found.add(COPIED if scope["kind"] == "copy" else CONFLICT)
    if aliased(scope):
        found.add(ALIASED)
    if twice(scope):
        found.add(TWICE)
    return found


def difference(one, because):
    """Which known difference a scope shows, if the library says `one` of it; None: the two agree."""
    if one == (not because):
        return None
    return ASPECTS if not one else TWICE if TWICE in because else ALIASED


def beside(scope, because):
    """Which of BESIDE a scope shows."""
    found = uses(scope)
    if not because and scope["texture"]["dimension"] == "3d" and len(scope.get("attachments", [])) > 1:
        return SLICES
    if because == {CONFLICT} and {use.state for use in found} == {BOUND["write"], BOUND["read-write"]}:
        return TWO_STORAGES
    return None
