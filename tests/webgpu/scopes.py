"""Usage scopes of one texture: every two uses on the smallest textures, then random ones, repeatable from a seed.

A scope is plain data, which page.js makes for real:

    texture                      dimension, format, mips, layers (of a 3D texture: its slices)
    kind dispatch: groups        one dispatch with these bind groups, each a list of bindings
    kind render:   attachments   one pass over these, all of one mip (none: another texture is attached)
                   steps         bind groups that are only set, or drawn with, in the pass itself or in a bundle
    kind copy:     source, destination, layers

A binding is a use (sampled, read, write, read-write: the last three are storage) of mips, layers and an aspect.
"""
import itertools
import random

# For each format how it may be bound, as what it may be attached, and its aspects.
STORAGE = ("read", "write", "read-write")
FORMATS = {
    "r32float": (("sampled", *STORAGE), ("color",), ("all",)),
    "rgba8unorm": (("sampled", "read", "write"), ("color", "resolve"), ("all",)),
    "depth24plus-stencil8": (("sampled",), ("depth",), ("depth-only", "stencil-only")),
    "depth16unorm": (("sampled",), ("depth",), ("depth-only",)),
    "stencil8": (("sampled",), ("depth",), ("stencil-only",)),
}
WEIGHTS = {"r32float": 8, "rgba8unorm": 4, "depth24plus-stencil8": 5, "depth16unorm": 1, "stencil8": 1}
# The largest texture; a device has at most so many storage textures in a stage.
MIPS, LAYERS, MOST_STORAGE = 3, 4, 4


def pair(rng, length):
    """A nonempty range below `length`."""
    start = rng.randrange(length)
    return [start, rng.randint(start + 1, length)]


class Maker:
    """Makes one scope."""

    def __init__(self, rng):
        self.rng = rng
        form = rng.choices(list(WEIGHTS), WEIGHTS.values())[0]
        self.bindings, self.attached, self.aspects = FORMATS[form]
        flat = form != "r32float" or rng.random() < 0.75
        self.texture = {"dimension": "2d" if flat else "3d", "format": form,
                        "mips": rng.randint(1, MIPS), "layers": rng.randint(1, LAYERS)}
        self.storage = 0

    def scope(self):
        make = self.rng.choices((self.dispatch, self.render, self.copy), (3, 6, 1))[0]
        return {"texture": self.texture, **make()}

    def slices(self, mip):
        """The layers of a mip, or its slices: those of a 3D texture are fewer in smaller mips."""
        layers = self.texture["layers"]
        return layers if self.texture["dimension"] == "2d" else max(1, layers >> mip)

    # ---- bind groups ---------------------------------------------------------------------------------

    def binding(self):
        """One use; storage only while the stage has room for it."""
        rng, texture = self.rng, self.texture
        use = rng.choice(self.bindings) if self.storage < MOST_STORAGE else "sampled"
        mips = pair(rng, texture["mips"])
        if use in STORAGE:
            self.storage += 1
            mips = [mips[0], mips[0] + 1]
        layers = pair(rng, texture["layers"]) if texture["dimension"] == "2d" else [0, 1]
        return {"use": use, "mips": mips, "layers": layers, "aspect": rng.choice(self.aspects)}

    def groups(self):
        """The bind groups of one draw or dispatch."""
        self.storage = 0
        return [[self.binding() for _ in range(self.rng.randint(1, 2))] for _ in range(self.rng.randint(1, 2))]

    def dispatch(self):
        return {"kind": "dispatch", "groups": self.groups()}

    # ---- render passes -------------------------------------------------------------------------------

    def render(self):
        rng = self.rng
        steps = [{"draw": rng.random() < 0.6, "bundle": rng.random() < 0.3, "groups": self.groups()}
                 for _ in range(rng.choice([0, 1, 1, 1, 2, 2, 3]))]
        mip = rng.randrange(self.texture["mips"])
        how = rng.choice(self.attached)
        count = rng.choice([0, 1]) if how == "depth" else rng.choice([0, 0, 1, 1, 2, 3])
        return {"kind": "render", "attachments": [self.attachment(how, mip) for _ in range(count)], "steps": steps}

    def attachment(self, how, mip):
        made = {"how": how, "mip": mip, "layer": self.rng.randrange(self.slices(mip))}
        if how == "depth":
            # Which aspects are written; the others are only read.
            made["writes"] = [aspect for aspect in self.aspects if self.rng.random() < 0.5]
        return made

    # ---- copies --------------------------------------------------------------------------------------

    def copy(self):
        """From one place of the texture to another; depth and stencil are copied whole, so between equal mips."""
        rng = self.rng
        mips = [rng.randrange(self.texture["mips"]) for _ in range(2)]
        if self.attached == ("depth",):
            mips[1] = mips[0]
        layers = rng.randint(1, min(map(self.slices, mips)))
        ends = [{"mip": mip, "layer": rng.randint(0, self.slices(mip) - layers)} for mip in mips]
        return {"kind": "copy", "source": ends[0], "destination": ends[1], "layers": layers}


# ---- every two uses ----------------------------------------------------------------------------------

def bound(use, aspect="all"):
    return {"use": use, "mips": [0, 1], "layers": [0, 1], "aspect": aspect}


def render(texture, attachments, *steps):
    """A pass; each step is whether it draws, and its bindings."""
    return {"texture": texture, "kind": "render", "attachments": attachments,
            "steps": [{"draw": draw, "bundle": False, "groups": [bindings]} for draw, *bindings in steps]}


def texture(form, dimension="2d", layers=1):
    return {"dimension": dimension, "format": form, "mips": 1, "layers": layers}


def two_bindings():
    """In one dispatch, set together, in one draw, in two draws."""
    flat = texture("r32float")
    for one, other in itertools.combinations_with_replacement(map(bound, FORMATS["r32float"][0]), 2):
        yield {"texture": flat, "kind": "dispatch", "groups": [[one, other]]}
        yield render(flat, [], (False, one, other))
        yield render(flat, [], (True, one, other))
        yield render(flat, [], (True, one), (True, other))


def with_attachments():
    """An attachment and a binding, or two attachments."""
    for form, how in (("r32float", "color"), ("rgba8unorm", "color"), ("rgba8unorm", "resolve")):
        for use in FORMATS[form][0]:
            yield render(texture(form), [{"how": how, "mip": 0, "layer": 0}], (False, bound(use)))
        for layer in (0, 1):
            yield render(texture(form, layers=2), [{"how": how, "mip": 0, "layer": at} for at in (0, layer)])
    for layer in (0, 1):
        yield render(texture("r32float", "3d", 2), [{"how": "color", "mip": 0, "layer": at} for at in (0, layer)])
    for form in ("depth24plus-stencil8", "depth16unorm", "stencil8"):
        aspects = FORMATS[form][2]
        for writes in [list(some) for count in range(len(aspects) + 1) for some in itertools.combinations(aspects, count)]:
            for aspect in aspects:
                attachment = {"how": "depth", "mip": 0, "layer": 0, "writes": writes}
                yield render(texture(form), [attachment], (False, bound("sampled", aspect)))


def scopes(seed, count):
    """Every two uses, and so many random scopes."""
    made = [Maker(random.Random(f"{seed} {number}")).scope() for number in range(count)]
    return [*two_bindings(), *with_attachments(), *made]
