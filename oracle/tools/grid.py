"""The grid model (document 01: the sheet): one state for each subresource, and no ranges.

A literal reading of 01's "Sheet rules". Subresources are listed mip first, then layer. Nothing is changed in
place, so a set can be remembered by keeping its textures.
"""
from typing import NamedTuple, Optional, Tuple


class Half(NamedTuple):
    """What a scope holds of a texture, or a tracker's start or end. `single` is 01's mark."""
    single: bool
    states: Tuple[int, ...]


class Use(NamedTuple):
    """What a call hands in for a texture; None where a subresource is not named."""
    single: bool
    states: Tuple[Optional[int], ...]


class Texture(NamedTuple):
    mips: int
    layers: int
    halves: Tuple[Half, ...]


class Conflict(NamedTuple):
    """The first subresource whose union is incompatible, its state and the given one."""
    index: int
    mip: int
    layer: int
    old: int
    new: int


def use_of(mips, layers, state, selector):
    """The use of a call that names a selector, or none for the whole texture."""
    if selector is None or tuple(selector) == (0, mips, 0, layers):
        return Use(True, (state,) * (mips * layers))
    mip_start, mip_end, layer_start, layer_end = selector
    named = [mip_start <= mip < mip_end and layer_start <= layer < layer_end
             for mip in range(mips) for layer in range(layers)]
    return Use(False, tuple(state if each else None for each in named))


def insert(flags, use):
    """The first use of a texture."""
    return Half(use.single, tuple(flags.unknown if state is None else state for state in use.states))


def merge(flags, held, use):
    """The half after the merge, and the position of the first conflict or None."""
    if held.single:
        return merge_into_single(flags, held, use)
    return merge_into_many(flags, held, use)


def merge_into_single(flags, held, use):
    """UNKNOWN is left in; a conflict changes nothing."""
    states = list(held.states)
    for at, given in enumerate(use.states):
        if given is None:
            continue
        union = states[at] | given
        if flags.incompatible(union):
            return held, at
        states[at] = union
    return Half(use.single, tuple(states)), None


def merge_into_many(flags, held, use):
    """UNKNOWN is taken off; a conflict leaves the subresources before it changed."""
    states = list(held.states)
    for at, given in enumerate(use.states):
        if given is None:
            continue
        union = (states[at] | given) & ~flags.unknown
        if flags.incompatible(union):
            return Half(False, tuple(states)), at
        if union != 0:
            states[at] = union
    return Half(False, tuple(states)), None


def skipped(mask, old, new):
    return old == new and mask & old == old


def barrier(flags, mask, end, use):
    """The transitions of an owned texture: position -> old state, new state."""
    transitions = {}
    for at, given in enumerate(use.states):
        old = end.states[at]
        if given is None or flags.unknown in (old, given):
            continue
        if not skipped(mask, old, given):
            transitions[at] = (old, given)
    return transitions


def update(flags, start, end, use):
    """Start and end of an owned texture after a use of it."""
    starts, ends = list(start.states), list(end.states)
    for at, given in enumerate(use.states):
        if given is None or given == flags.unknown:
            continue
        if ends[at] == flags.unknown:
            starts[at] = given
        ends[at] = given
    return Half(start.single, tuple(starts)), Half(use.single, tuple(ends))
