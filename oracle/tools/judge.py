"""Compares an answer of the Rust with the model's verdict on the same call."""
from functools import lru_cache

import grid
from model import grid_half, read_half


@lru_cache(maxsize=1 << 17)
def read_texture(line, tracker, flags):
    """A `texture` line: index, the texture as the grid has it, and whether it is well formed."""
    words = line.split(" ")
    index, mips, layers = map(int, words[1:4])
    rest = words[4:]
    ranged = [read_half(rest, mips) for _ in range(2 if tracker else 1)]
    halves = tuple(grid_half(half, mips, layers) for half in ranged)
    good = all(well_formed(flags, half, mips, layers) for half in ranged) and not rest
    unknown = [[state == flags.unknown for state in half.states] for half in halves]
    return index, grid.Texture(mips, layers, halves), good and unknown[0] == unknown[-1]


def well_formed(flags, half, mips, layers):
    """01's sound half, for a state or for each mip its records."""
    if isinstance(half, int):
        return half != 0 and not half & (flags.unknown | flags.complex) and not flags.incompatible(half)
    return len(half) == mips and all(tiles(flags, records, layers) for records in half)


def tiles(flags, records, layers):
    at = 0
    for start, end, state in records:
        if start != at or end <= start or state == 0 or state & flags.complex or flags.incompatible(state):
            return False
        at = end
    return at == layers


def read_sets(lines, flags):
    """The sets of an answer as the model has them, or a text that says which is not well formed."""
    sets, textures = [], None
    for line in lines:
        if line.startswith("texture"):
            index, texture, good = read_texture(line, sets[-1][1], flags)
            if not good:
                return f"not well formed: {line}"
            textures.append((index, texture))
        else:
            kind, number = line.split(" ")
            textures = []
            sets.append((int(number), kind == "tracker", textures))
    return tuple((number, tracker, tuple(held)) for number, tracker, held in sets)


def read_transitions(lines):
    """For each subresource its transition, or a text if one has two."""
    found = {}
    for line in lines:
        index, mip, mip_end, layer, layer_end, old, new = map(int, line.split(" ")[1:])
        for at in [(index, m, l) for m in range(mip, mip_end) for l in range(layer, layer_end)]:
            if at in found:
                return f"two transitions of subresource {at}"
            found[at] = (old, new)
    return found


def read_answer(line):
    word, *numbers = line.split(" ")
    if word == "done":
        return None
    if word != "conflict":
        return word
    index, mip, _, layer, _, old, new = map(int, numbers)
    return grid.Conflict(index, mip, layer, old, new)


def difference(answer, verdict, flags):
    """None, or a text that says how the Rust's answer differs from the verdict."""
    first, *lines = answer.splitlines()
    if isinstance(verdict.answer, str):
        return None if [first, *lines] == [verdict.answer] else f"01 has: {verdict.answer}"
    if read_answer(first) != verdict.answer:
        return f"01 has the answer {verdict.answer or 'done'}"
    log = [line for line in lines if line.startswith("transition")]
    transitions = read_transitions(log)
    if transitions != verdict.transitions:
        return f"01 has the transitions {verdict.transitions}; here {transitions}"
    if len(log) > verdict.named:
        return "more log entries than subresources were named"
    sets = read_sets(lines[len(log):], flags)
    if sets != verdict.sets:
        return f"01 has the sets {verdict.sets}; here {sets}"
    return None
