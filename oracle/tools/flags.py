"""Usage flags (document 01: a palette)."""
import pathlib
from typing import NamedTuple

ORACLE = pathlib.Path(__file__).resolve().parent.parent


def bits(state):
    """The set bits, each as a state."""
    return [1 << at for at in range(16) if state >> at & 1]


def one_bit(state):
    return state != 0 and state & state - 1 == 0


class UsageFlags(NamedTuple):
    exclusive: int
    uninitialized: int
    complex: int
    unknown: int

    def valid(self):
        special = (self.uninitialized, self.complex, self.unknown)
        return (max(self) < 65536 and all(map(one_bit, special)) and len(set(special)) == 3
                and not self.exclusive & (self.complex | self.unknown))

    def incompatible(self, state):
        return state & self.exclusive != 0 and not one_bit(state)


def read_flags():
    """The usage flags that the drivers are built for, by name."""
    named = {}
    for line in (ORACLE / "flags.txt").read_text().splitlines():
        if not line.startswith("#"):
            name, *numbers = line.split()
            named[name] = UsageFlags(*map(int, numbers))
    return named
