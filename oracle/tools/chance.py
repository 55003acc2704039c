"""Random states, ranges and selectors, few and small, so that they meet."""
from flags import bits

TOP = 2 ** 32 - 1


def pool(rng, flags):
    """The states that a case uses: exclusive ones, UNINITIALIZED, and ones that can be joined."""
    inclusive = bits(0xffff & ~(flags.exclusive | flags.complex | flags.unknown))
    exclusive = bits(flags.exclusive)
    states = []
    for _ in range(rng.choice([1, 2, 2, 3, 3, 4, 5])):
        kind = rng.random()
        if exclusive and (kind < 0.35 or not inclusive):
            states.append(rng.choice(exclusive))
        elif kind < 0.42 or not inclusive:
            states.append(flags.uninitialized)
        else:
            states.append(sum(rng.sample(inclusive, min(len(inclusive), rng.choice([1, 1, 1, 2, 3])))))
    return states


def state(rng, flags, states, bad=0.03):
    """One of the pool; now and then any number, which is mostly refused."""
    if rng.random() >= bad:
        return rng.choice(states)
    return rng.choice([0, flags.unknown, flags.complex, flags.unknown | rng.choice(states),
                       rng.randrange(65536), rng.randrange(65536)])


def span(rng, length):
    """A nonempty range below `length`: all of it, one, or any."""
    kind = rng.random()
    if kind < 0.3:
        return 0, length
    if kind < 0.45:
        start = rng.randrange(length)
        return start, start + 1
    start = rng.randrange(length)
    return start, rng.randint(start + 1, length)


def selector(rng, mips, layers):
    """None, the full one, any four numbers, or a good one."""
    kind = rng.random()
    if kind < 0.2:
        return ()
    if kind < 0.25:
        return 0, mips, 0, layers
    if kind < 0.28:
        return tuple(rng.randrange(max(mips, layers) + 3) for _ in range(4))
    return span(rng, mips) + span(rng, layers)


def faulty(rng, length):
    """An interval of no length, or reversed, mostly near `length`."""
    end = rng.randrange(length + 3 if rng.random() < 0.8 else TOP)
    if rng.random() < 0.5:
        return end, end
    return rng.choice([end + 1, end + 1, min(end + 1 + rng.randrange(length + 3), TOP), rng.randint(end + 1, TOP)]), end


def faulty_selector(rng, mips, layers):
    """Faulty mips, layers, or both; where only one is, the other may be past the extent."""
    faults = rng.choice([(True, False), (False, True), (False, True), (True, True)])
    first, last = (faulty(rng, length) if fault else (0, length + 1) if not length or rng.random() < 0.2
                   else span(rng, length) for fault, length in zip(faults, (mips, layers)))
    return first + last


def subresources(rng, flags, states, count, unknown):
    """States of a Many half; with the chance `unknown` nothing is known of one."""
    def one():
        if rng.random() < unknown:
            return flags.unknown
        chosen = rng.choice(states)
        # UNKNOWN beside other bits, as a scope merge leaves it.
        beside = not chosen & flags.exclusive and rng.random() < 0.15
        return chosen | flags.unknown if beside else chosen
    return [one() for _ in range(count)]


def half_text(rng, states, mips, layers):
    """A Many half with these states; touching equals are joined or not, as the Rust may leave them."""
    words, joined = ["many"], rng.choice([0.7, 0.7, 0])
    for mip in range(mips):
        records = []
        for layer, given in enumerate(states[mip * layers:(mip + 1) * layers]):
            if records and records[-1][2] == given and rng.random() < joined:
                records[-1][1] = layer + 1
            else:
                records.append([layer, layer + 1, given])
        words.append(str(len(records)))
        words += [str(number) for record in records for number in record]
    return " ".join(words)
