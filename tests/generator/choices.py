"""Numbers, sizes and payloads that lie where answers change."""

HALF, ALL = 32768, 65536
COUNTS = [0, 1, 2, HALF - 1, HALF, HALF + 1, ALL - 2, ALL - 1]


def number(rng, centre, slots=33):
    """A 16-bit number: around `centre`, at the edges of windows from it, or anywhere."""
    kind = rng.random()
    if kind < 0.55:
        far = rng.randint(-3, 3)
    elif kind < 0.7:
        far = rng.randint(-slots - 3, slots + 3)
    elif kind < 0.8:
        far = -slots + rng.randint(-2, 2)
    elif kind < 0.9:
        far = HALF + rng.randint(-2, 2) - rng.choice([0, slots])
    elif kind < 0.95:
        return rng.choice(COUNTS)
    else:
        return rng.randrange(ALL)
    return (centre + far) % ALL


def bits(rng):
    """A 32-bit field: empty, full, dense, sparse or any."""
    any_bits = rng.getrandbits(32)
    return rng.choice([
        0, 1, 0xFFFFFFFF, 1 << rng.randrange(32), any_bits,
        any_bits & rng.getrandbits(32) & rng.getrandbits(32),
        any_bits | rng.getrandbits(32) | rng.getrandbits(32),
    ])


def size(rng, most):
    """A size from 1 to `most`: its ends, a power of two, or any."""
    powers = [1 << i for i in range(11) if 1 << i <= most]
    return rng.choice([1, most, rng.choice(powers), rng.randint(1, most), rng.randint(1, most)])


def payload(rng, length):
    return rng.randbytes(length)


def short(rng, most):
    """A payload of up to `most` bytes, mostly a few."""
    kind = rng.random()
    if kind < 0.25:
        return b""
    if kind < 0.9:
        return payload(rng, rng.randint(0, min(6, most)))
    return payload(rng, rng.choice([max(most - 1, 0), most]))


def start(rng, most=60):
    """How far a counter is brought: not at all, near the half, or near its return."""
    return rng.choice([0, HALF - rng.randint(1, most), ALL - rng.randint(1, most), ALL - 1])


def way_to(target):
    """Numbers that bring the newest of a fresh buffer there: more than nearly the half at once would
    be too old."""
    return [hop for hop in (32000, 64000) if hop < target] + [target]
