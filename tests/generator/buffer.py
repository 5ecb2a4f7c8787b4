"""The sequence buffer (tags 10 to 14) and the comparison of numbers (18, 19): 1 to 64 slots, numbers
at the edges of the window, at the half and at the return, rows of numbers that fill the buffer."""

from .choices import COUNTS, number, size, start, way_to
from .fields import field, u16
from .model import SequenceBuffer


def script(rng):
    for _ in range(4):
        slots = size(rng, 64)
        yield field(0x10, u16(slots))
        buffer = SequenceBuffer(slots)
        for n in way_to(start(rng)):
            yield insert(buffer, n)
        for _ in range(150):
            yield from step(rng, buffer, slots)


def insert(buffer, n):
    buffer.insert(n)
    return field(0x11, u16(n))


def remove(buffer, n):
    buffer.remove(n)
    return field(0x13, u16(n))


def step(rng, buffer, slots):
    n = number(rng, buffer.sequence_num, slots)
    kind = rng.random()
    if kind < 0.45:
        yield insert(buffer, n)
    elif kind < 0.65:
        yield field(0x12, u16(n))
    elif kind < 0.75:
        yield remove(buffer, n)
    elif kind < 0.80:
        yield field(0x14)
    elif kind < 0.97:
        other = rng.choice([number(rng, n), rng.choice(COUNTS), n])
        yield field(rng.choice([0x18, 0x19]), u16(n), u16(other))
    else:
        for i in range(rng.randint(1, 2 * slots)):
            yield insert(buffer, (n + i) % 65536)
        yield field(0x14)
