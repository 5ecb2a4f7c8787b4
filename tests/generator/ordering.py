"""One ordered stream (tags 50 to 55): indices at the edges of the half window, up to 64 held, equal
indices replaced, arranging with and without taking, expected index across the half and the return."""

from .choices import number, short, start
from .fields import field, u16
from .model import Ordering

MOST_PAYLOAD = 256


def script(rng):
    for _ in range(4):
        stream = Ordering()
        yield field(0x50)
        yield feed(stream, 0, start(rng))
        early = rng.choice([4, 30, 80, 400])
        for _ in range(200):
            yield from step(rng, stream, early)


def feed(stream, first, count):
    stream.feed_row(first, count)
    return field(0x55, u16(first), u16(count))


def step(rng, stream, early):
    kind = rng.random()
    if kind < 0.85:
        yield from arrive(rng, stream, early)
    elif kind < 0.92:
        stream.take()
        yield field(0x53)
    elif kind < 0.97:
        yield field(0x54)
    else:
        yield feed(stream, (stream.expected - rng.randint(0, 3)) % 65536, rng.randint(0, 60))


def arrive(rng, stream, early):
    index = (stream.expected + rng.randint(0, early)) % 65536
    if rng.random() < 0.15:
        index = number(rng, stream.expected, 64)
    if rng.random() < 0.1 or not stream.has_room(index):
        index = stream.expected
    together = rng.random() < 0.7
    stream.feed(index) if together else stream.arrange(index)
    yield field(0x51 if together else 0x52, u16(index), short(rng, MOST_PAYLOAD))
