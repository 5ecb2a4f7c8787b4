"""Splitting and putting together (tags 40, 41, 44): F 1 to 256 (to 1,024 for splitting), C 1 to 64,
several messages at once in any order of fragments, refusals 8 to 12, numbers across the return."""

from .choices import ALL, bits, number, payload, size, start, way_to
from .fields import field, u16, u32, u8
from .model import SequenceBuffer

MOST_FRAGMENTS_IN_DOMAIN = 255


def script(rng):
    for _ in range(4):
        f, c = size(rng, 256), size(rng, 64)
        yield field(0x40, u16(f), u16(c))
        line = Line(rng, f, c)
        yield from line.bring_near()
        for _ in range(100):
            yield from line.step()
            if rng.random() < 0.2:
                yield split(rng)


def split(rng):
    f, m = size(rng, 1024), size(rng, 16)
    most = min(65535, f * MOST_FRAGMENTS_IN_DOMAIN)
    whole = f * rng.choice([0, 1, 2, m - 1, m, m + 1, 255, rng.randint(1, 255)])
    length = rng.choice([whole + rng.randint(-1, 1), rng.randint(0, f * m), rng.randint(0, most)])
    return field(0x44, u16(f), u8(m), u32(min(max(length, 0), most)))


class Line:
    """Messages under way: the number of each, its count and the ids still to come."""

    def __init__(self, rng, f, c):
        self.rng, self.f, self.c = rng, f, c
        self.buffer = SequenceBuffer(c)
        self.messages = []

    def bring_near(self):
        for n in way_to(start(self.rng)):
            yield self.fragment(n, 1, 2)

    def step(self):
        if len(self.messages) < self.rng.randint(1, self.c // 2 + 1):
            self.messages.append(self.message())
        n, count, ids = message = self.rng.choice(self.messages)
        yield self.fragment(n, ids.pop(), count)
        if not ids:
            self.messages.remove(message)
        if self.rng.random() < 0.25:
            yield self.stray()

    def message(self):
        """Some lack fragment 0, some have ids that their count doesn't have."""
        count = self.rng.choice([0, 1, 2, 3, 16, self.rng.randint(1, 16), 17, 255])
        ids = list(range(min(count, 16))) or [0]
        if self.rng.random() < 0.15:
            ids[0] = self.rng.randint(0, 15)
        if self.rng.random() < 0.9:
            self.rng.shuffle(ids)
        n = self.buffer.sequence_num + self.rng.choice([0] * 9 + [1, -1, self.c, -self.c])
        return n % ALL, count, ids

    def stray(self):
        """A repeated, old, early or wrong fragment."""
        rng = self.rng
        newest = self.buffer.sequence_num
        n, count, _ = rng.choice(self.messages or [(newest, 2, [])])
        if rng.random() < 0.1:
            n = number(rng, newest, self.c)
        count = rng.choice([count, count, rng.randint(0, 17)])
        id = rng.choice([0, 1, rng.randint(0, 15), 15, 16, 255])
        return self.fragment(n, id, count)

    def fragment(self, n, id, count):
        rng = self.rng
        if not self.buffer.exists(n):
            self.buffer.insert(n)
        header = u16(number(rng, 0)) + u16(number(rng, 0)) + u32(bits(rng)) if id == 0 else b""
        length = rng.choice([self.f, self.f, max(self.f - 1, 0), rng.randint(0, self.f), 0])
        return field(0x41, u16(n), bytes([id, count]), header, payload(rng, length))
