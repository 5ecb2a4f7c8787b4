"""One sequencing stream (tags 58, 59, 5A): indices at the edges of the half window, equal and old
ones, top index across the half and the return."""

from .choices import number
from .fields import field, u16


def script(rng):
    for _ in range(4):
        top = 0
        yield field(0x58)
        for _ in range(200):
            if rng.random() < 0.1:
                yield field(0x5A)
                continue
            index = number(rng, top, 64)
            if (index - top) % 65536 <= 32768:
                top = index
            yield field(0x59, u16(index))
