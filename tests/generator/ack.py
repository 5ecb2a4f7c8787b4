"""The acknowledgment handler alone (tags 20 to 25): packet numbers of both ends brought near the half
and the return, up to 256 in flight, old and far acknowledgments, dense and sparse fields, drops."""

from .choices import bits, number, short, start, way_to
from .fields import field, item, stream, u16, u32, u8
from .model import Acknowledgment

# F of the end that `replay` makes: 256 packets of 16 fragments are then 262,144 bytes.
MOST_PAYLOAD = 64


def script(rng):
    for _ in range(3):
        ack = Acknowledgment()
        yield field(0x20)
        for seq in way_to(start(rng)):
            yield cycle(ack, 1, seq)
        yield cycle(ack, max(start(rng) - ack.local, 0), ack.newest())
        busy = rng.choice([0.2, 0.5, 0.85, 0.98])
        for _ in range(400):
            yield from step(rng, ack, busy)


def cycle(ack, count, seq):
    ack.cycle(count, seq)
    return field(0x25, u16(count), u16(seq))


def step(rng, ack, busy):
    kind = rng.random()
    if kind < busy and ack.has_room():
        yield outgoing(rng, ack)
    elif rng.random() < 0.8:
        yield incoming(rng, ack)
    elif rng.random() < 0.4:
        ack.dropped()
        yield field(0x23)
    elif rng.random() < 0.5 or not ack.has_room():
        yield field(0x24)
    else:
        yield cycle(ack, rng.randint(0, 80), number(rng, ack.newest()))


def outgoing(rng, ack):
    """An item identifier exactly where there is an ordering, as a connection does it."""
    ordering = rng.randrange(3)
    id = rng.choice([None, 0, 255, rng.randrange(256)])
    identifier = number(rng, 0) if ordering else None
    ack.outgoing(None)
    payload = short(rng, MOST_PAYLOAD)
    return field(0x22, u8(ordering), stream(id), item(identifier), payload)


def incoming(rng, ack):
    numbers = number(rng, ack.newest()), acknowledged(rng, ack), bits(rng)
    ack.incoming(*numbers)
    seq, acked, acked_before = numbers
    return field(0x21, u16(seq), u16(acked), u32(acked_before))


def acknowledged(rng, ack):
    """Mostly a number in flight, or one that was."""
    if ack.flight and rng.random() < 0.5:
        return rng.choice(list(ack.flight))
    return number(rng, rng.choice([ack.local, ack.remote]))
