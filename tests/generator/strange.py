"""Datagrams that no honest end sends, as far as laminar and document 01 answer them alike."""

from .choices import bits, number, payload
from .fields import NONE, ORDERED, RELIABLE, SEQUENCED, UNRELIABLE
from .model import HEARTBEAT, VERSION, fragment, packet, standard


def datagram(rng, end, ids):
    """For `end` to receive; of the arranged ones on the streams in `ids`."""
    make = rng.choice([unreliable, reliable, reliable, reliable, a_fragment, cut, bad_byte])
    return make(rng, end, ids)


def numbers(rng, end):
    return number(rng, end.ack.newest()), number(rng, end.ack.local), bits(rng)


def data(rng, end):
    return payload(rng, rng.choice([0, 1, end.f, rng.randint(0, end.f)]))


def unreliable(rng, end, ids):
    ordering = rng.choice([NONE, SEQUENCED])
    id = rng.choice(ids[SEQUENCED])
    return packet(UNRELIABLE, ordering, None, number(rng, 0), id, data(rng, end))


def reliable(rng, end, ids):
    ordering = rng.choice([NONE, SEQUENCED, ORDERED, ORDERED])
    id = rng.choice(ids[ordering or SEQUENCED])
    around = end.stream(id).expected if ordering == ORDERED else 0
    return packet(RELIABLE, ordering, numbers(rng, end), number(rng, around, 64), id, data(rng, end))


def a_fragment(rng, end, ids):
    newest = end.reassembly.buffer.sequence_num
    count = rng.choice([0, 1, 2, 3, 16, 255])
    id = rng.choice([0, 0, 1, 2, 15, 16, 255])
    return fragment(number(rng, newest, end.c), id, count, numbers(rng, end), data(rng, end))


def cut(rng, end, ids):
    """Inside the standard header, the acknowledgment header, or an unreliable arranging header.
    laminar answers otherwise when a reliable arranging or a fragment header is cut."""
    kind = rng.choice([(0, UNRELIABLE, SEQUENCED), (0, RELIABLE, NONE), (0, RELIABLE, SEQUENCED),
                       (0, RELIABLE, ORDERED)])
    most = 7 if kind[1] == UNRELIABLE else 12
    whole = standard(*kind) + bytes(rng.randrange(256) for _ in range(8))
    return whole[:rng.randint(0, most)]


def bad_byte(rng, end, ids):
    """Another version word, or a type, delivery or ordering that is none; or a heartbeat."""
    rest = payload(rng, rng.choice([0, 8, 11]))
    return rng.choice([
        standard(0, RELIABLE, NONE, VERSION ^ 1 << rng.randrange(16)) + rest,
        standard(rng.randint(3, 255), RELIABLE, NONE) + rest,
        standard(0, rng.randint(2, 255), NONE) + rest,
        standard(0, RELIABLE, rng.randint(3, 255)) + rest,
        HEARTBEAT,
    ])
