"""The scripts of calls that both sides of bench/run perform: the kinds of step are those of crates/bench/src/script.rt.

A round is: an item is sent, all its datagrams; a packet comes, all its datagrams; of an ordered stream what may be taken is, until
none. A packet that comes acknowledges the oldest packet in flight, and tells of every number before that as received. The row says
which calls are counted, and the line which numbers the packets have that come.
"""
import struct
import sys
from collections.abc import Callable
from dataclasses import dataclass

SEND, SEND_ORDERED, RECEIVE, TAKE, LOOK = range(5)
# What of a step is counted.
NONE, THE_CALL, THE_CHECK, THE_MARKS = range(4)
VERSION, ALL_RECEIVED, FRAGMENTS = 21513, 0xFFFFFFFF, 16
# So many rounds of which nothing is counted come first: after them as many packets are in flight as are to be.
WARM = 300


@dataclass
class Sizes:
    n: int
    f: int
    c: int


@dataclass
class Row:
    work: str
    # Whether items go on the ordered stream, and in how many datagrams.
    ordered_out: bool = False
    parts_out: int = 1
    counts_out: bool = False
    # Whether items come on it, whether every two change places, and in how many datagrams they come.
    ordered_in: bool = False
    swapped: bool = False
    parts_in: int = 1
    counts_in: bool = False


@dataclass
class Line:
    """The numbers of the packets that come: of a round's packet, by which round it is."""
    numbers: str
    number: Callable[[int], int]
    warm: int = WARM


WHOLE = Line("no packet lost", lambda turn: turn)
LOSSY = Line("every seventh packet of the other end lost", lambda turn: turn + turn // 6 + 1)
# Lines on which the slots of the received record do not stand in laps: on the first two for the first 28 rounds that are counted.
FIRST = Line("the first numbers of a connection", lambda turn: turn, warm=4)
TURNING = Line("the numbers after 65,535", lambda turn: turn - WARM)
JUMPING = Line("each number 40 above the one before", lambda turn: 40 * turn)


EMPTY = Row("nothing")
ROWS = [
    Row("send, unordered", counts_out=True),
    Row("send, ordered", counts_out=True, ordered_out=True),
    Row("send, 16 fragments", counts_out=True, parts_out=FRAGMENTS),
    Row("receive, unordered", counts_in=True),
    Row("receive, ordered, in order, and take until none", counts_in=True, ordered_in=True),
    Row("receive, ordered, every two swapped, and take until none", counts_in=True, ordered_in=True, swapped=True),
    Row("receive, 16 fragments", counts_in=True, parts_in=FRAGMENTS),
]
# What comes is what was sent, which is one behind with its acknowledgment.
ROUND_TRIP = Row("a round trip: 2 sends, 2 receives", counts_out=True, counts_in=True)


def step(kind, counted=NONE, packet=0, part=65535, data=b""):
    return struct.pack(">BBHHH", kind, counted, packet, part, len(data)) + data


def call(kind, counts, check, **what):
    """A step whose call is counted, or, where checks are to be, a check before it."""
    if counts and check:
        return [step(LOOK, THE_CHECK), step(kind, **what)]
    return [step(kind, THE_CALL if counts else NONE, **what)]


def item(count):
    """Bytes that tell their place."""
    return bytes(i % 251 for i in range(count))


def datagram(row, line, turn, place, part, others, f):
    """What comes, made as the other end would. Its place is that among the items of the ordered stream."""
    theirs = line.number(turn) % 65536
    acked = struct.pack(">HHI", theirs, (turn - others) % 65536, ALL_RECEIVED)
    ordering, arranging = (2, struct.pack(">HB", place ^ row.swapped, 0)) if row.ordered_in else (0, b"")
    if row.parts_in == 1:
        return struct.pack(">HBBB", VERSION, 0, 1, ordering) + acked + arranging + item(f)
    fragment = struct.pack(">HBB", theirs, part, row.parts_in)
    return struct.pack(">HBBB", VERSION, 1, 1, 0) + fragment + (acked if part == 0 else b"") + item(f)


def takes(row, place):
    """How many takes there are until none comes: of two that are swapped the second arrival lets the first go."""
    if not row.ordered_in:
        return 0
    return 2 if row.swapped and place % 2 else 1


def round_of(row, line, turn, place, others, f, check):
    """One round. The packet that is sent in it has the round's number."""
    length = f if row.parts_out == 1 else f * row.parts_out
    yield from call(SEND_ORDERED if row.ordered_out else SEND, row.counts_out, check, data=item(length))
    for part in range(1, row.parts_out):
        yield from call(LOOK, row.counts_out, check, packet=turn, part=part)
    for part in range(row.parts_in):
        yield from call(RECEIVE, row.counts_in, check, data=datagram(row, line, turn, place, part, others, f))
    for _ in range(takes(row, place)):
        yield from call(TAKE, row.counts_in, check)
    if row is EMPTY:
        yield step(LOOK, THE_MARKS)


def joined(sizes, steps):
    return struct.pack(">HHHH", sizes.n, sizes.f, sizes.c, len(steps)) + b"".join(steps)


def script(row, rounds, sizes, line=WHOLE, others=0, check=False):
    warming = [(Row("warming"), 0)] * line.warm
    steps = []
    for turn, (now, place) in enumerate(warming + [(row, place) for place in range(rounds)]):
        steps += round_of(now, line, turn, place, others, sizes.f, check)
    return joined(sizes, steps)


def sample():
    """A step of every kind: what crates/bench is run on when it is checked."""
    swapped = next(row for row in ROWS if row.swapped)
    rounds = [(EMPTY, 0), (swapped, 0), (swapped, 1), *[(row, 0) for row in ROWS if not row.ordered_in]]
    steps = []
    for turn, (row, place) in enumerate(rounds):
        steps += round_of(row, WHOLE, turn, place, 0, 4, check=True)
    return joined(Sizes(16, 4, 8), steps)


if __name__ == "__main__":
    sys.stdout.buffer.write(sample())
