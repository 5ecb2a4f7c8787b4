"""As much of a connection as the generator needs to stay within the domain: what is in flight,
held and in the log. Document 01's rules, in its order of modules."""

from .fields import NONE, ORDERED, RELIABLE, SEQUENCED, u16, u32, u8

VERSION = 21513
MOST_IN_FLIGHT, MOST_HELD = 256, 64
# `replay` has room for half as many payloads where F is over this.
F_FOR_ALL_IN_FLIGHT = 128


def greater(a, b):
    return (a > b and a - b <= 32768) or (a < b and b - a > 32768)


class SequenceBuffer:
    def __init__(self, slots):
        self.sequence_num = 0
        self.slots = [None] * slots

    def exists(self, n):
        return self.slots[n % len(self.slots)] == n

    def remove(self, n):
        if self.exists(n):
            self.slots[n % len(self.slots)] = None

    def insert(self, n):
        size = len(self.slots)
        if greater((self.sequence_num - size) % 65536, n):
            return False
        if greater((n + 1) % 65536, self.sequence_num):
            passed = (n - self.sequence_num) % 65536
            if passed < size:
                for i in range(passed + 1):
                    self.remove((self.sequence_num + i) % 65536)
            else:
                self.slots = [None] * size
            self.sequence_num = (n + 1) % 65536
        self.slots[n % size] = n
        return True


class Acknowledgment:
    def __init__(self, most=MOST_IN_FLIGHT):
        self.most = most
        self.local, self.remote = 0, 65535
        self.flight = {}
        self.received = SequenceBuffer(33)

    def newest(self):
        return (self.received.sequence_num - 1) % 65536

    def field(self):
        before = (self.received.exists((self.newest() - i) % 65536) for i in range(1, 33))
        return sum(1 << i for i, there in enumerate(before) if there)

    def has_room(self):
        return len(self.flight.keys() - {self.local}) < self.most

    def incoming(self, seq, ack, field):
        if greater(ack, self.remote):
            self.remote = ack
        self.received.insert(seq)
        self.flight.pop(ack, None)
        for i in range(1, field.bit_length() + 1):
            if field >> (i - 1) & 1:
                self.flight.pop((ack - i) % 65536, None)

    def outgoing(self, record):
        self.flight[self.local] = record
        self.local = (self.local + 1) % 65536

    def to_drop(self):
        return [n for n in sorted(self.flight)
                if greater(self.remote, n) and (self.remote - n) % 65536 > 32]

    def dropped(self):
        return [self.flight.pop(n) for n in self.to_drop()]

    def cycle(self, count, seq):
        """`count` times an empty send and its acknowledgment by a packet numbered `seq`."""
        for _ in range(count):
            self.flight.pop(self.local, None)
            if greater(self.local, self.remote):
                self.remote = self.local
            self.local = (self.local + 1) % 65536
        if count:
            self.received.insert(seq)


class Reassembly:
    def __init__(self, slots):
        self.buffer = SequenceBuffer(slots)
        self.entries = {}

    def receive(self, number, id, count, header):
        """The header of fragment 0 where a message is complete."""
        if not self.buffer.exists(number):
            if not self.buffer.insert(number):
                return None
            self.entries[number] = (count, {})
            self.entries = {n: e for n, e in self.entries.items() if self.buffer.exists(n)}
        total, ids = self.entries[number]
        if count != total or id >= 16 or id in ids:
            return None
        ids[id] = header
        if len(ids) != total:
            return None
        self.buffer.remove(number)
        del self.entries[number]
        return ids.get(0)


class Ordering:
    def __init__(self):
        self.expected, self.item = 0, 0
        self.held = set()

    def has_room(self, index):
        far = (index - self.expected) % 65536
        return not 1 <= far <= 32768 or len(self.held - {index}) < MOST_HELD

    def arrange(self, index):
        far = (index - self.expected) % 65536
        if far == 0:
            self.expected = (index + 1) % 65536
        elif far <= 32768:
            self.held.add(index)

    def take(self):
        if self.expected not in self.held:
            return False
        self.held.discard(self.expected)
        self.expected = (self.expected + 1) % 65536
        return True

    def feed(self, index):
        self.arrange(index)
        while self.take():
            pass

    def feed_row(self, first, count):
        if first == self.expected and not self.held:
            self.expected = (first + count) % 65536
            return
        for i in range(count):
            self.feed((first + i) % 65536)


class End:
    def __init__(self, sizes):
        self.f, self.c, self.m = sizes
        self.ack = Acknowledgment(MOST_IN_FLIGHT if self.f <= F_FOR_ALL_IN_FLIGHT else MOST_IN_FLIGHT // 2)
        self.reassembly = Reassembly(self.c)
        self.ordered, self.sequenced = {}, {}
        self.log = []

    def stream(self, id):
        return self.ordered.setdefault(id, Ordering())

    def next_item(self, ordering, id):
        if ordering == ORDERED:
            of = self.stream(id)
            of.item = (of.item + 1) % 65536
            return (of.item - 1) % 65536
        self.sequenced[id] = (self.sequenced.get(id, -1) + 1) % 65536
        return self.sequenced[id]

    def sends(self, delivery, ordering, payload):
        """How many datagrams a send makes; 0 where it is refused 5 or 8."""
        if len(payload) <= self.f:
            return 1
        pieces = -(-len(payload) // self.f)
        return pieces if (delivery, ordering) == (RELIABLE, NONE) and pieces <= self.m else 0

    def send(self, delivery, ordering, id, payload, item=None):
        pieces = self.sends(delivery, ordering, payload)
        if pieces == 0:
            return
        if ordering != NONE and item is None:
            item = self.next_item(ordering, id)
        if pieces == 1:
            self.log.append(packet(delivery, ordering, self.numbers(), item, id, payload))
        for j in range(pieces if pieces > 1 else 0):
            piece = payload[j * self.f:(j + 1) * self.f]
            self.log.append(fragment(self.ack.local, j, pieces, self.numbers(), piece))
        if delivery == RELIABLE:
            self.ack.outgoing((ordering, id, item, payload))

    def numbers(self):
        return self.ack.local, self.ack.newest(), self.ack.field()

    def resend(self):
        for ordering, id, item, payload in self.ack.dropped():
            self.send(RELIABLE, ordering, id, payload, item)

    def cycle(self, count, ordering, id, seq):
        if ordering != NONE and count:
            for _ in range(count):
                self.next_item(ordering, id)
        self.ack.cycle(count, seq)

    def feed(self, count, seq, ack, field, index, id):
        for i in range(count):
            self.ack.incoming((seq + i) % 65536, ack, field if i == 0 else 0)
        self.stream(id).feed_row(index, count)

    def has_room(self, datagram):
        """Whether an ordered item in the datagram finds a place."""
        if datagram[:5] != standard(0, RELIABLE, ORDERED) or len(datagram) < 16:
            return True
        return self.stream(datagram[15]).has_room(number(datagram, 13))

    def receive(self, datagram):
        """Of cut datagrams only those that end before their acknowledgment header has been read."""
        head = datagram[:5]
        if head == standard(1, RELIABLE, NONE):
            self.receive_fragment(datagram)
        elif head[:4] == standard(0, RELIABLE, NONE)[:4] and len(datagram) >= 13 and head[4] <= 2:
            self.ack.incoming(*acknowledgment(datagram, 5))
            if head[4] == ORDERED:
                self.stream(datagram[15]).feed(number(datagram, 13))

    def receive_fragment(self, datagram):
        header = acknowledgment(datagram, 9) if datagram[7] == 0 else None
        done = self.reassembly.receive(number(datagram, 5), datagram[7], datagram[8], header)
        if done is not None:
            self.ack.incoming(*done)


def number(datagram, at):
    return int.from_bytes(datagram[at:at + 2], "big")


def acknowledgment(datagram, at):
    field = int.from_bytes(datagram[at + 4:at + 8], "big")
    return number(datagram, at), number(datagram, at + 2), field


def standard(kind, delivery, ordering, version=VERSION):
    return u16(version) + bytes([kind, delivery, ordering])


def numbers_header(numbers):
    seq, ack, field = numbers
    return u16(seq) + u16(ack) + u32(field)


def packet(delivery, ordering, numbers, item, id, payload):
    """A (0, delivery, ordering) datagram."""
    head = standard(0, delivery, ordering)
    if delivery == RELIABLE:
        head += numbers_header(numbers)
    if ordering in (SEQUENCED, ORDERED):
        head += u16(item) + u8(id)
    return head + payload


def fragment(number, id, count, numbers, payload):
    """A (1,1,0) datagram."""
    head = standard(1, RELIABLE, NONE) + u16(number) + bytes([id, count])
    return head + (numbers_header(numbers) if id == 0 else b"") + payload


HEARTBEAT = standard(2, 0, 0)
