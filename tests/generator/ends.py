"""Two connections over a line that loses, repeats, delays and reorders (tags 70 to 8A): F 1 to 256,
C 1 to 64, M 1 to 16, payloads around F and M x F, all five listed kinds of packet, fragments, resends,
strange and cut datagrams; in part of the runs every counter is brought near the half or the return."""

from . import strange
from .choices import ALL, payload, size, start, way_to
from .fields import (DEFAULT_STREAM, NONE, ORDERED, RELIABLE, SEQUENCED, UNRELIABLE, field, stream, u16,
                     u32, u8)
from .model import HEARTBEAT, End, fragment, packet

# What `replay` must have room for, in the log of each end.
MOST_LOGGED, MOST_LOGGED_BYTES = 1024, 262144
MOST_FRAGMENTS_IN_DOMAIN = 255
KINDS = [(UNRELIABLE, NONE), (UNRELIABLE, SEQUENCED), (RELIABLE, NONE), (RELIABLE, SEQUENCED),
         (RELIABLE, ORDERED), (RELIABLE, ORDERED), (RELIABLE, ORDERED)]


def script(rng):
    return Session(rng).fields()


class Session:
    # How near a counter is brought, and by which items.
    near, brought = 60, [NONE, SEQUENCED, ORDERED, ORDERED]

    def __init__(self, rng):
        self.rng = rng
        f = size(rng, 256)
        self.ends = [End((f, size(rng, 64), size(rng, 16))) for _ in range(2)]
        self.under_way = [[], []]
        self.ids = {kind: self.streams() for kind in (SEQUENCED, ORDERED)}
        self.loss, self.repeat = rng.choice([0, 0.1, 0.4]), rng.choice([0, 0.1, 0.3])
        self.window = rng.choice([1, 5, 40])
        self.strange = rng.choice([0, 0, 0.02, 0.15])
        self.kinds = rng.choice([KINDS, KINDS, [(RELIABLE, ORDERED)]])
        self.steps, self.sending = rng.choice([(500, 0.4), (500, 0.4), (500, 0.5), (900, 0.75)])

    def streams(self):
        """At most four of a kind between the two ends; laminar's default is often among them."""
        ids = self.rng.sample(range(256), self.rng.randint(1, 4))
        return ids if self.rng.random() < 0.5 else [DEFAULT_STREAM] + ids[1:]

    def fields(self):
        for e, end in enumerate(self.ends):
            yield field(tag(0x70, e), u16(end.f), u16(end.c), u8(end.m))
        if self.rng.random() < 0.5:
            yield from self.bring_near()
        for _ in range(self.steps):
            yield from self.step(self.rng.randrange(2))
        for e in (0, 1):
            yield field(tag(0x7A, e))

    def bring_near(self):
        """What one end sent and had acknowledged, the other receives, so the two stay in step. A
        fed item has two bytes."""
        for e in (0, 1):
            count = start(self.rng, self.near)
            ordering = self.rng.choice(self.brought)
            if self.ends[e].f < 2:
                ordering = NONE
            id = self.rng.choice(self.ids[ordering or SEQUENCED])
            yield self.cycle(e, count, ordering, id, self.ends[e].ack.newest())
            acked = (self.ends[1 - e].ack.local - 1) % ALL
            if ordering == ORDERED:
                yield self.feed(1 - e, count, 0, acked, 0, 0, id)
            for seq in way_to(count - 1) if count else []:
                yield self.receive(1 - e, fragment(seq, 1, 2, None, b""))
                if ordering != ORDERED:
                    numbers = seq, acked, 0
                    yield self.receive(1 - e, packet(RELIABLE, ordering, numbers, seq, id, b""))

    def cycle(self, e, count, ordering, id, seq):
        self.ends[e].cycle(count, ordering, id, seq)
        return field(tag(0x76, e), u16(count), u8(ordering), stream(id), u16(seq))

    def feed(self, e, count, *rest):
        self.ends[e].feed(count, *rest)
        seq, ack, before, index, id = rest
        return field(tag(0x77, e), u16(count), u16(seq), u16(ack), u32(before), u16(index), u8(id))

    def receive(self, e, datagram):
        self.ends[e].receive(datagram)
        return field(tag(0x71, e), datagram)

    def step(self, e):
        kind = self.rng.random()
        if kind < self.strange:
            yield from self.strange_arrival(e)
        elif kind < self.sending:
            yield from self.send(e)
        elif kind < 0.90:
            yield from self.arrival(e)
        elif kind < 0.95:
            yield from self.resend(e)
        elif kind < 0.97:
            yield from self.heartbeat(e)
        elif kind < 0.99:
            yield field(tag(0x7A, e))
        else:
            yield from self.rare(e)

    def has_log_room(self, e, sends):
        """`sends` has the delivery, ordering and payload of each."""
        end = self.ends[e]
        count = sum(end.sends(*send) for send in sends)
        size = sum(len(payload) for _, _, payload in sends) + count * 17
        logged = sum(len(datagram) for datagram in end.log)
        return len(end.log) + count <= MOST_LOGGED and logged + size <= MOST_LOGGED_BYTES

    def sent(self, e, before):
        """What the log has since it was `before` long is under way."""
        self.under_way[e] += range(before, len(self.ends[e].log))

    def send(self, e):
        end = self.ends[e]
        delivery, ordering = self.rng.choice(self.kinds)
        if delivery == RELIABLE and not end.ack.has_room():
            return
        id = self.rng.choice(self.ids[ordering]) if ordering != NONE else None
        given = None if id == DEFAULT_STREAM and self.rng.random() < 0.5 else id
        data = payload(self.rng, self.length(end, delivery, ordering))
        yield from self.send_one(e, delivery, ordering, id, given, data)

    def send_one(self, e, delivery, ordering, id, given, data):
        if self.has_log_room(e, [(delivery, ordering, data)]):
            before = len(self.ends[e].log)
            self.ends[e].send(delivery, ordering, id, data)
            self.sent(e, before)
            yield field(tag(0x72, e), bytes([delivery, ordering]), stream(given), data)

    def length(self, end, delivery, ordering):
        """To F for arranged reliable items; other payloads around F and M x F too."""
        rng, f = self.rng, end.f
        lengths = [0, rng.randint(0, min(f, 4)), rng.randint(0, min(f, 4)), f - 1, f]
        if delivery == UNRELIABLE:
            lengths.append(f + rng.randint(1, 3))
        elif ordering == NONE:
            whole = f * rng.choice([1, 2, end.m, rng.randint(1, end.m)])
            lengths += [whole - 1, whole, whole + 1, min(f * MOST_FRAGMENTS_IN_DOMAIN, 4000)]
        return min(rng.choice(lengths), f * MOST_FRAGMENTS_IN_DOMAIN)

    def arrival(self, e):
        """A copy from end e arrives, or is lost, or stays under way to arrive again."""
        rng, way = self.rng, self.under_way[e]
        if not way:
            return
        place = way[rng.randrange(min(self.window, len(way)))]
        if rng.random() < 0.03:
            place = rng.randrange(len(self.ends[e].log))
        if rng.random() >= self.repeat and place in way:
            way.remove(place)
        datagram, to = self.ends[e].log[place], self.ends[1 - e]
        if rng.random() >= self.loss and to.has_room(datagram):
            to.receive(datagram)
            yield field(tag(0x78, e), u32(place))

    def resend(self, e):
        end = self.ends[e]
        records = [end.ack.flight[n] for n in end.ack.to_drop()]
        sends = [(RELIABLE, ordering, payload) for ordering, _, _, payload in records]
        if self.has_log_room(e, sends):
            before = len(end.log)
            end.resend()
            self.sent(e, before)
            yield field(tag(0x79, e))

    def heartbeat(self, e):
        if self.has_log_room(e, [(UNRELIABLE, NONE, b"")]):
            self.ends[e].log.append(HEARTBEAT)
            self.sent(e, len(self.ends[e].log) - 1)
            yield field(tag(0x75, e))

    def strange_arrival(self, e):
        datagram = strange.datagram(self.rng, self.ends[e], self.ids)
        if self.ends[e].has_room(datagram):
            yield self.receive(e, datagram)

    def rare(self, e):
        end = self.ends[e]
        if self.rng.random() < 0.2:
            end.ack.dropped()
            yield field(tag(0x74, e))
        elif end.ack.has_room():
            ordering = self.rng.choice([NONE, SEQUENCED])
            id = self.rng.choice(self.ids[SEQUENCED])
            yield self.cycle(e, self.rng.randint(0, 40), ordering, id, end.ack.newest())


def tag(tag, e):
    return tag + 0x10 * e
