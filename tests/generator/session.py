"""Two honest ends over a bad line (tags 70 to 8A): ordered items with reliable ones between, resends, no
strange datagram and no item given up; in part of the runs every counter is brought near the half or the
return. At the end the line is good, so that every item arrives."""

from .ends import Session, tag
from .fields import NONE, ORDERED, RELIABLE, field, u8

ROUNDS = 8


def script(rng):
    return Honest(rng).fields()


class Honest(Session):
    # So near that most streams that are brought there pass it.
    near, brought = 12, [ORDERED]

    def __init__(self, rng):
        super().__init__(rng)
        self.strange = 0
        self.kinds = [(RELIABLE, ORDERED), (RELIABLE, ORDERED), (RELIABLE, NONE)]
        self.steps, self.sending = rng.choice([(300, 0.35), (300, 0.45)])

    def rare(self, e):
        """Nothing is dropped for good."""
        yield field(tag(0x7A, e))

    def fields(self):
        yield from super().fields()
        self.loss = self.repeat = 0
        for _ in range(ROUNDS):
            for e in (0, 1):
                yield from self.push(e)
                while self.under_way[e]:
                    yield from self.arrival(e)
                yield from self.resend(e)

    def push(self, e):
        """More than 32 packets after a lost one, so that it is found dropped."""
        for _ in range(34):
            if self.ends[e].ack.has_room():
                yield from self.send_one(e, RELIABLE, NONE, None, None, u8(e))
