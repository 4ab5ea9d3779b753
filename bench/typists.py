"""A session by the clock: people type at their own pace, and each message takes its time."""
import heapq
import itertools

from storms import INSERTED, MOST, Sim, one_place

# A client stops typing when it may insert no more than this: more than any edit of a typist inserts.
SPARE = 200


class Typists(Sim):
    """Clients with a caret each. Their messages take up to twice their connection's time, and some stall for seconds; none overtakes another."""

    def __init__(self, r, clients, start, slowest, present=None):
        super().__init__(clients, start, present)
        self.r, self.now, self.clock, self.serial = r, 0.0, [], itertools.count()
        self.at, self.people = [0] * clients, []
        self.connection, self.stalls = [r.uniform(.02, slowest) for _ in range(clients)], r.uniform(0, .01)
        self.arrived = [0.0] * clients  # when the last message arrives that is on its way to the client

    def after(self, seconds, what, c):
        heapq.heappush(self.clock, (self.now + seconds, next(self.serial), what, c))

    def delay(self, c):
        stall = self.r.uniform(1, 5) if self.r.random() < self.stalls else 0
        return self.connection[c] * self.r.uniform(1, 2) + stall

    def put(self, c, gone, comes):
        """An edit that replaces the characters before the caret, so many if there are."""
        gone = min(gone, self.at[c])
        one_place(self, c, self.at[c] - gone, gone, comes)
        self.at[c] += len(comes) - gone

    def edit(self, c, ops):
        sends = self.out[c] is None
        super().edit(c, ops)
        if sends:
            self.after(self.delay(c), self.take, c)

    def take(self, c):
        super().take(c)
        for other in range(self.n):
            if self.joined[other]:
                self.arrived[other] = max(self.arrived[other], self.now + self.delay(other))
                self.after(self.arrived[other] - self.now, self.down, other)

    def down(self, c):
        received = super().down(c)
        if received is not None:
            self.at[c] = moved(self.at[c], received)
        elif self.msg[c]:
            self.after(self.delay(c), self.take, c)
        return received

    def join(self, c):
        super().join(c)
        self.after(self.r.uniform(1, 5), self.types, c)

    def types(self, c):
        if self.count[c] <= INSERTED - SPARE and self.has_room():
            self.after(next(self.people[c]), self.types, c)

    def has_room(self):
        """Whether one more edit can be made, and all join and receive everything."""
        behind = sum(self.backlog(c) for c in range(self.n) if self.joined[c])
        messages = sum((self.msg[c] is not None) + (self.buf[c] is not None) for c in range(self.n))
        return self.instrs() + behind + self.joined.count(False) + 1 + (messages + 1) * (self.n + 1) <= MOST

    def play(self, people, latest=0.0):
        """`people` has a generator for each client, which makes at most one edit before it yields the seconds until it goes on. Clients that are not present
        join by `latest`. It ends when all has arrived."""
        self.people = people
        for c in range(self.n):
            if self.joined[c]:
                self.types(c)
            else:
                self.after(self.r.uniform(0, latest), self.join, c)
        while self.clock:
            self.now, _, what, c = heapq.heappop(self.clock)
            what(c)
        return self


def moved(at, op):
    """Where a cursor is behind an operation, as ot.js moves it: an insertion at its place moves it too."""
    place = 0
    for x in op:
        if isinstance(x, str):
            at, place = at + len(x), place + len(x)
        elif x > 0:
            place += x
        else:
            at -= min(-x, at - place)
        if place > at:
            break
    return at
