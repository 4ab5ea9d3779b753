#!/usr/bin/env python3
"""Writes large schedules for benchmarks, each within the limits that docs/FORMATS.md names.

    python3 storms.py OUTDIR [--only a,b,..] [--seed S]

a-typing          one client, 20,000 edits, each taken and acknowledged
b-eight           8 clients typing at once, 100,000 instructions in random interleaving, the document grows past 40,000
c-large           40,000 start characters, 4 clients, many small edits
d-lag             64 clients; one types 9,000 edits in order, 62 edits made at revision 0 are taken in between, so that takes transform over thousands of
                  log entries; then clients with outstanding and buffer deliver backlogs of more than 9,000 operations
e-crowd           64 clients that edit at random places of 8,000 characters, 90,000 instructions, most of them deliveries
f-behind          four clients, each with an operation and a buffer of some hundred components under way, deliver 9,000 operations of a fifth
g-places          8 clients that edit documents of about 1,000 characters at 1 to 20 places at once: insertions, deletions, both at one place
h-places-crowd    the same with 64 clients
i-long            8 clients, documents of about 40,000 characters
j-long-crowd      64 clients, documents of about 40,000 characters
k-grown           20 to 24 clients, whose pastes have made documents of about 200,000 characters
l-grown-crowd     the same with 64 clients
m-replacements    4 to 16 clients that replace some characters by others, at 1 to 20 places at once
n-cursors         2 to 4 clients with 2 to 20 cursors each, which type or delete the same letter at all of them, in 30,000 to 40,000 characters
o-pastes          16 to 32 clients that paste and cut some hundred characters
p-pastes-crowd    64 clients that paste and cut about 2,000 characters
q-offline         3 to 8 clients that make 30 to 300 edits before their messages are taken

From g-places on, the seed draws too what share of the edits has one place, how many places the others have, how fast all receive, how far behind a client
still edits, and all lengths.

The small simulator here only keeps lengths and pending operations (an insert is its text), to know the base of each edit; it is no reference for anything.
"""
import argparse
import json
import os
import random
import time


def add(ops, x):
    """Builder on [int or str] with zero and neighbour rules."""
    if x == 0 or x == '':
        return
    if ops and (isinstance(x, str) == isinstance(ops[-1], str)) and \
            (isinstance(x, str) or (x > 0) == (ops[-1] > 0)):
        ops[-1] += x
    elif isinstance(x, str) and ops and not isinstance(ops[-1], str) and ops[-1] < 0:
        d = ops.pop()
        add(ops, x)
        ops.append(d)
    else:
        ops.append(x)


def compose(a, b):
    out, a, b = [], list(a), list(b)
    i = j = 0
    while i < len(a) or j < len(b):
        if i < len(a) and not isinstance(a[i], str) and a[i] < 0:
            add(out, a[i])
            i += 1
            continue
        if j < len(b) and isinstance(b[j], str):
            add(out, b[j])
            j += 1
            continue
        x, y = a[i], b[j]
        n = min(len(x) if isinstance(x, str) else x, abs(y))
        if isinstance(x, str):
            if y > 0:
                add(out, x[:n])
            a[i] = x[n:]
        else:
            add(out, n if y > 0 else -n)
            a[i] = x - n
        b[j] = y - n if y > 0 else y + n
        if not a[i]:
            i += 1
        if not b[j]:
            j += 1
    return out


def transform(a, b):
    p, q, a, b = [], [], list(a), list(b)
    i = j = 0
    while i < len(a) or j < len(b):
        if i < len(a) and isinstance(a[i], str):
            add(p, a[i])
            add(q, len(a[i]))
            i += 1
            continue
        if j < len(b) and isinstance(b[j], str):
            add(p, len(b[j]))
            add(q, b[j])
            j += 1
            continue
        x, y = a[i], b[j]
        n = min(abs(x), abs(y))
        if x > 0 and y > 0:
            add(p, n)
            add(q, n)
        elif x < 0 < y:
            add(p, -n)
        elif y < 0 < x:
            add(q, -n)
        a[i] = x - n if x > 0 else x + n
        b[j] = y - n if y > 0 else y + n
        if not a[i]:
            i += 1
        if not b[j]:
            j += 1
    return p, q


def delta(op):
    return sum(len(x) if isinstance(x, str) else min(x, 0) for x in op)


class Sim:
    def __init__(self, clients, start, present=None):
        self.n = clients
        self.lines = ['clients %d' % clients]
        if present is not None:
            self.lines.append('present %d' % present)
        if start:
            self.lines.append('start ' + json.dumps(start, ensure_ascii=False))
        self.head = len(self.lines)
        self.log = []
        self.joined = [present is None or c < present for c in range(clients)]
        self.server_len = len(start)
        self.len = [len(start)] * clients
        self.rev = [0] * clients
        self.out = [None] * clients
        self.buf = [None] * clients
        self.msg = [None] * clients
        self.count = [0] * clients

    def instrs(self):
        return len(self.lines) - self.head

    def join(self, c):
        self.joined[c], self.rev[c], self.len[c] = True, len(self.log), self.server_len
        self.lines.append('join %d' % c)

    def edit(self, c, ops):
        op = []
        for x in ops:
            add(op, x)
        assert sum(abs(x) for x in op if not isinstance(x, str)) == self.len[c]
        self.count[c] += sum(len(x) for x in op if isinstance(x, str))
        assert self.count[c] <= 15000
        self.lines.append('edit %d %s' % (c, json.dumps(op, ensure_ascii=False,
                                                        separators=(',', ':'))))
        self.len[c] += delta(op)
        if self.out[c] is None:
            self.out[c] = op
            self.msg[c] = (self.rev[c], op)
        elif self.buf[c] is None:
            self.buf[c] = op
        else:
            self.buf[c] = compose(self.buf[c], op)

    def take(self, c):
        q, m = self.msg[c]
        self.msg[c] = None
        for _, h in self.log[q:]:
            m = transform(m, h)[0]
        self.server_len += delta(m)
        self.log.append((c, m))
        self.lines.append('take %d' % c)

    def down(self, c):
        """Delivers or acknowledges the next message. Of a delivery, what it does to the client's document."""
        maker, h = self.log[self.rev[c]]
        self.rev[c] += 1
        if maker == c:
            self.lines.append('ack %d' % c)
            self.out[c], self.buf[c] = self.buf[c], None
            if self.out[c] is not None:
                self.msg[c] = (self.rev[c], self.out[c])
            return None
        self.lines.append('deliver %d' % c)
        if self.out[c] is not None:
            self.out[c], h = transform(self.out[c], h)
            if self.buf[c] is not None:
                self.buf[c], h = transform(self.buf[c], h)
        self.len[c] += delta(h)
        return h

    def backlog(self, c):
        return len(self.log) - self.rev[c]

    def text(self):
        assert self.instrs() <= 100_000, self.instrs()
        return ''.join(x + '\n' for x in self.lines)


LETTERS = 'etaoinshrdlucmfwypvbgkjqxz     '


def text(r, length):
    return ''.join(r.choice(LETTERS) for _ in range(length))


def changed_at(s, c, changes):
    """An edit at several places, in their order: at each, how many characters go, and what comes."""
    ops, done = [], 0
    for at, gone, ins in changes:
        ops += [at - done, ins, -gone]
        done = at + gone
    s.edit(c, [*ops, s.len[c] - done])


def one_place(s, c, at, gone, ins):
    changed_at(s, c, [(at, gone, ins)])


def take_or_receive(s, r, c, takes, most):
    """The server takes the client's message, if there is one; or the client receives up to so many."""
    if takes:
        if s.msg[c]:
            s.take(c)
        return
    for _ in range(r.randint(1, most)):
        if s.backlog(c):
            s.down(c)


def bench_a(r):
    s = Sim(1, '')
    cur = 0
    for _ in range(20000):
        n = s.len[0]
        if r.random() < .02:
            cur = r.randint(0, n)
        cur = min(cur, n)
        if cur > 0 and (r.random() < .27 or s.count[0] >= 15000):
            one_place(s, 0, cur - 1, 1, '')
            cur -= 1
        else:
            one_place(s, 0, cur, 0, r.choice(LETTERS))
            cur += 1
        s.take(0)
        s.down(0)
    return s


def bench_b(r):
    s = Sim(8, text(r, 20000))
    cur = [r.randint(0, 20000) for _ in range(8)]
    while s.instrs() < 99_990:
        c = r.randrange(8)
        k = r.random()
        if k < .16 and s.backlog(c) < 40:
            n = s.len[c]
            cur[c] = min(cur[c], n)
            if r.random() < .03:
                cur[c] = r.randint(0, n)
            room = 15000 - s.count[c]
            if (r.random() < .2 and cur[c] > 2) or room < 5:
                one_place(s, c, cur[c] - 1, 1, '')
                cur[c] -= 1
            else:
                t = text(r, r.randint(1, 5))
                one_place(s, c, cur[c], 0, t)
                cur[c] += len(t)
        elif k < .35:
            if s.msg[c]:
                s.take(c)
        else:
            for _ in range(r.randint(1, 6)):
                if s.backlog(c) and s.instrs() < 99_990:
                    s.down(c)
    return s


def bench_c(r):
    s = Sim(4, text(r, 40000))
    while s.instrs() < 90_000:
        c = r.randrange(4)
        k = r.random()
        if k < .25 and s.backlog(c) < 12:
            n = s.len[c]
            at = r.randint(0, n - 4)
            if r.random() < .4 or s.count[c] >= 14990:
                one_place(s, c, at, r.randint(1, 3), '')
            else:
                one_place(s, c, at, r.choice([0, 0, 1]), text(r, r.randint(1, 3)))
        else:
            take_or_receive(s, r, c, k < .55, 4)
    return s


def bench_d(r):
    s = Sim(64, text(r, 2000))
    lag = list(range(7))            # these deliver the whole backlog at the end
    for c in range(63):
        at = r.randint(0, 2000)
        one_place(s, c, at, 0, 'ab')
    for c in lag:                   # and have a buffer
        for _ in range(3):
            at = r.randint(0, s.len[c] - 2)
            one_place(s, c, at, r.randint(0, 2), r.choice(['x', 'yz', '']))
    cur = 1000
    nxt = 7
    for k in range(9000):
        while s.backlog(63):
            s.down(63)
        n = s.len[63]
        if r.random() < .05:
            cur = r.randint(1, n)
        cur = max(1, min(cur, n))
        if r.random() < .3:
            one_place(s, 63, cur - 1, 1, '')
            cur -= 1
        else:
            one_place(s, 63, cur, 0, r.choice(LETTERS))
            cur += 1
        s.take(63)
        if k % 160 == 159 and nxt < 63:
            s.take(nxt)             # transformed over the whole log
            nxt += 1
    while nxt < 63:
        s.take(nxt)
        nxt += 1
    for c in lag:
        s.take(c)
    for c in lag:
        while s.backlog(c):
            s.down(c)
    for c in lag:
        if s.msg[c]:
            s.take(c)               # the buffers
    s.lines.append('read-server')
    return s


def bench_e(r):
    s = Sim(64, text(r, 8000))
    while s.instrs() < 90_000:
        c = r.randrange(64)
        k = r.random()
        if k < .05 and s.backlog(c) < 60:
            at = r.randint(0, s.len[c] - 4)
            one_place(s, c, at, r.choice([0, 0, 0, 1, 3]), text(r, r.randint(1, 4)))
        else:
            take_or_receive(s, r, c, k < .12, 9)
    return s


def bench_f(r):
    s = Sim(5, text(r, 4000))
    for c in range(4):
        for _ in range(300):
            at = r.randint(0, s.len[c] - 2)
            one_place(s, c, at, r.randint(0, 1), r.choice(['x', 'yz']))
    for _ in range(9000):
        at = r.randint(0, s.len[4] - 2)
        one_place(s, 4, at, r.randint(0, 1), r.choice(LETTERS))
        s.take(4)
        s.down(4)
    for c in range(4):
        while s.backlog(c):
            s.down(c)
        s.take(c)
    return s


# How many instructions a session has, at which it ends: one turn has fewer than 20.
MOST = 99_980
# The most that a client inserts.
INSERTED = 15_000


def session(r, s, change, most_at_once=100):
    """Clients in random interleaving: each turn one edits by `change`, or the server takes its message, or it receives. It ends before a client could
    insert too much."""
    behind, most = r.randint(10, 60), r.randint(3, 9)
    edits = 1 / (2.5 + r.uniform(1.8, 3) * s.n / (most + 1))
    while s.instrs() < MOST and max(s.count) <= INSERTED - most_at_once:
        c, k = r.randrange(s.n), r.random()
        if k >= edits:
            take_or_receive(s, r, c, k < 2.5 * edits, most)
        elif s.backlog(c) < behind:
            change(c)
    return s


# Between two places of an edit lie at least so many characters.
APART = 4


def spots(r, length, count):
    """So many places of a document, or as many as it has room for, in their order."""
    room = length // APART
    return [APART * it for it in sorted(r.sample(range(room), min(count, room)))] or [0]


def how_many(r):
    """Draws how an edit's count of places is drawn: often one, else 2 to 20."""
    single, most = r.uniform(.3, .7), r.randint(8, 20)
    return lambda: 1 if r.random() < single else r.randint(2, most)


def places(r, s, length):
    """Edits at 1 to 20 places, which keep the documents at about that length."""
    count, both, most = how_many(r), r.uniform(0, .3), r.randint(1, 3)

    def change(c):
        n = s.len[c]
        grows = .65 if n < length else .35

        def at(place):
            is_both, comes = r.random() < both, r.random() < grows
            gone = r.randint(1, most) if (is_both or not comes) and place + most <= n else 0
            return place, gone, text(r, r.randint(1, most)) if is_both or not gone else ''

        changed_at(s, c, [at(place) for place in spots(r, n, count())])
    return change


def bench_places(r, clients, length):
    length = r.randint(length * 3 // 4, length)
    s = Sim(clients, text(r, length))
    return session(r, s, places(r, s, length))


def bench_grown(r, clients):
    s = Sim(clients, text(r, r.randint(30_000, 40_000)))
    length = r.randint(180_000, 220_000)
    while s.server_len < length:
        c = len(s.log) % clients
        one_place(s, c, r.randint(0, s.len[c]), 0, text(r, r.randint(1800, 2200)))
        s.take(c)
        for other in range(clients):
            s.down(other)
    return session(r, s, places(r, s, length))


def bench_replacements(r):
    s = Sim(r.randint(4, 16), text(r, r.randint(1000, 40_000)))
    count, most = how_many(r), r.randint(1, APART - 1)

    def change(c):
        changed_at(s, c, [(at, r.randint(1, most), text(r, r.randint(1, most))) for at in spots(r, s.len[c], count())])
    return session(r, s, change)


def bench_cursors(r):
    s = Sim(r.randint(2, 4), text(r, r.randint(30_000, 40_000)))
    cursors, typed, moves = [[] for _ in range(s.n)], [0] * s.n, r.uniform(.02, .1)

    def change(c):
        if not cursors[c] or cursors[c][-1] > s.len[c] or r.random() < moves:
            cursors[c], typed[c] = spots(r, s.len[c], r.randint(2, 20)), 0
        step = -1 if typed[c] and r.random() < .3 else 1
        letter = r.choice(LETTERS)
        changed_at(s, c, [(at, 0, letter) if step == 1 else (at - 1, 1, '') for at in cursors[c]])
        cursors[c] = [at + step * (i + 1) for i, at in enumerate(cursors[c])]
        typed[c] += step
    return session(r, s, change)


def bench_pastes(r, clients, least, most):
    length = r.randint(1000, 40_000)
    s = Sim(clients, text(r, length))

    def change(c):
        count, n = r.randint(least, most), s.len[c]
        cuts = n > count and r.random() < (.35 if n < length else .65)
        if cuts:
            one_place(s, c, r.randint(0, n - count), count, '')
        else:
            one_place(s, c, r.randint(0, n), 0, text(r, count))
    return session(r, s, change, most)


def bench_offline(r):
    s = Sim(r.randint(3, 8), text(r, r.randint(2000, 40_000)))
    offline = r.uniform(.3, .7)
    while s.instrs() < MOST - 400 and max(s.count) <= INSERTED - 300:
        c = r.randrange(s.n)
        if r.random() > offline:
            take_or_receive(s, r, c, True, 0)
            while s.backlog(c) and s.instrs() < MOST:
                s.down(c)
            continue
        at = r.randint(0, s.len[c])
        for _ in range(r.randint(30, 300)):
            if r.random() < .05:
                at = r.randint(0, s.len[c])
            back = at > 0 and r.random() < .25
            one_place(s, c, at - back, int(back), '' if back else r.choice(LETTERS))
            at += -1 if back else 1
    return s


BENCHES = {
    'a-typing': bench_a, 'b-eight': bench_b, 'c-large': bench_c, 'd-lag': bench_d, 'e-crowd': bench_e, 'f-behind': bench_f,
    'g-places': lambda r: bench_places(r, 8, 1300), 'h-places-crowd': lambda r: bench_places(r, 64, 1300),
    'i-long': lambda r: bench_places(r, 8, 40_000), 'j-long-crowd': lambda r: bench_places(r, 64, 40_000),
    'k-grown': lambda r: bench_grown(r, r.randint(20, 24)), 'l-grown-crowd': lambda r: bench_grown(r, 64),
    'm-replacements': bench_replacements, 'n-cursors': bench_cursors,
    'o-pastes': lambda r: bench_pastes(r, r.randint(16, 32), 100, 900), 'p-pastes-crowd': lambda r: bench_pastes(r, 64, 1500, 2500),
    'q-offline': bench_offline,
}
ALL = ','.join(name[0] for name in BENCHES)


def main():
    a = argparse.ArgumentParser()
    a.add_argument('outdir')
    a.add_argument('--only', default=ALL)
    a.add_argument('--seed', default='1')
    a = a.parse_args()
    os.makedirs(a.outdir, exist_ok=True)
    for name in BENCHES:
        if name[0] not in a.only.split(','):
            continue
        t = time.time()
        s = BENCHES[name](random.Random('bench/%s/%s' % (name[0], a.seed)))
        path = os.path.join(a.outdir, name + '.txt')
        with open(path, 'w', encoding='utf-8') as out:
            out.write(s.text())
        print('%-14s clients %d instructions %d log %d server %d most inserted %d bytes %d (made in %.1f s)' % (
            name, s.n, s.instrs(), len(s.log), s.server_len, max(s.count), os.path.getsize(path), time.time() - t), flush=True)


if __name__ == '__main__':
    main()
