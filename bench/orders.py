#!/usr/bin/env python3
"""Runs schedules in other orders that keep each machine's own.

    python3 bench/orders.py [--sessions N] [--orders M] [--seed S] [--program PATH]

Makes N sessions (250) of 1 to 8 clients, with deletions, with reads, some with clients that join late, and runs each with `otbench run`. Then it
runs M (8) random orders of each session's instructions in which every machine, each client's and the server's, has its own in the same
order; a join stands at two machines. Half of the orders also keep each message's sending before its receiving: they have to end as the session
does, and each machine has to show the same lists. The others keep nothing between machines: they have to end so too, or to stop with
LinkEmpty at the first instruction whose message is not sent yet, which the script finds from who sent what in the session.
"""
import argparse
import os
import random
import subprocess
import sys

from storms import LETTERS, Sim

HERE = os.path.dirname(os.path.abspath(__file__))
TOP = os.path.dirname(HERE)
# `./otbench` runs the proved program here, or none.
os.environ['OTBENCH_NEEDS_PROVED'] = '1'
PROGRAM = os.path.join(TOP, 'crates', 'otbench', 'out', 'otbench')


class Session(Sim):
    """A session that notes for each instruction its machines, and which instruction sent what it receives."""

    def __init__(self, clients, present, start):
        super().__init__(clients, start, present)
        self.machines, self.sender = [], []
        self.sent_by, self.taken_by = [None] * clients, []

    def note(self, machines, sender=None):
        self.machines.append(machines)
        self.sender.append(sender)

    def edit(self, c, ops):
        sends = self.out[c] is None
        super().edit(c, ops)
        self.note([c])
        if sends:
            self.sent_by[c] = self.instrs() - 1

    def take(self, c):
        super().take(c)
        self.note(['server'], self.sent_by[c])
        self.taken_by.append(self.instrs() - 1)

    def down(self, c):
        sender, own = self.taken_by[self.rev[c]], self.log[self.rev[c]][0] == c
        super().down(c)
        self.note([c], sender)
        if own and self.out[c] is not None:
            self.sent_by[c] = self.instrs() - 1

    def join(self, c):
        super().join(c)
        self.note([c, 'server'])

    def read(self, c):
        self.lines.append('read %d' % c)
        self.note([c])

    def read_server(self):
        self.lines.append('read-server')
        self.note(['server'])


def change(chance, session, c):
    """An insertion, a deletion or both at one place."""
    n = session.len[c]
    at = chance.randint(0, n)
    gone = chance.randint(0, min(2, n - at)) if chance.random() < .4 else 0
    text = ''.join(chance.choice(LETTERS) for _ in range(chance.randint(0 if gone else 1, 3)))
    session.edit(c, [at, text, -gone, n - at - gone])


def step(chance, session, c):
    if not session.joined[c]:
        if chance.random() < .3:
            session.join(c)
        return
    kind = chance.random()
    if kind < .35:
        change(chance, session, c)
    elif kind < .6:
        if session.msg[c]:
            session.take(c)
    elif kind < .9:
        if session.backlog(c):
            session.down(c)
    elif kind < .96:
        session.read(c)
    else:
        session.read_server()


def made(chance):
    clients = chance.randint(1, 8)
    present = chance.randint(0, clients) if chance.random() < .5 else clients
    session = Session(clients, present, ''.join(chance.choice(LETTERS) for _ in range(chance.randint(0, 6))))
    length = chance.randint(5, 120)
    while session.instrs() < length:
        step(chance, session, chance.randrange(clients))
    return session


def another_order(chance, session, keeps_messages):
    """The numbers of the instructions, each machine's in order; where asked, each behind what sent its message."""
    queues = {}
    for i, machines in enumerate(session.machines):
        for machine in machines:
            queues.setdefault(machine, []).append(i)
    done, order = set(), []
    for queue in queues.values():
        queue.reverse()
    while len(order) < session.instrs():
        firsts = {queue[-1] for queue in queues.values() if queue}
        ready = sorted(i for i in firsts if all(queues[machine][-1] == i for machine in session.machines[i])
                       and (not keeps_messages or session.sender[i] is None or session.sender[i] in done))
        i = chance.choice(ready)
        for machine in session.machines[i]:
            queues[machine].pop()
        done.add(i)
        order.append(i)
    return order


def first_early(session, order):
    """The first place whose message is not sent yet, or None."""
    done = set()
    for place, i in enumerate(order):
        if session.sender[i] is not None and session.sender[i] not in done:
            return place
        done.add(i)
    return None


def run(program, lines):
    """The lists that each machine showed, the stop if there is one, and the lines of the end."""
    given = subprocess.run([program, 'run'], input=''.join(x + '\n' for x in lines).encode(), stdout=subprocess.PIPE, check=False)
    shown, stop, end = {}, None, []
    for line in given.stdout.decode().splitlines():
        words = line.split(' ')
        if words[0] in ('read', 'read-server'):
            shown.setdefault(words[1] if words[0] == 'read' else 'server', []).append(line)
        elif words[0] == 'stopped':
            stop = line
        else:
            end.append(line)
    return shown, stop, end


def main():
    words = argparse.ArgumentParser()
    words.add_argument('--sessions', type=int, default=250)
    words.add_argument('--orders', type=int, default=8)
    words.add_argument('--seed', default='1')
    words.add_argument('--program', default=PROGRAM)
    words = words.parse_args()
    if words.program == PROGRAM:
        subprocess.run([os.path.join(TOP, 'otbench'), 'run'], input=b'clients 1\n', stdout=subprocess.DEVNULL, check=True)
    chance = random.Random('orders/%s' % words.seed)
    instructions = moved = alike = early = 0
    for _ in range(words.sessions):
        session = made(chance)
        head, body = session.lines[:session.head], session.lines[session.head:]
        wanted = run(words.program, head + body)
        if wanted[1]:
            sys.exit('a session stops: %s' % wanted[1])
        instructions += len(body)
        for number in range(words.orders):
            order = another_order(chance, session, keeps_messages=number % 2 == 0)
            place = first_early(session, order)
            given = run(words.program, head + [body[i] for i in order])
            moved += order != sorted(order)
            if place is None and given == wanted:
                alike += 1
            elif place is not None and given[1] == 'stopped at %d: LinkEmpty' % place:
                early += 1
            else:
                sys.exit('another end:\n%s\n%s' % ('\n'.join(head + [body[i] for i in order]), given))
    print('%d sessions of %d instructions, %d other orders (%d differ from the session): %d end alike, %d stop with LinkEmpty where a message is not sent yet'
          % (words.sessions, instructions, words.sessions * words.orders, moved, alike, early))


if __name__ == '__main__':
    main()
