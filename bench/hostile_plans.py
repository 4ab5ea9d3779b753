"""Writes plans within the limits that are hard to carry out, and times `otbench threads` on each.

`python3 bench/hostile_plans.py [--program PATH] [--beside PATH] [SHAPE..]` times all shapes or those that are named, and prints processor time, peak memory and the status;
`--write FOLDER` writes the plans there.
"""
import json
import random
import sys

from shapes import main, run

START = 40000


def action(at, text="", gone=0):
    return {"at": at, "delete": gone, "insert": text}


def plan(typing, text="", workers=1, **others):
    return json.dumps({"clients": len(typing), "workers": workers, "start": text, "typing": typing, **others})


def long_documents(clients, actions, workers=1):
    """Clients that type 14,000 characters each at once and then put one in the place of another, at random: each turn is of documents as long as all this."""
    draw = random.Random(clients)
    longest = START + 14000 * clients

    def row():
        return [action(draw.randrange(START), "x" * 14000)] + [action(draw.randrange(longest), "y", 1) for _ in range(actions - 1)]

    return plan([row() for _ in range(clients)], "a" * START, workers)


def long_messages(clients, actions, letters=250):
    """Clients that put 250 characters in at a time, until each has its 15,000, or other numbers of them."""
    draw = random.Random(clients)
    return plan([[action(draw.randrange(START), "x" * letters) for _ in range(actions)] for _ in range(clients)], "a" * START)


def long_messages_of_eight(clients=64, actions=23, letters=652):
    """The same of 64 clients by eight workers, each of which has a copy of a client and of its messages."""
    return json.dumps({**json.loads(long_messages(clients, actions, letters)), "workers": 8})


def audience(clients, actions):
    """One client that types while 63 others take what it sends."""
    typed = [action(7 * k % START, "x", k % 2) for k in range(actions)]
    return plan([typed] + [[] for _ in range(clients - 1)], "a" * START)


def late(clients, actions):
    """Clients of which all but one join late, and that take the place of what stands there."""
    draw = random.Random(actions)
    return plan([[action(draw.randrange(START), "xy", 2) for _ in range(actions)] for _ in range(clients)], "a" * START, present=1)


SHAPES = {
    "one-client": lambda: long_documents(1, 1000),
    "eight-long": lambda: long_documents(8, 1000),
    "eight-long-of-four": lambda: long_documents(8, 1000, workers=4),
    "thirty-two-long": lambda: long_documents(32, 80),
    "sixty-four-long": lambda: long_documents(64, 22),
    "long-messages": lambda: long_messages(32, 60),
    "long-messages-of-eight": long_messages_of_eight,
    "longer-messages": lambda: long_messages(64, 23, 500),
    "audience": lambda: audience(64, 1000),
    "late": lambda: late(64, 20),
}


def write(given, path):
    with open(path, "w") as it:
        it.write(given)


def measure(program, given, room):
    """Of `threads`: processor time, peak memory, and the status."""
    path = f"{room}/plan.json"
    write(given, path)
    used, memory, status, _ = run(program, "threads", path)
    return f"{len(given) / 1e6:.1f} MB; threads {used:.2f} s, {memory:.0f} MB, status {status}"


if __name__ == "__main__":
    sys.exit(main(SHAPES, "json", write, measure))
