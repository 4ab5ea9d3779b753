"""Writes traces of 4,000 events and up to 3.8 million list entries, and times `otbench judge` on each.

Each trace has the weak list property. Beside it stands the same trace whose last event inserts one element twice: it is read as a whole and refused
before it is judged, so that its time is the time of reading. `python3 bench/traces.py [--program PATH] [SEED]`; each time is the least of three.
"""
import random
import sys
import tempfile

from hostile import twice, write
from shapes import PROGRAM, run


def trace(replicas, seed, length=950):
    """Edits in turn, one insertion or deletion each, lists of some `length` elements; each event sees all edits before it."""
    draw = random.Random(seed)
    start = [[65535, i] for i in range(length)]
    elements, counts, events = list(start), [0] * replicas, []
    for e in range(4000):
        replica = e % replicas
        event = {"replica": replica, "kind": "edit", "seen": list(counts)}
        if len(elements) >= length + 50 or (len(elements) > length and draw.random() < 0.5):
            event["delete"] = [elements.pop(draw.randrange(len(elements)))]
        else:
            place = draw.randrange(len(elements) + 1)
            tag = [replica, counts[replica]]
            elements.insert(place, tag)
            event["insert"] = [[*tag, place]]
        event["list"] = list(elements)
        counts[replica] += 1
        events.append(event)
    return {"replicas": replicas, "start": start, "events": events}


def least(program, path):
    """The least processor time of three runs, with its peak memory and what was printed."""
    return min((run(program, "judge", path) for _ in range(3)), key=lambda it: it[0])


def main():
    words, program = sys.argv[1:], PROGRAM
    if words[:1] == ["--program"]:
        program, words = words[1], words[2:]
    seed = int(words[0]) if words else 1
    with tempfile.TemporaryDirectory() as room:
        for replicas, length in ((3, 950), (65, 950), (65, 100), (65, 0), (16, 400), (1, 950)):
            whole = trace(replicas, seed + replicas, length)
            entries = sum(len(e["list"]) for e in whole["events"])
            write(whole, f"{room}/whole.json")
            write(twice(whole), f"{room}/read.json")
            (all_of, memory, _, said), (reading, _, _, _) = (least(program, f"{room}/{name}.json") for name in ("whole", "read"))
            print(f"{replicas} replicas, {len(whole['events'])} events, {entries} entries: reading {reading:.2f} s, "
                  f"judging {all_of - reading:.2f} s ({said.decode().strip()}), {(all_of - reading) / reading:.1f} times reading, {memory:.0f} MB", flush=True)
    return 0


if __name__ == "__main__":
    sys.exit(main())
