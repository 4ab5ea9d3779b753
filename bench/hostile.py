"""Writes traces within the limits that are hard to judge, and times `otbench judge` on each.

Each has the weak list property. Beside it stands the same trace whose last event inserts one element twice: it is read as a whole and refused before it is judged, so that its
time is the time of reading. `python3 bench/hostile.py [--program PATH] [--beside PATH] [SHAPE..]` times all shapes or those that are named, `--write FOLDER` writes them there.
"""
import json
import os
import sys

from shapes import main, run

START = 65535


class Trace:
    """Events appended one after another; what each replica has done is counted."""

    def __init__(self, replicas, start):
        self.replicas, self.start, self.events, self.counts = replicas, start, [], [0] * replicas

    def add(self, replica, kind, seen, shown, insert=(), delete=()):
        event = {"replica": replica, "kind": kind, "seen": list(seen), "list": list(shown)}
        if insert:
            event["insert"] = [[*tag, shown.index(tag)] for tag in insert]
        if delete:
            event["delete"] = list(delete)
        self.counts[replica] += kind == "edit"
        self.events.append(event)

    def whole(self):
        return {"replicas": self.replicas, "start": self.start, "events": self.events}


def text_of(length):
    return [[START, i] for i in range(length)]


def entries(length=1000):
    """As many list entries as there may be: reads of one text."""
    made = Trace(1, text_of(length))
    for _ in range(4000):
        made.add(0, "read", [0], made.start)
    return made.whole()


def replicas():
    """65 replicas that edit in turn and see all, with empty lists."""
    made = Trace(65, [])
    for e in range(4000):
        made.add(e % 65, "edit", made.counts, [])
    return made.whole()


def rounds():
    """65 replicas that edit at once, round by round, with empty lists: each event sees 65 edits of which none saw another."""
    made = Trace(65, [])
    for _ in range(61):
        seen = list(made.counts)
        for replica in range(65):
            made.add(replica, "edit", seen, [])
    return made.whole()


def deletions(count, readers=1):
    """One edit that deletes a long start, and reads that know it, at so many replicas."""
    made = Trace(1 + readers, text_of(count))
    made.add(0, "edit", [0] * (1 + readers), [], delete=made.start)
    for e in range(3999):
        made.add(1 + e % readers, "read", [1] + [0] * readers, [])
    return made.whole()


def insertions(count=500_000):
    """One edit that inserts so much that another deletes, and readers that know both, at as many replicas as there may be."""
    made = Trace(65, [])
    inserted = [[0, i] for i in range(count)]
    none = [0] * 65
    made.events.append({"replica": 0, "kind": "edit", "seen": none, "list": inserted, "insert": [[0, i, i] for i in range(count)]})
    made.counts[0] += 1
    made.add(1, "edit", made.counts, [], delete=inserted)
    for replica in range(2, 65):
        made.add(replica, "read", made.counts, [])
    return made.whole()


def many_deleters(width=1000, reads=3800):
    """A text that 64 replicas each delete without knowing of one another, and a reader that knows none of them."""
    made = Trace(65, text_of(width))
    for replica in range(64):
        made.add(replica, "edit", [0] * 65, [], delete=made.start)
    for _ in range(reads):
        made.add(64, "read", [0] * 65, made.start)
    return made.whole()


def ring(made, text, front, seen):
    """Three elements at one end of a text, each before the next one around, no two lists with one pair in both orders; then deleted."""
    at = {r: [r, made.counts[r]] for r in (0, 1, 2)}
    shown = (lambda xs: [*xs, *text]) if front else (lambda xs: [*text, *xs])
    for r in at:
        made.add(r, "edit", seen, shown([at[r]]), insert=[at[r]])
    for r, (a, b) in {3: (0, 1), 4: (1, 2), 5: (2, 0)}.items():
        sees = list(seen)
        sees[a] += 1
        sees[b] += 1
        made.add(r, "read", sees, shown([at[a], at[b]]))
    for r in at:
        sees = list(seen)
        sees[r] += 1
        made.add(r, "edit", sees, text, delete=[at[r]])


def cycles(reads=3970):
    """Rings at both ends of a text of 990, and reads of the text: it lies between two cycles and is on none."""
    text = text_of(990)
    made = Trace(65, text)
    ring(made, text, True, [0] * 65)
    ring(made, text, False, list(made.counts))
    for e in range(reads):
        made.add(6 + e % 59, "read", made.counts, text)
    return made.whole()


def long_cycle(edits=3970, width=990):
    """A cycle through a whole text, and edits that each change it: nearly all lists differ, and all elements are on one cycle."""
    made = Trace(8, [])
    none = [0] * 8
    text = [[0, 1000000 + i] for i in range(width)]
    made.add(0, "edit", none, text, insert=text)
    made.add(1, "edit", none, [[1, 0]], insert=[[1, 0]])
    for r, kept in ((2, text[-1]), (3, text[0])):
        made.add(r, "edit", [1] + [0] * 7, [kept], delete=[a for a in text if a != kept])
    made.add(4, "read", [1, 1, 1, 0, 0, 0, 0, 0], [text[-1], [1, 0]])
    made.add(5, "read", [1, 1, 0, 1, 0, 0, 0, 0], [[1, 0], text[0]])
    shown = list(text)
    for e in range(edits):
        r = (0, 6)[e % 2]
        seen = [made.counts[0], 0, 0, 0, 0, 0, made.counts[6], 0]
        tag, place = [r, 2000000 + e], 1 + (e * 7919) % (len(shown) - 2)
        gone = [] if len(shown) < width + 10 else [shown.pop(1 + (e * 104729) % (len(shown) - 2))]
        place = min(place, len(shown) - 1)
        shown.insert(place, tag)
        made.add(r, "edit", seen, shown, insert=[tag], delete=gone)
    return made.whole()


def fallen_cycle(reads=3980, width=990, shrinking=False):
    """A cycle through a whole text, of which two elements stand in the other order than in the one that is tried first: none of 3,980 lists has that order, and
    none is reversed. Or one in which each list has an element less than the one before it, so that no two are equal, and each is compared with all."""
    made = Trace(8, [])
    text, last, x, y = [[0, i] for i in range(width)], [1, 0], [6, 0], [7, 0]
    made.add(0, "edit", [0] * 8, text, insert=text)
    made.add(1, "edit", [0] * 8, [last], insert=[last])
    for r, kept in ((2, text[-1]), (3, text[0])):
        made.add(r, "edit", [1] + [0] * 7, [kept], delete=[a for a in text if a != kept])
    made.add(4, "read", [1, 1, 1, 0, 0, 0, 0, 0], [text[-1], last])
    made.add(5, "read", [1, 1, 0, 1, 0, 0, 0, 0], [last, text[0]])
    half = width // 2
    for r, tag in ((6, x), (7, y)):
        made.add(r, "edit", [1] + [0] * 7, [*text[:half], tag, *text[half:]], insert=[tag])
    seen = [*text[:half], x, y, *text[half:]]
    for k in range(reads):
        gone = [seen.pop(1)] if shrinking else []
        made.add(7, "edit" if gone else "read", [1, 0, 0, 0, 0, 0, 1, 1 + k if shrinking else 1], seen[:], **({"delete": gone} if gone else {}))
    return made.whole()


def never_together(turns=21, others=64):
    """For each of 64 replicas and each turn two elements of an author that this replica has never together: it sees the second one, puts a letter of its own behind it, deletes the
    second one and sees the first one, which it puts behind the letter. All others have the two side by side. So the order of one replica falls along each list of another one, once
    for each turn, and no pair is reversed."""
    made = Trace(others + 1, [])
    text, shown = [], [[] for _ in range(others)]
    sees = lambda r: [made.counts[k] if k in (r, others) else 0 for k in range(others + 1)]
    for k in range(turns):
        first, second = ([[others, 2 * (others * k + r) + i] for r in range(others)] for i in (0, 1))
        text = [*text, *second]
        made.add(others, "edit", sees(others), text, insert=second)
        for r in range(others):
            gone = [[r, k - 1]] if k else []
            shown[r] = [a for a in shown[r] if a not in gone] + [*second[: r + 1], [r, k], *second[r + 1 :]]
            made.add(r, "edit", sees(r), shown[r], insert=[[r, k]], delete=gone)
        pairs = list(zip(first, second))
        text = [*text[:-others], *[a for pair in pairs for a in pair]]
        made.add(others, "edit", sees(others), text, insert=first)
        for r in range(others):
            ends = [*pairs[:r], ([r, k], first[r]), *pairs[r + 1 :]]
            shown[r] = [*shown[r][: -others - 1], *[a for pair in ends for a in pair]]
            made.add(r, "edit", sees(r), shown[r], delete=[second[r]])
    return made.whole()


def folded(a, b):
    product = a * b
    return (product ^ product >> 64) & (1 << 64) - 1


def one_bucket(length=8000, groups=1024):
    """Reads of a text whose elements all begin at one place of a hash table of their number: the hash has no secret, so whoever writes a trace can choose its tags so."""
    first = folded(0x243F6A8885A308D3, 0x9E3779B97F4A7C15 ^ 4)
    tags, serial = [], 0
    while len(tags) < length:
        whole = folded(first ^ serial * 0x100000001, 0x9E3779B97F4A7C15 ^ 8)
        if (whole ^ whole >> 32) % groups == 5:
            tags.append([0, serial])
        serial += 1
    made = Trace(1, tags)
    for _ in range(4_000_000 // length):
        made.add(0, "read", [0], tags)
    return made.whole()


def objects(count=2_000_000):
    """Two million objects of one key each, 14 MB of text, under a key that nobody asks for: each takes 890 bytes as it is read."""
    made = Trace(1, [])
    made.add(0, "read", [0], [])
    return {**made.whole(), "others": [{"": 0}] * count}


SHAPES = {
    "entries": entries,
    "replicas": replicas,
    "rounds": rounds,
    "deletions": lambda: deletions(100_000),
    "more-deletions": lambda: deletions(500_000),
    "known-deletions": lambda: deletions(500_000, 64),
    "known-insertions": insertions,
    "deleted-by-many": many_deleters,
    "cycles": cycles,
    "long-cycle": long_cycle,
    "fallen-cycle": fallen_cycle,
    "shrinking-cycle": lambda: fallen_cycle(1200, 2500, True),
    "never-together": never_together,
    "one-bucket": one_bucket,
    "objects": objects,
}


def twice(whole):
    """The same trace, whose last event inserts one element twice."""
    tag = [START, 4294967295, 0]
    last = {**whole["events"][-1], "kind": "edit", "insert": [tag, tag]}
    return {**whole, "events": [*whole["events"][:-1], last]}


def write(whole, path):
    with open(path, "w") as it:
        json.dump(whole, it, separators=(",", ":"))


def measure(program, whole, room):
    """The trace's size, the time of reading it and of judging it, what was said, and the peak memory."""
    paths = [f"{room}/whole.json", f"{room}/read.json"]
    write(whole, paths[0])
    write(twice(whole), paths[1])
    (all_of, memory, _, said), (reading, _, _, _) = (run(program, "judge", path) for path in paths)
    size = os.path.getsize(paths[0]) / 1e6
    return f"{size:.1f} MB, reading {reading:.2f} s, judging {all_of - reading:.2f} s ({said.decode().strip()}), {memory:.0f} MB"


if __name__ == "__main__":
    sys.exit(main(SHAPES, "json", write, measure))
