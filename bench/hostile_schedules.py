"""Writes schedules within the limits that are hard to run or to debug, and times the program on each.

`python3 bench/hostile_schedules.py [--program PATH] [--beside PATH] [SHAPE..]` times all shapes or those that are named, and prints processor time and peak memory
of `run`, `check`, `steps` (but where it would write tens of gigabytes), `explain`, and `conform` on the lines of a port that prints places alone; `--write FOLDER` writes them there. Those that are debugged carry a line `%%` and
their commands, those that are compared alone a line `%%` and a port's lines.
"""
import sys

from shapes import main, run


def opening(clients, length):
    return [f"clients {clients}", 'start "' + "a" * length + '"'] if length else [f"clients {clients}"]


def edit(client, at, text, gone, length):
    """An edit at one place of a document of that length."""
    parts = [at, f'"{text}"' if text else 0, -gone, length - at - gone]
    return f"edit {client} [" + ",".join(str(p) for p in parts if p) + "]"


def typed(client, count, length):
    """A client that types and deletes one character, taken and acknowledged each time."""
    lines = []
    for k in range(count):
        lines.append(edit(client, 7, "x", 0, length) if k % 2 == 0 else edit(client, 7, "", 1, length + 1))
        lines += [f"take {client}", f"ack {client}"]
    return lines


def long_message(parts=7500, entries=22000):
    """A message of 15,000 components that is taken over 22,000 log entries."""
    length = 40000
    whole = ",".join('1,"b"' for _ in range(parts))
    return [*opening(2, length), f"edit 0 [{whole},{length - parts}]", *typed(1, entries, length), "take 0"]


def buffers(clients=64, edits=1500):
    """64 clients whose buffers have up to 1,500 components, each edited 1,500 times."""
    lines = opening(clients, 3000)
    for k in range(edits):
        for c in range(clients):
            lines.append(edit(c, 3 * k % (3000 + k), "x", 0, 3000 + k))
    return lines


def waiting(parts, length):
    """A client with so many insertions outstanding and as many more in its buffer."""
    whole = ",".join('1,"b"' for _ in range(parts))
    again = ",".join('2,"c"' for _ in range(parts))
    return [*opening(2, length), f"edit 0 [{whole},{length - parts}]", f"edit 0 [{again},{length - parts}]"]


def pending(parts=7000, deliveries=22000):
    """A client with 14,000 characters pending, to which 22,000 operations are delivered."""
    length = 30000
    lines = waiting(parts, length)
    for k in range(deliveries):
        lines.append(edit(1, 7, "x", 0, length) if k % 2 == 0 else edit(1, 7, "", 1, length + 1))
        lines += ["take 1", "ack 1"]
    return [*lines, *["deliver 0"] * deliveries]


def pending_crowd(clients=32, parts=7000, entries=2900):
    """31 clients with 14,000 characters pending each, to which 2,900 operations are delivered by turns: `steps` prints all that is pending each time."""
    length = 30000
    first, second = waiting(parts, length)[-2:]
    lines = opening(clients, length)
    for c in range(1, clients):
        lines += [first.replace("edit 0", f"edit {c}"), second.replace("edit 0", f"edit {c}")]
    lines += typed(0, entries, length)
    for _ in range(entries):
        lines += [f"deliver {c}" for c in range(1, clients)]
    return lines


def places(count, length, gone):
    """An operation that puts a character in at so many places of a document of that length, or takes those characters out again."""
    step = (length - 14) // max(1, count - 1)
    parts = [7]
    for k in range(count):
        kept = step if k + 1 < count else length - 7 - step * (count - 1)
        parts += [-1 if gone else '"x"', kept]
    return "[" + ",".join(str(it) for it in parts) + "]"


def entries_at(count):
    """How many operations a client can make that put a character in at so many places, and take those out again by turns: it may insert 15,000."""
    return 29800 // count


def at_places(count, parts=7000):
    """The same client, where each operation that is delivered changes the document at so many places, the first and the last near its ends."""
    length, entries = 30000, entries_at(count)
    lines = waiting(parts, length)
    for k in range(entries):
        lines += [f"edit 1 {places(count, length, k % 2)}", "take 1", "ack 1"]
    return [*lines, *["deliver 0"] * entries]


def long_message_at_places(count, parts=7500):
    """A message of 15,000 components that is taken over as many log entries as there can be that each change the document at so many places."""
    length, entries = 40000, entries_at(count)
    whole = ",".join('1,"b"' for _ in range(parts))
    lines = [*opening(2, length), f"edit 0 [{whole},{length - parts}]"]
    for k in range(entries):
        lines += [f"edit 1 {places(count, length, k % 2)}", "take 1", "ack 1"]
    return [*lines, "take 0"]


def edited_at_places(count, parts=6000, edits=3000):
    """Two clients with an operation and a buffer of 12,000 components, which they edit at so many places."""
    length = 30000
    whole = ",".join('1,"b"' for _ in range(parts))
    again = ",".join('2,"c"' for _ in range(parts))
    lines = opening(2, length)
    for c in range(2):
        lines += [f"edit {c} [{whole},{length - parts}]", f"edit {c} [{again},{length - parts}]"]
    length += 2 * parts
    for k in range(edits):
        lines += [f"edit {c} {places(count, length, k % 2)}" for c in range(2)]
    return lines


def grid(first, step, count, length, gone):
    """An operation that puts a character in at so many places, so far from each other, or takes those characters out again."""
    parts = [first]
    for k in range(count):
        rest = step if k + 1 < count else length - first - step * (count - 1)
        parts += [-1 if gone else '"x"', rest]
    return "[" + ",".join(str(it) for it in parts) + "]"


def split_deletion(clients=64, groups=7000, places=700):
    """A client that deletes all, and takes an operation that splits its deletion into 14,000 components; then 2,604 operations, each of which splits or joins
    it at 700 more places. They come from 62 clients that join one after the other, since a client may insert 15,000 characters."""
    length = 30000
    lines = [f"clients {clients}", "present 2", 'start "' + "a" * length + '"', f"edit 0 [-{length}]"]
    lines += [f"edit 1 {grid(1, 4, groups, length, False)}", "take 1", "ack 1"]
    length, entries = length + groups, 0
    for c in range(2, clients):
        lines.append(f"join {c}")
        for k in range(2 * (15000 // places)):
            lines += [f"edit {c} {grid(3, 50, places, length, k % 2)}", f"take {c}", f"ack {c}"]
            entries += 1
    return [*lines, *["deliver 0"] * (entries + 1)]


def split_crowd(length=30000, groups=7000, near=4, far=100, waiting=32, clients=64, places=330):
    """32 clients that delete all, and take an operation that splits each one's deletion into 14,000 components; then as many deliveries as there can be, some 90,000, of
    operations that change it at 330 more places, from 31 clients that join one after the other."""
    lines = [f"clients {clients}", f"present {waiting + 1}", 'start "' + "a" * length + '"', *(f"edit {c} [-{length}]" for c in range(waiting))]
    lines += [f"edit {waiting} {grid(1, near, groups, length, False)}", f"take {waiting}", f"ack {waiting}"]
    length, entries = length + groups, 1
    for c in range(waiting + 1, clients):
        lines.append(f"join {c}")
        for k in range(2 * (15000 // places)):
            lines += [f"edit {c} {grid(3, far, places, length, k % 2)}", f"take {c}", f"ack {c}"]
            entries += 1
    entries = min(entries, (100000 - len(lines)) // waiting)
    return [*lines, *[f"deliver {c}" for _ in range(entries) for c in range(waiting)]]


def split_at_many_places(clients=64, groups=7000, places=700):
    """64 clients that delete all of a text but what splits the deletion into 14,000 components, and then put characters in at 700 places and take them out again."""
    length = 30000
    lines = [f"clients {clients}", 'start "' + "a" * length + '"']
    for c in range(clients):
        lines += [f'edit {c} [{length},"b"]', f"edit {c} {grid(1, 4, groups, length + 1, False)}"]
        for k in range(2 * ((15000 - groups) // places)):
            lines.append(f"edit {c} {grid(3, 50, places, length + 1 + groups, k % 2)}")
    return lines


def reads_between(waiting=32, groups=7000, entries=1490):
    """32 clients whose deletions are split into 14,000 components, as in the crowd, to which 1,490 operations are delivered, with a read behind each delivery."""
    length = 30000
    lines = [f"clients {waiting + 2}", 'start "' + "a" * length + '"', *(f"edit {c} [-{length}]" for c in range(waiting))]
    lines += [f"edit {waiting} {grid(1, 4, groups, length, False)}", f"take {waiting}", f"ack {waiting}", f"deliver {waiting + 1}"]
    lines += typed(waiting + 1, entries - 1, length + groups)
    return [*lines, *[f"{word} {c}" for _ in range(entries) for c in range(waiting) for word in ("deliver", "read")]]


def blocks(ends, clients=64, letters=650, length=40000):
    """64 clients that put 650 characters in at a time, at one place or half of them at each end, which all others take at once: each overfills its chunk."""
    lines = opening(clients, length)
    for k in range(15000 // letters * clients):
        if ends:
            parts = ['"' + "x" * (letters // 2) + '"', length, '"' + "y" * (letters - letters // 2) + '"']
        else:
            at = 7919 * k % length
            parts = [at, '"' + "x" * letters + '"', length - at]
        sender = k % clients
        lines += [f"edit {sender} [" + ",".join(str(it) for it in parts if it) + "]", f"take {sender}"]
        lines += [f"ack {c}" if c == sender else f"deliver {c}" for c in range(clients)]
        length += letters
    return lines


def typed_by_many(clients, length):
    """Clients from 2 on that join one after the other and each put 15,000 characters behind a text; then the first two join. The lines, and how long the text is then."""
    lines = [f"clients {clients}", "present 0", 'start "' + "a" * length + '"']
    for c in range(2, clients):
        lines += [f"join {c}", f'edit {c} [{length},"{"b" * 15000}"]', f"take {c}"]
        length += 15000
    return [*lines, "join 0", "join 1"], length


def every_second(client, length, text=""):
    """An edit that deletes every second character, behind a text where one is given: as many components as the text has characters, and hardly any of them an insertion, of
    which a client may make 15,000."""
    return f"edit {client} [" + ",".join([f'"{text}"'] * bool(text) + ["1,-1"] * (length // 2) + ["1"] * (length % 2)) + "]"


def ends_deleted(length):
    return f"[-1,{length - 2},-1]"


def alternate(delivered, clients=64, entries=24000, text=""):
    """A client that deletes every second character of a text of 970,000, and 24,000 operations that each delete its first and its last character: they are
    delivered to it, or its message, in front of which a text may stand, is taken over them."""
    lines, length = typed_by_many(clients, 40000)
    lines.append(every_second(0, length, text))
    for k in range(entries):
        lines += [f"edit 1 {ends_deleted(length - 2 * k)}", "take 1", "ack 1"]
    return [*lines, *["deliver 0"] * entries] if delivered else [*lines, "take 0"]


def just_long(entries=14900, length=33000):
    """A client that deletes every second character of a start text of 33,000, and 14,900 operations that each change both ends."""
    lines = [*opening(2, length), every_second(0, length)]
    for k in range(entries):
        lines += [f"edit 1 {places(2, length, k % 2)}", "take 1", "ack 1"]
    return [*lines, *["deliver 0"] * entries]


def shrunk(entries=24000, length=40000):
    """A client that deletes every second character of a start text of 40,000, of which another one deletes all but the last; then 24,000 letters come and go."""
    lines = [*opening(2, length), every_second(0, length), f"edit 1 [{1 - length},1]", "take 1", "ack 1"]
    for k in range(entries):
        lines += ["edit 1 [-1,1]" if k % 2 else 'edit 1 ["x",1]', "take 1", "ack 1"]
    return [*lines, *["deliver 0"] * (entries + 1)]


def alternate_places(clients=64, entries=24000, count=20):
    """The same, delivered to it, with operations that each delete a character at 20 places all over the text."""
    lines, length = typed_by_many(clients, 40000)
    lines.append(every_second(0, length))
    for k in range(entries):
        here = length - count * k
        step = here // count
        parts = [f"{step - 1},-1"] * count + [str(here - step * count)] * (here > step * count)
        lines += [f"edit 1 [{','.join(parts)}]", "take 1", "ack 1"]
    return [*lines, *["deliver 0"] * entries]


def alternate_edited(clients=64, edits=99000):
    """A client whose buffer deletes every second character of a text of 970,000, and 99,000 edits at both ends of what is left."""
    lines, length = typed_by_many(clients, 40000)
    lines += [f"edit 0 [{length}]", every_second(0, length)]
    length -= length // 2
    return [*lines, *[f"edit 0 {ends_deleted(length - 2 * k)}" for k in range(edits)]]


def alternate_crowd(clients=32, length=40000, entries=2900):
    """31 clients that delete every second character of a start text of 40,000, to which 2,900 operations are delivered by turns that each change both ends."""
    lines = [*opening(clients, length), *[every_second(c, length) for c in range(1, clients)]]
    for k in range(entries):
        lines += [f"edit 0 {places(2, length, k % 2)}", "take 0", "ack 0"]
    return [*lines, *[f"deliver {c}" for _ in range(entries) for c in range(1, clients)]]


def alternate_crowd_places(typists, waiting, senders, buffers=False, clients=64, length=40000):
    """Clients that type 15,000 characters each; then others that delete every second character of the text (and with buffers every second one of what is left), to
    which as many operations are delivered by turns as there can be, some 90,000: each changes some 300 places all over the text. They come from clients that join
    one after the other, and each takes out again what the one before it put in."""
    lines = [f"clients {clients}", "present 0", 'start "' + "a" * length + '"']
    for c in range(typists):
        lines += [f"join {c}", f'edit {c} [{length},"{"b" * 15000}"]', f"take {c}", f"ack {c}"]
        length += 15000
    those = range(typists, typists + waiting)
    lines += [*[f"join {c}" for c in those], *[every_second(c, length) for c in those]]
    if buffers:
        lines += [every_second(c, length - length // 2) for c in those]
    entries = (100000 - len(lines) - senders) // (waiting + 3)
    places = senders * 30000 // entries
    turns = 2 * (15000 // places)
    entries = min(entries, senders * turns)
    for k in range(entries):
        sender, turn = divmod(k, turns)
        c = typists + waiting + sender
        lines += [*[f"join {c}"] * (turn == 0), f"edit {c} {grid(1, (length - 2) // places, places, length, k % 2)}", f"take {c}", f"ack {c}"]
    return [*lines, *[f"deliver {c}" for _ in range(entries) for c in those]]


def every_place(at_once, clients=64, length=40000, count=15000):
    """64 clients that each put 15,000 characters in at as many places, which all others take: one after the other, or all with their own under way."""
    lines = opening(clients, length)
    if at_once:
        lines += [*[f"edit {c} {grid(2, 2, count, length, False)}" for c in range(clients)], *[f"take {c}" for c in range(clients)]]
    for k in range(clients):
        if not at_once:
            lines += [f"edit {k} {grid(2, (length - 2) // count, count, length, False)}", f"take {k}"]
            length += count
        lines += [f"ack {c}" if c == k else f"deliver {c}" for c in range(clients)]
    return lines


def every_place_waiting(clients=64, length=40000, count=14999):
    """As `every_place`, all at once, and each has typed one letter more behind its own 14,999, which the server never takes: nobody is synchronized while the others' come, so no
    two have their list in common."""
    lines = opening(clients, length)
    for c in range(clients):
        lines += [f"edit {c} {grid(2, 2, count, length, False)}", f'edit {c} ["p",{length + count}]']
    lines += [f"take {c}" for c in range(clients)]
    return [*lines, *[f"ack {c}" if c == k else f"deliver {c}" for k in range(clients) for c in range(clients)]]


def overflowing(clients=64, length=40000, count=14500, more=400):
    """As `every_place`, one after the other, and each puts 400 characters in at the end too, which the last chunk of a document has no room for."""
    lines = opening(clients, length)
    for k in range(clients):
        lines += [f"edit {k} {grid(2, (length - 2) // count, count, length, False)[:-1]},\"{'y' * more}\"]", f"take {k}"]
        lines += [f"ack {c}" if c == k else f"deliver {c}" for c in range(clients)]
        length += count + more
    return lines


def thinned(clients=64, letters=15000, length=40000):
    """64 clients that each put 15,000 characters in; then eight of them take each fourth to tenth character out, of a million, at up to 180,000 places."""
    lines = opening(clients, length)
    for k, gap in enumerate([0] * clients + [7, 5, 3, 9, 4, 6, 8, 7]):
        count, k = length // (gap + 1), k % clients
        op = f'"{"b" * letters}",{length}' if gap == 0 else ",".join([f"{gap},-1"] * count + [str(length % (gap + 1))] * (length % (gap + 1) > 0))
        lines += [f"edit {k} [{op}]", f"take {k}", *[f"ack {c}" if c == k else f"deliver {c}" for c in range(clients)]]
        length += letters if gap == 0 else -count
    return lines


def wide_deletions(clients=64, first=31, length=40000):
    """31 clients type 505,000 characters and delete them; each of the others puts 15,000 characters in between those, and deletes all that it sees;
    then each takes what all put in: 64 deletions of up to 930,000 components."""
    lines = [f"clients {clients}", "present 0", 'start "' + "a" * length + '"']
    for c in range(first):
        lines += [f"join {c}", f'edit {c} [{length},"{"b" * 15000}"]', f"take {c}", f"ack {c}"]
        length += 15000
    others = range(first, clients)
    count = min(15000, (length - 1) // len(others))
    for c in range(first):
        lines += [*["deliver %d" % c] * (first - 1 - c), f"edit {c} [-{length}]"]
    lines += [*[f"join {c}" for c in others], *[f"edit {c} {grid(1 + k * count, 1, count, length, False)}" for k, c in enumerate(others)], *[f"take {c}" for c in others]]
    for k, c in enumerate(others):
        lines += [*[f"deliver {c}"] * k, f"ack {c}", f"edit {c} [-{length + count * (k + 1)}]", *[f"deliver {c}"] * (len(others) - 1 - k)]
    return [*lines, *[f"deliver {c}" for c in range(first) for _ in others]]


def deleted_by_all(clients=64, letters=15000, length=40000):
    """64 clients that each type 15,000 characters at once and take what all others typed; then each deletes all: `check` has a million elements that each are deleted by all."""
    lines = [*opening(clients, length), *[f'edit {c} ["{"b" * letters}",{length}]' for c in range(clients)]]
    for k in range(clients):
        lines += [f"take {k}", *[f"ack {c}" if c == k else f"deliver {c}" for c in range(clients)]]
    return [*lines, *[f"edit {c} [-{length + clients * letters}]" for c in range(clients)]]


def fallen_cycle(count=3990, length=990):
    """Two clients type before and behind a text that a third one deletes, so that all of it is on a cycle; a fourth, at whose client two letters stand in the
    other order than that in which they were typed, reads it 3,990 times: to `check`, no list has its elements in the order that is tried first, and none is reversed."""
    half = length // 2
    lines = [*opening(6, length), f'edit 0 [{half},"x",{length - half}]', f'edit 1 [{half},"y",{length - half}]', "take 1", "take 0"]
    lines += ["deliver 3", "deliver 3", f"edit 3 [-{length + 2}]", "take 3", f'edit 4 ["a",{length}]', f'edit 5 [{length},"b"]', "take 4", "take 5"]
    return [*lines, "read-server", "deliver 2", "deliver 2", *["read 2"] * count]


def reads(count=90000, length=40000):
    """A text of 40,000, read 90,000 times: `run` and `steps` print 3.6 GB of it."""
    return [*opening(1, length), *["read 0"] * count]


def debugged(lines, *commands):
    return [*lines, "%%", *commands]


def differs_last(lines, key):
    """The lines of a port that prints where it is, and behind the last instruction a value that is not ot.js'."""
    told = ported(lines)[:-1]
    return [*told[:-1], told[-1].replace("}", f',"{key}":[1]}}')]


def idle_watch(edits=20000, length=40000):
    """A watch on the list of a client that does nothing while another one types."""
    return [*opening(2, length), *typed(1, edits, length), "%%", "watch doc 0", "run"]


def many_watches(watches=50000, edits=14500):
    """A watch on the server, set 50,000 times, and a run of 29,000 edits none of which it sees."""
    return [*opening(1, 0), *['edit 0 ["x"]', "edit 0 [-1]"] * edits, "%%", *["watch server"] * watches, "run"]


def unchanged_watched(edits=99000, length=40000):
    """A watch on a text of 40,000, and 99,000 edits that change nothing of it."""
    return [*opening(1, length), *[f"edit 0 [{length}]"] * edits, "%%", "watch doc 0", "run"]


SHAPES = {
    "long-message": long_message,
    "long-message-both-ends": lambda: long_message_at_places(2),
    "long-message-fifteen-places": lambda: long_message_at_places(15),
    "buffers": buffers,
    "buffers-both-ends": lambda: edited_at_places(2),
    "buffers-fifteen-places": lambda: edited_at_places(15, edits=400),
    "pending": pending,
    "pending-crowd": pending_crowd,
    "both-ends": lambda: at_places(2),
    "five-places": lambda: at_places(5),
    "fifteen-places": lambda: at_places(15),
    "split-deletion": split_deletion,
    "split-crowd": split_crowd,
    "split-crowd-longer": lambda: split_crowd(length=39990, groups=14990, near=2, far=120),
    "reads-between": reads_between,
    "blocks": lambda: blocks(False),
    "blocks-both-ends": lambda: blocks(True),
    "alternate-pending": lambda: alternate(True),
    "alternate-message": lambda: alternate(False),
    "alternate-places": alternate_places,
    "alternate-edited": alternate_edited,
    "alternate-crowd": alternate_crowd,
    "alternate-crowd-places": lambda: alternate_crowd_places(5, 29, 30),
    "alternate-crowd-longer": lambda: alternate_crowd_places(9, 27, 28),
    "alternate-crowd-buffers": lambda: alternate_crowd_places(5, 29, 30, buffers=True),
    "every-place": lambda: every_place(False),
    "every-place-at-once": lambda: every_place(True),
    "every-place-waiting": every_place_waiting,
    "every-place-overflowing": overflowing,
    "thinned": thinned,
    "wide-deletions": wide_deletions,
    "deleted-by-all": deleted_by_all,
    "fallen-cycle": fallen_cycle,
    "reads": reads,
    "many-places-edited": split_at_many_places,
    "pending-debugged": lambda: debugged(pending(), "run", "back 1"),
    "going-back": lambda: debugged(pending(), "run", "back 20000"),
    "both-ends-debugged": lambda: debugged(at_places(2), "run", "back 14000"),
    "idle-watch": idle_watch,
    "many-watches": many_watches,
    "unchanged-watched": unchanged_watched,
    "blocks-debugged": lambda: debugged(blocks(True), "run", "back 1"),
    "every-place-debugged": lambda: debugged(every_place(False), "run", "back 1"),
    "every-place-back": lambda: debugged(every_place(False), "run", "back 20"),
    "back-and-forth": lambda: debugged(split_deletion(), *["run", "back 100000"] * 5),
    "alternate-pending-back": lambda: debugged(alternate(True), "run", "back 20"),
    "alternate-places-back": lambda: debugged(alternate_places(), "run", "back 20"),
    "alternate-edited-back": lambda: debugged(alternate_edited(), "run", "back 20"),
    "alternate-pending-watched": lambda: debugged(alternate(True), "watch doc 0", *["run"] * 25000),
    "alternate-pending-broken": lambda: debugged(alternate(True, entries=20000), *[f"break {place}" for place in range(60000, 80000)], *["run"] * 20000),
    "alternate-pending-step-by-step": lambda: debugged(alternate(True), "run", *["back 1"] * 200),
    "alternate-crowd-step-by-step": lambda: debugged(alternate_crowd(), "run", *["back 1"] * 5000),
    "alternate-crowd-broken": lambda: debugged(alternate_crowd(), *[f"break {place}" for place in range(9000, 98000, 890)], *["run", "back 2", "step 2"] * 100),
    "just-long-turns": lambda: debugged(just_long(), "run", *["back 17", "step 17"] * 300),
    "just-long-step-by-step": lambda: debugged(just_long(), "run", *["back 1"] * 14900),
    "shrunk-step-by-step": lambda: debugged(shrunk(), "run", *["back 1"] * 10000),
    "wide-deletions-back": lambda: debugged(wide_deletions(), "run", "back 20"),
    "long-message-differs": lambda: differs_last(long_message(), "appended"),
    "alternate-message-differs": lambda: differs_last(alternate(False), "appended"),
    "alternate-message-with-a-letter-differs": lambda: differs_last(alternate(False, entries=2000, text="b"), "appended"),
    "reads-debugged": lambda: debugged(reads(), "run", "back 100000", "run"),
}
WORDS = ("run", "check", "steps", "explain", "conform")


def write(lines, path):
    with open(path, "w") as it:
        it.write("\n".join(lines) + "\n")


def ported(lines):
    """The schedule and the lines of a port that prints where it is, and nothing of what it has there."""
    count = sum(line.split(" ")[0] not in ("clients", "present", "start") for line in lines)
    return [*lines, "%%", *(f'{{"at":{at}}}' for at in range(1, count + 1)), f'{{"at":{count}}}']


def words_for(lines):
    """The subcommands that read these lines: those with commands behind a line `%%` are debugged, those with a port's lines there compared."""
    if "%%" not in lines:
        return WORDS
    return ("conform",) if lines[lines.index("%%") + 1].startswith("{") else ("debug",)


def is_too_much(word, lines):
    """Whether `steps` would write some 20 GB or more: its lines have all that waits, which may be as long as the longest edit."""
    return word == "steps" and max(map(len, lines)) * len(lines) > 20e9


def measure(program, lines, room):
    """Of each subcommand: processor time, peak memory, and the status."""
    path = f"{room}/schedule.ots"
    told = []
    for word in words_for(lines):
        if is_too_much(word, lines):
            told.append("steps not measured")
            continue
        write(ported(lines) if word == "conform" and "%%" not in lines else lines, path)
        seconds, memory, status, _ = run(program, word, path)
        told.append(f"{word} {seconds:.2f} s, {memory:.0f} MB, status {status}")
    return "; ".join(told)


if __name__ == "__main__":
    sys.exit(main(SHAPES, "ots", write, measure))
