#!/usr/bin/env python3
"""The lines of `otbench steps` against the debugger and, where node is there, against the sample port.

    python3 bench/steps.py [--count N] [--seed S] [--program PROGRAM] [--debugger PROGRAM] [--port DRIVER]

Writes N (1,000) seeded schedules: one to five clients, some of them late, delayed links, reads, characters that JSON escapes, and now and then an
instruction that is refused. For each, the lines are folded as docs/FORMATS.md says (with `apply` and nothing else), and at each place what the
fold has of clients and server is what `otbench debug` shows there; with --documents each document of a line is the fold's. The port's driver (oracle/scalars.js)
performs the same schedule, and what it prints of each key is what `steps` prints.

`otbench conform` is asked of each schedule too: the lines of `steps` conform, with and without --documents, and so do the driver's; with each fault of examples/port/bugs.js planted in it they conform only where the
driver's lines are those without the fault; and one line with one value changed is named at its place, with its key. Ends at the first difference, with the schedule.
"""
import argparse
import json
import os
import random
import shutil
import subprocess

from storms import Sim

HERE = os.path.dirname(os.path.abspath(__file__))
TOP = os.path.dirname(HERE)
# `./otbench` runs the proved program here, or none.
os.environ['OTBENCH_NEEDS_PROVED'] = '1'
LETTERS = ['a', 'b', 'c', ' ', '"', '\\', '\n', '\u0001', 'é', '\U0001d4b3']
WAITING = ('revision', 'state', 'outstanding', 'buffer')
FAULTS = ('tie', 'old-revision', 'buffer-kept', 'whole-log', 'order')
THEIRS = WAITING + ('sent', 'message', 'document')
NAMING = ('verdict', 'at', 'instruction', 'client', 'key')
PRINTED = ('do', 'client', 'edit') + WAITING + ('sent', 'applied', 'appended', 'document', 'end')


class Session(Sim):
    """A session with late joiners, of which the simulator keeps lengths. It always says its start text."""

    def __init__(self, clients, present, start):
        Sim.__init__(self, clients, start, present)
        if not start:
            self.lines.append('start ""')

    def random_edit(self, r, c):
        op, left = [], self.len[c]
        while left > 0 or not op:
            if r.random() < .4 or left == 0:
                op.append(''.join(r.choice(LETTERS) for _ in range(r.randint(1, 3))))
            if left > 0:
                n = r.randint(1, left)
                op.append(n if r.random() < .7 else -n)
                left -= n
        self.edit(c, op)


def schedule(r):
    clients = r.randint(1, 5)
    s = Session(clients, r.randint(0, clients), ''.join(r.choice(LETTERS) for _ in range(r.randint(0, 6))))
    for _ in range(r.randint(0, 40)):
        c, what = r.randrange(clients), r.random()
        if not s.joined[c]:
            s.join(c)
        elif what < .35:
            s.random_edit(r, c)
        elif what < .6 and s.msg[c]:
            s.take(c)
        elif what < .9 and s.backlog(c):
            s.down(c)
        elif what < .95:
            s.lines.append('read %d' % c if what < .93 else 'read-server')
    if r.random() < .2:
        s.lines.append(r.choice(['take', 'deliver', 'ack', 'join', 'read']) + ' %d' % r.randrange(clients))
    return s.text()


def apply(operation, text):
    out, i = [], 0
    for x in operation:
        if isinstance(x, str):
            out.append(x)
        else:
            if x > 0:
                out.append(text[i:i + x])
            i += abs(x)
    assert i == len(text)
    return ''.join(out)


class Fold:
    def __init__(self, opening):
        joined = {'revision': 0, 'state': 'synchronized', 'outstanding': None, 'buffer': None, 'document': opening['start'], 'sent': None}
        absent = dict(joined, state='not-joined', document='')
        self.clients = [dict(joined if c < opening['present'] else absent) for c in range(opening['clients'])]
        self.document, self.log = opening['start'], []

    def line(self, line):
        do = line.get('do')
        if do in (None, 'read', 'read-server') or 'stopped' in line:
            return
        client = self.clients[line['client']]
        if do == 'take':
            client['sent'] = None
            self.document = apply(line['appended'], self.document)
            self.log.append((line['client'], line['appended']))
            return
        if do == 'join':
            client['document'] = line['document']
        elif do != 'ack':
            client['document'] = apply(line['edit' if do == 'edit' else 'applied'], client['document'])
        client.update({key: line.get(key) for key in WAITING})
        client['sent'] = line.get('sent', client['sent'])

    def is_quiet(self):
        return all(x['state'] == 'not-joined' or x['state'] == 'synchronized' and not x['sent'] and x['revision'] == len(self.log) for x in self.clients)

    def shown(self):
        """What the debugger shows of this state."""
        quoted = lambda text: json.dumps(text, ensure_ascii=False)
        rows = ['client %d rev %d %s %s' % (c, x['revision'], x['state'], quoted(x['document'])) for c, x in enumerate(self.clients)]
        return rows + ['server rev %d %s' % (len(self.log), quoted(self.document)), 'quiet' if self.is_quiet() else 'not quiet']


def output(words, text):
    done = subprocess.run(words, input=text.encode(), stdout=subprocess.PIPE)
    return done.returncode, done.stdout.decode().split('\n')[:-1]


class Port:
    """The sample port's driver, one process for all schedules."""

    def __init__(self, driver):
        self.process = subprocess.Popen(['node', os.path.join(HERE, 'drive.mjs'), driver], stdin=subprocess.PIPE, stdout=subprocess.PIPE, text=True, encoding='utf-8')

    def lines(self, text, short=False, bug=None):
        self.process.stdin.write(json.dumps({'text': text, 'short': short, 'bug': bug}) + '\n')
        self.process.stdin.flush()
        return json.loads(self.process.stdout.readline())


def conform(words, text, lines):
    """The status and the answer to these lines of a port."""
    status, said = output(words.program.split() + ['conform', '--json'], text + '%%\n' + ''.join(line + '\n' for line in lines))
    return status, json.loads(said[0])


def other(r, value):
    """Another value."""
    if value is None:
        return r.choice([0, 'a', [1], {}])
    if isinstance(value, int):
        return r.choice([value + 1, None, value + .5, str(value)])
    if isinstance(value, str):
        return r.choice([value + 'a', 'b' + value, None, 7, [value]])
    if isinstance(value, list):
        return r.choice([value + [1], value + ['a'], None, [value], value[:-1]])
    return r.choice([None, 'a', [], 1])


def whose(line):
    if 'do' not in line:
        return 'end' if 'end' in line else 'opening'
    return '%s %d' % (line['do'], line['client']) if 'client' in line else line['do']


def owner(line, key):
    """The member of an answer that says whose value of a line it is, if it has one."""
    if 'do' not in line or (key if isinstance(key, str) else key[0]) not in THEIRS:
        return {}
    return {'client': None if line['do'] in ('take', 'read-server') else line['client']}


def changed(r, lines):
    """One of the lines with one value changed, and the members of the answer that name it."""
    n = r.randrange(len(lines))
    line = json.loads(lines[n])
    keys = [key for key in line if key != 'stopped' and (key != 'at' or n > 0) and not ('stopped' in line and key in ('do', 'edit', 'client'))]
    if isinstance(line.get('sent'), dict):
        keys += [('sent', 'revision'), ('sent', 'operation')]
    key = r.choice(keys)
    named = {'verdict': 'differs', 'at': line['at'], 'instruction': whose(line), **owner(line, key), 'key': key if isinstance(key, str) else ' '.join(key)}
    if isinstance(key, str):
        line[key] = other(r, line[key])
    else:
        line['sent'] = dict(line['sent'], **{key[1]: other(r, line['sent'][key[1]])})
    if key == 'at' and not (isinstance(line['at'], int) and line['at'] >= 0):
        named['key'] = 'line'
    return lines[:n] + [json.dumps(line, ensure_ascii=False)] + lines[n + 1:], named


def check_conform(words, text, port, r):
    """What `conform` answers; how many faults it named, and whether a value was changed."""
    for flags in ([], ['--documents']):
        status, lines = output(words.program.split() + ['steps'] + flags, text)
        status, said = conform(words, text, lines)
        assert status == 0 and said['verdict'] == 'conforms', said
    if not port:
        return 0
    right = port.lines(text)
    status, said = conform(words, text, right)
    assert status == 0 and said['verdict'] == 'conforms', said
    lines, members = changed(r, right)
    status, said = conform(words, text, lines)
    assert status == 1 and {name: said[name] for name in NAMING if name in said} == members, (members, said)
    named = 0
    for fault in FAULTS:
        lines = port.lines(text, bug=fault)
        status, said = conform(words, text, lines)
        same = [without_words(line) for line in lines] == [without_words(line) for line in right]
        assert (status == 0) == (said['verdict'] == 'conforms') == same, (fault, said)
        named += not same
    return named


def without_words(line):
    """A line without what its port says where it stops."""
    line = json.loads(line)
    return dict(line, stopped=True) if 'stopped' in line else line


def check(words, text, port):
    status, raw = output(words.program.split() + ['steps'], text)
    lines = [json.loads(line) for line in raw]
    for line, written in zip(lines, raw):
        assert written == json.dumps(line, ensure_ascii=False, separators=(',', ':')), written
    assert status == (1 if any('stopped' in line for line in lines) else 0), status
    places = lines[-1]['at']
    _, shown = output(words.debugger.split() + ['debug'], text + '%%\nshow\n' + 'step 1\nshow\n' * places)
    fold, rows = Fold(lines[0]), lines[0]['clients'] + 2
    _, with_documents = output(words.program.split() + ['steps', '--documents'], text)
    for p in range(places + 1):
        fold.line(lines[p])
        here = shown[p * (rows + 1):p * (rows + 1) + rows]
        assert here == fold.shown(), (p, here, fold.shown())
        if p > 0:
            line = json.loads(with_documents[p])
            mover = fold.document if line['do'] in ('take', 'read-server') else fold.clients[line['client']]['document']
            assert line['document'] == mover, (p, line)
    if port:
        printed = port.lines(text, short=True)
        assert len(printed) == len(lines), (len(printed), len(lines))
        for line, found in zip(lines, map(json.loads, printed)):
            assert ('stopped' in line) == ('stopped' in found), (line, found)
            for key in PRINTED:
                if key in line or 'do' in line and 'stopped' not in line and key in WAITING and not line['do'].startswith('read') and line['do'] != 'take':
                    assert line.get(key) == found.get(key), (key, line, found)
    return places


def main():
    words = argparse.ArgumentParser()
    words.add_argument('--count', type=int, default=1000)
    words.add_argument('--seed', type=int, default=1)
    words.add_argument('--program', default=os.path.join(TOP, 'otbench'))
    words.add_argument('--debugger', default=os.path.join(TOP, 'otbench'))
    words.add_argument('--port', default=os.path.join(TOP, 'oracle', 'scalars.js'))
    words = words.parse_args()
    port = Port(words.port) if shutil.which('node') and os.path.exists(words.port) else None
    states, named = 0, 0
    for seed in range(words.seed, words.seed + words.count):
        text = schedule(random.Random(seed))
        try:
            states += check(words, text, port) + 1
            named += check_conform(words, text, port, random.Random(-seed))
        except AssertionError:
            print(text, end='')
            print('seed %d differs' % seed)
            raise
    print('%d schedules, %d states: the fold is what the debugger shows, and the lines of steps conform' % (words.count, states))
    if port:
        print('the lines are those of the port, which conforms; with a value changed it is named %d times, with a fault planted %d of %d times' % (words.count, named, words.count * len(FAULTS)))


if __name__ == '__main__':
    main()
