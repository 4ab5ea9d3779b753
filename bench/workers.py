#!/usr/bin/env python3
"""What more workers bring, and what a threaded run costs beside a replay of its record.

    python3 bench/workers.py [--rounds N] [--seed S] [--lock]

Writes plans within the limits of a record (100,000 instructions) and runs `otbench threads` on each with 1, 2, 4 and 8 workers, and `otbench run` on what
one worker recorded. Prints wall time and processor time (user and system) of the whole process, the least of N rounds (3), each also as a ratio to one worker's.
A plan of 64 clients with 200 actions each passes the limit of a record: every log entry is delivered 64 times. It is tried, and what is said is printed.

With --lock it counts instructions instead (valgrind --tool=callgrind, the same on any machine): how many of one worker's lie under the lock, how many are the
sessions' own steps off the lock, and how many come after the workers, when the record is audited, replayed against the plan and printed.
"""
import argparse
import json
import os
import random
import re
import subprocess
import tempfile
import time

TOP = os.path.dirname(os.path.dirname(os.path.abspath(__file__)))
# `./otbench` runs the proved program here, or none.
os.environ['OTBENCH_NEEDS_PROVED'] = '1'
PROGRAM = os.path.join(TOP, 'crates', 'otbench', 'out', 'otbench')
WORKERS = (1, 2, 4, 8)


def plan(clients, actions, text, workers, seed):
    """Each user's actions at random places: mostly short insertions, some with a deletion."""
    draw = random.Random(seed)
    typing = []
    for _ in range(clients):
        row = []
        for _ in range(actions):
            action = {'at': draw.randrange(len(text) + 40), 'insert': ''.join(draw.choice('abcdefgh ') for _ in range(draw.randrange(1, 4)))}
            if draw.random() < 0.25:
                action['delete'] = draw.randrange(1, 4)
            row.append(action)
        typing.append(row)
    return json.dumps({'clients': clients, 'workers': workers, 'start': text, 'typing': typing}).encode()


def measured(words, given):
    """Wall seconds, processor seconds, status and what was printed on both streams."""
    with tempfile.TemporaryFile() as source, tempfile.TemporaryFile() as out, tempfile.TemporaryFile() as faults:
        source.write(given)
        source.seek(0)
        start = time.monotonic()
        child = subprocess.Popen(words, stdin=source, stdout=out, stderr=faults)
        _, status, usage = os.wait4(child.pid, 0)
        wall = time.monotonic() - start
        child.returncode = os.waitstatus_to_exitcode(status)
        out.seek(0)
        faults.seek(0)
        return wall, usage.ru_utime + usage.ru_stime, child.returncode, out.read(), faults.read()


def least(words, given, rounds):
    runs = [measured(words, given) for _ in range(rounds)]
    best = min(runs, key=lambda it: it[0])
    return best[0], min(it[1] for it in runs), best[2], best[3], best[4]


def compare(name, clients, actions, text, rounds, seed):
    print('\n%s: %d clients, %d actions each, a start text of %d' % (name, clients, actions, len(text)))
    first = None
    for workers in WORKERS:
        wall, cpu, status, out, faults = least([PROGRAM, 'threads'], plan(clients, actions, text, workers, seed), rounds)
        if status:
            print('  %d workers: %s' % (workers, faults.decode().strip()))
            return
        if first is None:
            first = (wall, cpu, out)
        steps = sum(1 for line in out.splitlines() if not line.startswith(b';') and line.split(b' ')[0] not in (b'clients', b'present', b'start'))
        print('  %d workers: wall %.3f s (%.2f), processor %.3f s (%.2f), %d instructions' % (workers, wall, wall / first[0], cpu, cpu / first[1], steps))
    wall, cpu, status, _, faults = least([PROGRAM, 'run'], first[2], rounds)
    print('  replay of one worker\'s record: wall %.3f s (%.2f), processor %.3f s (%.2f)%s' % (wall, wall / first[0], cpu, cpu / first[1], faults.decode().strip()))


# The functions whose instructions are counted, with all that they call.
TURNS, PLAY, COMPARE, COPY, RECORD = 'working::work::', 'playing::hear_and_enter', 'Board::is_here', 'Machine::part', 'Board::record_step'


def counted(given):
    """Instructions of a run, in all and by function, in millions."""
    with tempfile.TemporaryDirectory() as room:
        out = os.path.join(room, 'out')
        command = ['valgrind', '--tool=callgrind', '--callgrind-out-file=' + out, PROGRAM, 'threads']
        subprocess.run(command, input=given, stdout=subprocess.DEVNULL, stderr=subprocess.DEVNULL, check=True)
        said = subprocess.run(['callgrind_annotate', '--inclusive=yes', '--threshold=99.9', out], capture_output=True, text=True, check=True).stdout
    found = {}
    for name in ('PROGRAM TOTALS', TURNS, PLAY, COMPARE, COPY, RECORD):
        line = re.search(r'^ *([0-9,]+) .*%s' % re.escape(name), said, re.M)
        found[name] = int(line[1].replace(',', '')) / 1e6 if line else 0.0
    return found


def lock(name, clients, actions, text, seed):
    found = counted(plan(clients, actions, text, 1, seed))
    total, turns, play = found['PROGRAM TOTALS'], found[TURNS], found[PLAY]
    print('%s: %d clients, %d actions each, a start text of %d: %.0f million instructions' % (name, clients, actions, len(text), total))
    print('  off the lock %.0f (%.0f %%), under the lock %.0f (%.0f %%), before and after the workers %.0f (%.0f %%)'
          % (play, 100 * play / total, turns - play, 100 * (turns - play) / total, total - turns, 100 * (total - turns) / total))
    print('  under the lock: comparing with what was lent %.0f, copying what is lent %.0f, takes and joins %.0f' % (found[COMPARE], found[COPY], found[RECORD]))


def main():
    words = argparse.ArgumentParser()
    words.add_argument('--rounds', type=int, default=3)
    words.add_argument('--seed', type=int, default=1)
    words.add_argument('--lock', action='store_true')
    words = words.parse_args()
    subprocess.run([os.path.join(TOP, 'otbench'), 'run'], input=b'clients 1\n', stdout=subprocess.DEVNULL, check=True)
    letters = ''.join(random.Random(words.seed).choice('abcdefgh ') for _ in range(40000))
    if words.lock:
        lock('many', 64, 20, '', words.seed)
        lock('few', 8, 300, '', words.seed)
        lock('few-large', 8, 60, letters, words.seed)
        return
    compare('many', 64, 20, '', words.rounds, words.seed)
    compare('many-large', 64, 20, letters, words.rounds, words.seed)
    compare('few', 8, 1000, '', words.rounds, words.seed)
    compare('few-large', 8, 1000, letters, words.rounds, words.seed)
    compare('too-many', 64, 200, '', 1, words.seed)


if __name__ == '__main__':
    main()
