#!/usr/bin/env python3
"""otbench's debugger against a plain run of the same schedule.

    python3 bench/stepping.py [--dir DIR] [--rounds N] [--place P] [--only a,b,..] [--seed S]

Writes the schedules of storms.py to DIR (a temporary folder by default). For each it takes turns, N times (25) on one core: `otbench run`, and
`otbench debug` with a break at place P (90000, or the schedule's end where that is nearer) and `run`. It prints the medians of both sides'
processor time (user and system), of their page faults, and the ratio of the debugger's time to the run's.
"""
import argparse
import os
import statistics
import subprocess
import sys
import tempfile

from measuring import measured
from storms import ALL

HERE = os.path.dirname(os.path.abspath(__file__))
TOP = os.path.dirname(HERE)
# `./otbench` runs the proved program here, or none.
os.environ['OTBENCH_NEEDS_PROVED'] = '1'
PROGRAM = os.path.join(TOP, 'crates', 'otbench', 'out', 'otbench')


def main():
    words = argparse.ArgumentParser()
    words.add_argument('--dir')
    words.add_argument('--rounds', type=int, default=25)
    words.add_argument('--place', type=int, default=90000)
    words.add_argument('--only', default=ALL)
    words.add_argument('--seed', type=int, default=1)
    words = words.parse_args()
    folder = words.dir or tempfile.mkdtemp()
    subprocess.run([sys.executable, os.path.join(HERE, 'storms.py'), folder, '--only', words.only, '--seed', str(words.seed)], check=True, stdout=subprocess.DEVNULL)
    subprocess.run([os.path.join(TOP, 'otbench'), 'run'], input=b'clients 1\n', stdout=subprocess.DEVNULL, check=True)
    os.sched_setaffinity(0, {max(os.sched_getaffinity(0))})
    print('%-14s %10s %10s %8s %14s %14s' % ('schedule', 'run s', 'debug s', 'ratio', 'run faults', 'debug faults'))
    for name in sorted(os.listdir(folder)):
        if not name.endswith('.txt'):
            continue
        plain = os.path.join(folder, name)
        with open(plain, 'rb') as source:
            text = source.read()
        length = sum(1 for line in text.splitlines() if line.split(b' ')[0] not in (b'clients', b'present', b'start'))
        place = min(words.place, length)
        stepped = os.path.join(folder, name + '.debug')
        with open(stepped, 'wb') as sink:
            sink.write(text + b'%%%%\nbreak %d\nrun\n' % place)
        sides = {'run': [], 'debug': []}
        for _ in range(words.rounds):
            sides['run'].append(measured([PROGRAM, 'run'], plain))
            sides['debug'].append(measured([PROGRAM, 'debug'], stepped, stepped + '.said'))
            with open(stepped + '.said', 'rb') as said:
                lines = said.read().splitlines()
            if lines[1] not in (b'at %d: break' % place, b'at %d: end' % place):
                sys.exit('%s: %r' % (name, lines))
        time = {side: statistics.median(one.seconds for one in given) for side, given in sides.items()}
        faults = {side: statistics.median(one.faults for one in given) for side, given in sides.items()}
        print('%-14s %10.3f %10.3f %8.2f %14d %14d' % (name[:-4], time['run'], time['debug'], time['debug'] / time['run'], faults['run'], faults['debug']))


if __name__ == '__main__':
    main()
