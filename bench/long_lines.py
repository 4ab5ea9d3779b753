#!/usr/bin/env python3
"""Long lines of a port: each has to be an answer, in memory that is bounded by the line.

    python3 bench/long_lines.py [--bytes N] [--program PROGRAM]

Writes lines of N (100,000,000) bytes to `otbench conform --json` and prints what each answer names, the processor time and the peak memory in lines' lengths. The status is 1 where an answer is another one.
"""
import argparse
import json
import os
import subprocess
import sys
import tempfile

HERE = os.path.dirname(os.path.abspath(__file__))
PROGRAM = os.path.join(os.path.dirname(HERE), 'crates', 'otbench', 'out', 'otbench')
SCHEDULE = b'clients 1\nstart "x"\nedit 0 [1,"a"]\n%%\n'
NAMING = ('verdict', 'at', 'instruction', 'client', 'key')


def lines(size):
    """What a line is, how it begins, is filled and ends, and what the answer names."""
    line = ['differs', 1, 'edit 0', 'line']
    yield 'a text under a key that is skipped', b'{"at":1,"weather":"', b'a' * size, b'"}', ['nothing compared']
    yield 'a text as document', b'{"at":1,"document":"', b'a' * size, b'"}', ['differs', 1, 'edit 0', 0, 'document']
    yield 'an operation of many components', b'{"at":1,"edit":[1', b',1' * (size // 2), b']}', ['differs', 1, 'edit 0', 'edit']
    yield 'digits', b'{"at":1,"revision":', b'1' * size, b'}', line
    yield 'no JSON', b'', b'a' * size, b'', line
    yield 'no UTF-8', b'', b'\xff' * size, b'', line
    yield 'nested arrays', b'', b'[' * size, b'', line


def answer(program, path, sink):
    """What the answer names, processor seconds, and peak memory in bytes."""
    with open(path, 'rb') as source, open(sink, 'wb') as to:
        child = subprocess.Popen([program, 'conform', '--json'], stdin=source, stdout=to)
        _, _, usage = os.wait4(child.pid, 0)
        child.returncode = 0
    with open(sink, 'rb') as said:
        told = json.load(said)
    return [told[name] for name in NAMING if name in told], usage.ru_utime + usage.ru_stime, usage.ru_maxrss * 1024


def main():
    words = argparse.ArgumentParser()
    words.add_argument('--bytes', type=int, default=100_000_000)
    words.add_argument('--program', default=PROGRAM)
    words = words.parse_args()
    status = 0
    with tempfile.TemporaryDirectory() as room:
        for name, begin, fill, end, expected in lines(words.bytes):
            with open(f'{room}/input', 'wb') as to:
                to.writelines([SCHEDULE, begin, fill, end, b'\n'])
            said, seconds, memory = answer(words.program, f'{room}/input', f'{room}/said')
            print('%-36s %5.2f s %5.1f lines   %s' % (name, seconds, memory / len(fill), ' '.join(map(str, said))))
            status |= said != expected
    return status


if __name__ == '__main__':
    sys.exit(main())
