#!/usr/bin/env python3
"""What the lines of a run cost beside the run itself.

    python3 bench/lines_cost.py [--dir DIR] [--seed S] [--only a,b,..] [--documents] [--count] [--program PROGRAM]

Writes the schedules of storms.py to DIR (a temporary folder by default). For each it runs `otbench run`, `otbench steps`, and `otbench conform` on the lines of `steps`, with or without documents, and prints what
`steps` takes of `run` and what `conform` takes of `steps`: processor time of the whole process (the least of five runs), or with --count instructions, as valgrind counts them, which are the same on any machine. What is
written goes to a file. Last come the bytes of the lines.
"""
import argparse
import os
import subprocess
import sys
import tempfile

from measuring import instructions, measured
from storms import ALL

HERE = os.path.dirname(os.path.abspath(__file__))
PROGRAM = os.path.join(os.path.dirname(HERE), 'crates', 'otbench', 'out', 'otbench')


def main():
    words = argparse.ArgumentParser()
    words.add_argument('--dir')
    words.add_argument('--seed', type=int, default=7)
    words.add_argument('--only', default=ALL)
    words.add_argument('--documents', action='store_true')
    words.add_argument('--count', action='store_true')
    words.add_argument('--program', default=PROGRAM)
    words = words.parse_args()
    folder = words.dir or tempfile.mkdtemp()
    subprocess.run([sys.executable, os.path.join(HERE, 'storms.py'), folder, '--only', words.only, '--seed', str(words.seed)], check=True, stdout=subprocess.DEVNULL)

    def cost(command, path, sink):
        if words.count:
            return instructions([words.program] + command, path, sink) / 1e6
        return min(measured([words.program] + command, path, sink).seconds for _ in range(5))

    print('%-12s %10s %10s %10s %12s %16s %12s' % ('schedule', 'run', 'steps', 'conform', 'steps / run', 'conform / steps', 'bytes'))
    for name in sorted(name for name in os.listdir(folder) if name.endswith('.txt')):
        plain, lines, both = (os.path.join(folder, name + end) for end in ('', '.lines', '.both'))
        run = cost(['run'], plain, os.devnull)
        steps = cost(['steps'] + (['--documents'] if words.documents else []), plain, lines)
        with open(both, 'wb') as to:
            for part in (plain, lines):
                with open(part, 'rb') as source:
                    to.write(source.read())
                to.write(b'%%\n' if part == plain else b'')
        said = both + '.said'
        conform = cost(['conform'], both, said)
        with open(said, encoding='utf-8') as answer:
            if not answer.readline() == 'conforms\n':
                sys.exit('%s: the lines of steps do not conform' % name)
        print('%-12s %10.3f %10.3f %10.3f %12.2f %16.2f %12d' % (name[:-4], run, steps, conform, steps / run, conform / steps, os.path.getsize(lines)))


if __name__ == '__main__':
    main()
