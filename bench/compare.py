#!/usr/bin/env python3
"""otbench, ot.js under node and other programs on the same schedules, side by side.

    python3 bench/compare.py [--seeds S,S,..] [--runs N] [--only a,b,..] [--program PROGRAM] [--beside "NAME=PROGRAM WORD.."].. [--count [NAME,..]] [--write] [--dir DIR]

Writes the schedules of storms.py and editors.py, for each seed (1), to DIR (a temporary folder by default). Runs `node oracle/run.js`, each program that is named, and `otbench run` on each, N times (3) in turns, and compares what they print.
Prints for each schedule the least processor time (user and system) and the peak memory (at least that of Python) of all, node's time in parts of otbench's, otbench's in parts of that of each program that is named, and with --count,
when all is timed, the same of instructions, beside the programs that it names or all, as valgrind counts them on all processors. Last comes a table in Markdown, a row for each shape, of each figure the least and the greatest of the seeds. --write puts it into bench/README.md, and a picture of it, of the
first seed, into bench/storms.svg.

A program that is named reads a schedule on its input and prints what `otbench run` prints: --beside "before=/tmp/otbench-before run".
"""
import argparse
import concurrent.futures
import filecmp
import os
import shutil
import subprocess
import sys
import tempfile

import editors
import storms
from measuring import instructions, measured
from picture import drawn

HERE = os.path.dirname(os.path.abspath(__file__))
TOP = os.path.dirname(HERE)
# `./otbench` runs the proved program here, or none.
os.environ['OTBENCH_NEEDS_PROVED'] = '1'
# Between these lines the table stands in README.md.
MARKS = '<!--compare.py-->\n', '<!--end-->\n'
ALL = storms.ALL + ',' + editors.ALL


def beside(path, peers, runs):
    """Of each peer the least time and the most memory on a schedule; and whether all printed the same and went well."""
    outs = {peer: path[:-4] + '.' + peer for peer in peers}
    seen = {peer: [] for peer in peers}
    for _ in range(runs):
        for peer, command in peers.items():
            seen[peer].append(measured(command, path, outs[peer]))
    well = all(filecmp.cmp(outs['otbench'], out, shallow=False) for out in outs.values())
    well = well and all(run.status == 0 for of_peer in seen.values() for run in of_peer)
    for out in outs.values():
        os.remove(out)
    return {peer: (min(run.seconds for run in of_peer), max(run.mebibytes for run in of_peer)) for peer, of_peer in seen.items()}, well


def figures(path, peers, runs):
    """The figures of one schedule by their columns' names, and whether all went well."""
    best, well = beside(path, peers, runs)
    ours = best['otbench']
    row = {f'{peer} s': seconds for peer, (seconds, _) in best.items()}
    row |= {f'{peer} MiB': mebibytes for peer, (_, mebibytes) in best.items()}
    row['node/otbench'] = best['node'][0] / ours[0]
    row |= {f'otbench/{peer}': ours[0] / best[peer][0] for peer in named_in(peers)}
    return row, well


def named_in(peers):
    return [peer for peer in peers if peer not in ('node', 'otbench')]


def count(measurements, peers, named):
    """Adds to the rows, each with the schedule that it is of, otbench's instructions in parts of those of the named programs."""
    asked_for = [(row, path, peer) for row, path in measurements for peer in ('otbench', *named)]
    with concurrent.futures.ThreadPoolExecutor(os.cpu_count()) as pool:
        counts = list(pool.map(lambda it: instructions(peers[it[2]], it[1]), asked_for))
    ours = {path: found for (_, path, peer), found in zip(asked_for, counts) if peer == 'otbench'}
    for (row, path, peer), found in zip(asked_for, counts):
        if peer != 'otbench':
            row[f'otbench/{peer}, instructions'] = ours[path] / found


def shown(column, values):
    """The least and the greatest of some figures."""
    digits = '%.3f' if column.endswith(' s') else '%.0f' if column.endswith(' MiB') else '%.2f'
    ends = [digits % pick(values) for pick in (min, max)]
    return ends[0] if ends[0] == ends[1] else '–'.join(ends)


def table(rows):
    """Markdown: a row for each shape, of the figures of all seeds, but of memory otbench's alone."""
    columns = [it for it in next(iter(rows.values()))[0] if not it.endswith(' MiB') or it == 'otbench MiB']
    lines = [['Shape', *columns], ['---'] * (len(columns) + 1)]
    lines += [[shape, *(shown(column, [row[column] for row in of_seeds]) for column in columns)] for shape, of_seeds in rows.items()]
    return ''.join('|%s|\n' % '|'.join(line) for line in lines)


def write(rows, peers):
    """Puts the table and the picture into their files."""
    with open(os.path.join(HERE, 'README.md'), encoding='utf-8') as file:
        text = file.read()
    front, rest = text.split(MARKS[0])
    text = front + MARKS[0] + table(rows) + MARKS[1] + rest.split(MARKS[1])[1]
    with open(os.path.join(HERE, 'README.md'), 'w', encoding='utf-8') as file:
        file.write(text)
    with open(os.path.join(HERE, 'storms.svg'), 'w', encoding='utf-8') as file:
        file.write(drawn({shape: [of_seeds[0][f'{peer} s'] for peer in peers] for shape, of_seeds in rows.items()}, list(peers)))


def programs(named, program):
    """The commands by their names: node, those that are named, otbench."""
    peers = {'node': ['node', os.path.join(TOP, 'oracle', 'run.js')]}
    for given in named:
        name, _, command = given.partition('=')
        if not command or name in ('', 'node', 'otbench', *peers):
            sys.exit('compare.py: --beside wants a name of its own, and a command: %s' % given)
        peers[name] = command.split()
    return {**peers, 'otbench': [program, 'run']}


def asked():
    words = argparse.ArgumentParser()
    words.add_argument('--seeds', default='1')
    words.add_argument('--runs', type=int, default=3)
    words.add_argument('--only', default=ALL)
    words.add_argument('--program')
    words.add_argument('--beside', action='append', default=[])
    words.add_argument('--count', nargs='?', const='', metavar='NAME,..')
    words.add_argument('--write', action='store_true')
    words.add_argument('--dir')
    return words.parse_args()


def main():
    words = asked()
    peers = programs(words.beside, words.program or os.path.join(TOP, 'crates', 'otbench', 'out', 'otbench'))
    counted = [] if words.count is None else words.count.split(',') if words.count else named_in(peers)
    if not set(counted) <= set(named_in(peers)):
        sys.exit('compare.py: --count names programs that --beside names: %s' % words.count)
    if counted and not shutil.which('valgrind'):
        sys.exit('compare.py: --count wants valgrind, which is not there')
    if not words.program:
        subprocess.run([os.path.join(TOP, 'otbench'), 'run'], input=b'clients 1\n', stdout=subprocess.DEVNULL, check=True)
    folder, rows, measurements, same = words.dir or tempfile.mkdtemp(), {}, [], True
    for seed in words.seeds.split(','):
        at = os.path.join(folder, seed)
        for script in ('storms.py', 'editors.py'):
            made = [sys.executable, os.path.join(HERE, script), at, '--only', words.only, '--seed', seed]
            subprocess.run(made, check=True, stdout=subprocess.DEVNULL)
        for name in sorted(it[:-4] for it in os.listdir(at) if it.endswith('.txt')):
            path = os.path.join(at, name + '.txt')
            row, well = figures(path, peers, words.runs)
            rows.setdefault(name, []).append(row)
            measurements.append((row, path))
            same = same and well
            print('%s, seed %s: %s%s' % (name, seed, ', '.join('%s %s' % (column, shown(column, [value])) for column, value in row.items()),
                                         '' if well else ': they print differently, or failed'), flush=True)
    if counted:
        count(measurements, peers, counted)
    print(table(rows), end='')
    if words.write:
        write(rows, peers)
    return 0 if same else 1


if __name__ == '__main__':
    sys.exit(main())
