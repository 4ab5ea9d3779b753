"""What the scripts over shapes of hard inputs share: their words on the command line, and the program's time and memory on one input."""
import argparse
import multiprocessing
import os
import subprocess
import tempfile

ROOT = os.path.dirname(os.path.dirname(os.path.abspath(__file__)))
PROGRAM = f"{ROOT}/crates/otbench/out/otbench"

# How much is kept of what the program prints, in bytes.
KEPT = 1 << 16


def started(program, word, path):
    with open(path, "rb") as given:
        child = subprocess.Popen([program, word], stdin=given, stdout=subprocess.PIPE)
        out = child.stdout.read(KEPT)
        while child.stdout.read(1 << 20):
            pass
        _, status, used = os.wait4(child.pid, 0)
    return used.ru_utime + used.ru_stime, used.ru_maxrss / 1024, os.waitstatus_to_exitcode(status), out


# A process's peak memory counts what the one had that it was started from: so the program is started from one that was there before any shape was made.
SMALL = multiprocessing.Pool(1)


# What each run cost, in order: its time and its memory.
SPENT = []


def run(program, word, path):
    """Processor time in seconds, peak memory in MB (that of Python at least), the status, and the first of what was printed."""
    cost = SMALL.apply(started, (program, word, path))
    SPENT.append(cost[:2])
    return cost


def spent(measure, program, given, room):
    """What `measure` says of a program on one input, and what each of its runs cost."""
    SPENT.clear()
    return measure(program, given, room), list(SPENT)


def asked():
    words = argparse.ArgumentParser()
    words.add_argument("shapes", nargs="*", metavar="SHAPE")
    words.add_argument("--program", default=PROGRAM)
    words.add_argument("--beside", metavar="PROGRAM")
    words.add_argument("--write", metavar="FOLDER")
    return words.parse_args()


def main(shapes, ending, write, measure):
    """`[--program PATH] [--beside PATH] [SHAPE..]` prints what `measure` says of all shapes or of those that are named, of the other program too, and time and memory of each run in
    parts of the other's; `--write FOLDER` writes them there."""
    words = asked()
    if words.write:
        for name, shape in shapes.items():
            write(shape(), f"{words.write}/{name}.{ending}")
        return 0
    for name in words.shapes or shapes:
        given = shapes[name]()
        with tempfile.TemporaryDirectory() as room:
            said, ours = spent(measure, words.program, given, room)
            print(f"{name}: {said}", flush=True)
            if words.beside:
                said, theirs = spent(measure, words.beside, given, room)
                parts = ", ".join(f"{time / max(1e-3, other):.2f} {memory / others:.2f}" for (time, memory), (other, others) in zip(ours, theirs))
                print(f"  beside: {said}\n  time, memory in parts: {parts}", flush=True)
    return 0
