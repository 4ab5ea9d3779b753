"""Runs schedules with many reads of long texts, with little memory: each line is written before the next reads are, so that memory is that of the state.

`python3 bench/many_reads.py [PROGRAM]` prints what each run wrote, its processor time and its peak memory, and ends with status 1 where a line is wrong.
"""
import os
import resource
import subprocess
import sys
import tempfile

ROOT = os.path.dirname(os.path.dirname(os.path.abspath(__file__)))
PROGRAM = f"{ROOT}/crates/otbench/out/otbench"

# How many reads, of how many characters, and in how much memory (RLIMIT_AS, bytes).
RUNS = [(99_999, 1_000, 200 << 20), (90_000, 40_000, 200 << 20), (99_999, 0, 100 << 20)]


def limited(most):
    """Takes care that the program has no more memory than this."""
    return lambda: resource.setrlimit(resource.RLIMIT_AS, (most, most))


def is_right(out, reads, length):
    """Whether these are the lines of so many reads, and those of the end."""
    text = b'"' + b"x" * length + b'"\n'
    read = b"read 0 " + text
    end = b"client 0 rev 0 synchronized " + text + b"server rev 0 " + text + b"quiet\n"
    if any(out.readline() != read for _ in range(reads)):
        return False
    return out.read() == end


def run(program, path, reads, length, most):
    """Whether what is written is right, with the time and the memory that it took."""
    with open(path, "rb") as given:
        child = subprocess.Popen([program, "run"], stdin=given, stdout=subprocess.PIPE, preexec_fn=limited(most))
        right = is_right(child.stdout, reads, length)
        child.stdout.close()
        _, status, used = os.wait4(child.pid, 0)
    seconds, memory = used.ru_utime + used.ru_stime, used.ru_maxrss / 1024
    print(f"{reads} reads of {length}: {'right' if right and status == 0 else 'WRONG'}, {seconds:.2f} s, {memory:.0f} MB of {most >> 20} MB", flush=True)
    return right and status == 0


def main():
    program = sys.argv[1] if len(sys.argv) > 1 else PROGRAM
    good = True
    with tempfile.TemporaryDirectory() as room:
        path = f"{room}/reads.ots"
        for reads, length, most in RUNS:
            with open(path, "w") as it:
                it.write(f'clients 1\nstart "{"x" * length}"\n' + "read 0\n" * reads)
            good = run(program, path, reads, length, most) and good
    return 0 if good else 1


if __name__ == "__main__":
    sys.exit(main())
