#!/usr/bin/env python3
"""The engine under node beside a native program, on storms and on hostile inputs: whether they print the same, and what each costs.

    python3 engine/measure.py [--engine FILE] [--native FILE] storms [SEED]
    python3 engine/measure.py [--engine FILE] [--native FILE] hostile [NAME..]

`storms` runs each storm of bench/storms.py under four subcommands, the native program and the engine in turns, five times each, the engine's in one process.
Least processor times. `hostile` runs the shapes of bench/hostile_schedules.py, bench/hostile.py and bench/hostile_plans.py that the native program does in at
most ten seconds, each once: processor time and peak memory of whole processes, so node's own are in the engine's.

Status 1 where the two differ, or the engine takes more than three times the native program's time on a storm, or on a hostile input that the native program
needs over a second for, or more than twice its memory on one that it needs over 100 MB for.
"""
import hashlib
import multiprocessing
import os
import pathlib
import subprocess
import sys
import tempfile

HERE = pathlib.Path(__file__).resolve().parent
BENCH = HERE.parent / "bench"
sys.dont_write_bytecode = True
sys.path.insert(0, str(BENCH))

MOST_TIME, MOST_MEMORY = 3, 2
LONGEST = 10
TURNS = 5


def ran(words, path):
    """Processor time in seconds, peak memory in MB, the checksum of output and status, and standard error."""
    with open(path, "rb") as given, tempfile.TemporaryFile() as errors:
        child = subprocess.Popen(words, stdin=given, stdout=subprocess.PIPE, stderr=errors)
        whole = hashlib.sha256()
        while part := child.stdout.read(1 << 20):
            whole.update(part)
        _, status, used = os.wait4(child.pid, 0)
        errors.seek(0)
        return used.ru_utime + used.ru_stime, used.ru_maxrss / 1024, (whole.hexdigest(), os.waitstatus_to_exitcode(status)), errors.read()


# A process's peak memory counts what the one had that it was started from: so all are started from one that was there before any input was made.
SMALL = multiprocessing.Pool(1)


def run(words, path):
    return SMALL.apply(ran, ([str(it) for it in words], str(path)))


class Sides:
    """The two programs, and what was wrong."""

    def __init__(self, engine, native):
        self.engine, self.native, self.wrong = engine, native, []

    def by_node(self, *words):
        return ["node", HERE / "run.mjs", *words[:-1], self.engine, *words[-1]]

    def note(self, name, what):
        self.wrong.append(name)
        return f"  {what}"

    def storm(self, name, word, path):
        native, engine, same = [], [], True
        for _ in range(TURNS):
            time, _, told, errors = run([self.native, word], path)
            native.append(time)
        _, _, other, said = run(self.by_node("--times", str(TURNS), [word]), path)
        said, _, times = said.rstrip(b"\n").rpartition(b"\n")
        engine = [float(it) for it in times.split()]
        same = told == other and errors.strip(b"\n") == said
        ratio = min(engine) / min(native)
        line = f"{name} {word}: native {min(native):.3f} s, engine {min(engine):.3f} s ({engine[0]:.3f} the first time), {ratio:.1f} times"
        line += "" if same else self.note(name, "DIFFERS")
        return line + (self.note(name, "TOO SLOW") if ratio > MOST_TIME else "")

    def hostile(self, name, word, path):
        time, memory, told, errors = run([self.native, word], path)
        if time > LONGEST:
            return f"{name} {word}: native {time:.1f} s, left out"
        other_time, other_memory, other, other_errors = run(self.by_node([word]), path)
        line = f"{name} {word}: {time:.2f} s {memory:.0f} MB, engine {other_time:.2f} s {other_memory:.0f} MB, {other_time / time:.1f} and {other_memory / memory:.1f} times"
        line += "" if (told, errors) == (other, other_errors) else self.note(name, "DIFFERS")
        line += self.note(name, "TOO SLOW") if time > 1 and other_time > MOST_TIME * time else ""
        return line + (self.note(name, "TOO LARGE") if memory > 100 and other_memory > MOST_MEMORY * memory else "")


def storms(sides, seed="4711"):
    with tempfile.TemporaryDirectory() as room:
        subprocess.run([sys.executable, BENCH / "storms.py", room, "--seed", seed], check=True, stdout=subprocess.DEVNULL)
        for path in sorted(pathlib.Path(room).iterdir()):
            for word in ("run", "check", "steps", "explain"):
                print(sides.storm(path.stem, word, path), flush=True)


def shapes():
    """Each hostile input: its name, its subcommands, and how to make its text."""
    import hostile
    import hostile_plans
    import hostile_schedules

    found = {}
    for name, shape in hostile_schedules.SHAPES.items():
        found[name] = (None, lambda shape=shape: "\n".join(shape()) + "\n")
    for name, shape in hostile.SHAPES.items():
        found[name] = (("judge",), lambda shape=shape: hostile.json.dumps(shape(), separators=(",", ":")))
    for name, shape in hostile_plans.SHAPES.items():
        found[name] = (("threads",), shape)
    return found


def words_of(text):
    """The subcommands that a schedule is for."""
    schedule, _, behind = text.partition("\n%%\n")
    if not behind:
        return ("run", "check", "explain")
    return ("conform",) if behind.startswith("{") else ("debug",)


def hostile(sides, *names):
    for name, (words, make) in shapes().items():
        if names and name not in names:
            continue
        with tempfile.TemporaryDirectory() as room:
            text, path = make(), pathlib.Path(room, name)
            path.write_text(text, encoding="utf-8")
            tried = words or words_of(text)
            del text
            for word in tried:
                print(sides.hostile(name, word, path), flush=True)


def main(words):
    files = {"--engine": HERE / "out/otbench.wasm", "--native": HERE.parent / "crates/otbench/out/otbench"}
    while words[:1] and words[0] in files:
        files[words[0]] = pathlib.Path(words[1]).resolve()
        words = words[2:]
    what = {"storms": storms, "hostile": hostile}.get(words[0] if words else "")
    if not what:
        sys.exit(__doc__)
    sides = Sides(*files.values())
    what(sides, *words[1:])
    print(f"{len(sides.wrong)} wrong{': ' if sides.wrong else ''}{', '.join(sides.wrong)}")
    return 1 if sides.wrong else 0


if __name__ == "__main__":
    sys.exit(main(sys.argv[1:]))
