#!/usr/bin/env python3
"""Refuses each growth of a few programs in turn, and looks at what each call answers then.

    python3 tests/growths.py [NAME ..]

The programs are the texts in `growths/`: `board` over a board (`lend`, `settle`, `audit`), `calls` over the machine, the debugger, the formats and the judge, `documents`
over documents, `run` over `ot_machine::run`. Each is compiled with a check at each access, by `rt try` in a copy of the repository. `rt try` makes one numbered growth fail, the same in each run; a program first makes as many
growths as its input says, so that each of its own meets that number in one of the runs.

A call that answers out of memory has to leave what it was lent as it was, and to succeed when it is made once more: then one line says so, and the other lines are those that
are printed with all memory. Where a growth is refused elsewhere, the program has to end with status 1. There is no third thing. Of `run`, as many growths as an opening makes have to
give no run, and each later one a run that stops before an instruction, the later the growth the later the instruction. The last line of each program says how many
growths were refused at each call; the status is 1 where something else was seen, or where a call never met a refused growth.
"""
import collections
import concurrent.futures
import os
import pathlib
import re
import shutil
import subprocess
import sys
import tempfile

from words import given

TESTS = pathlib.Path(__file__).resolve().parent
TOP = TESTS.parent
# By program: the libraries that it uses, its calls, the growth that fails (the program makes fewer by itself), and the lines that say that a call left all as it was.
PROGRAMS = {
    "board": (
        "ot_text ot_client ot_isa ot_machine ot_plan ot_board ot_workers anyhow",
        ["lend", "settle", "audit"],
        800,
        re.compile(r"(lend|settle) \d: the board is as it was|(audit): a growth was refused"),
    ),
    "calls": (
        "ot_text ot_isa ot_json ot_asm ot_image ot_machine ot_debug ot_judge ot_check ot_report anyhow",
        ["read_op", "assemble", "load", "step", "command", "read_trace", "trace_of", "judge"],
        1000,
        re.compile(r"(\w+): all is as it was"),
    ),
    "documents": ("ot_text anyhow", ["change", "share"], 100, re.compile(r"(\w+): all is as it was")),
    "run": ("ot_isa ot_asm ot_machine anyhow", [], 100, None),
}
# The runs of a program are shared among so many processes, each of which compiles it.
SHARES = 4
# What `run` prints with all memory, and where a run stops.
WHOLE_RUN = ["opening: made", "run: whole"]
STOPPED = re.compile(r"run: stopped at (\d+)")


def said(room, name):
    """What `rt try` said of all runs: each is named by how many growths came before the program's own."""
    uses, _, fails, _ = PROGRAMS[name]
    crate = f"{name}_growths"
    shutil.copytree(TOP / "crates", room / "crates", ignore=shutil.ignore_patterns("out", "proofs", "must-fail"))
    source = room / "crates" / crate / "src"
    source.mkdir(parents=True)
    shutil.copy(TESTS / f"growths/{name}.rt.txt", source / "main.rt")
    shutil.copy(TOP / "HANDLES", room)
    (room / "crates.txt").write_text((TOP / "crates.txt").read_text(encoding="utf-8") + f"{crate}: {uses}\n", encoding="utf-8")
    subprocess.run(["git", "init", "-q", room], check=True)
    shares = [room / f"cases{number}" for number in range(min(SHARES, os.cpu_count() or 1))]
    for share in shares:
        share.mkdir()
    for before in range(fails):
        (shares[before % len(shares)] / f"{before:04}").write_text(f"{before:04}", encoding="utf-8")
    how = {"cwd": source.parent, "stdout": subprocess.PIPE, "stderr": subprocess.STDOUT, "check": False}
    with concurrent.futures.ThreadPoolExecutor(len(shares)) as pool:
        commands = [["rt", "try", "--fail-alloc", str(fails), "--cases", share] for share in shares]
        return "".join(it.stdout.decode("utf-8", "replace") for it in pool.map(lambda command: subprocess.run(command, **how), commands))


def answers(text, fails):
    """By the number of the growth that was refused: the status, and the lines."""
    found = {}
    for name, lines, status in re.findall(r"^== (\d{4})\n(.*?)^case=\1 run=ended status=(\d+) ", text, re.MULTILINE | re.DOTALL):
        found[fails - int(name)] = int(status), [line for line in lines.splitlines() if not line.startswith(("allocations: ", "Error: "))]
    return found


def place(whole, got, as_it_was):
    """Where the growth was refused that led to this answer; None where the answer is none that may come."""
    status, lines = got
    if got == whole:
        return "nowhere"
    said_of = [line for line in lines if as_it_was.fullmatch(line)]
    others = [line for line in lines if not as_it_was.fullmatch(line)]
    if status == 0 and len(said_of) == 1 and others == whole[1]:
        return next(it for it in as_it_was.fullmatch(said_of[0]).groups() if it)
    return "elsewhere" if status == 1 and not said_of and others == whole[1][:len(others)] else None


def place_of_run(whole, got):
    """The same of the program `run`."""
    status, lines = got
    if got == whole:
        return "nowhere"
    if status == 1 and not lines:
        return "elsewhere"
    if status != 0 or len(lines) != 2:
        return None
    if lines == ["opening: refused", WHOLE_RUN[1]]:
        return "opening"
    if lines == [WHOLE_RUN[0], "run: none"]:
        return "no run"
    return "stopped" if lines[0] == WHOLE_RUN[0] and STOPPED.fullmatch(lines[1]) else None


def is_right_run(found):
    """Whether the answers of `run` are those that may come, as many without a run as at an opening, and the others stop later and later."""
    whole = 0, WHOLE_RUN
    places = {number: place_of_run(whole, got) for number, got in sorted(found.items())}
    bad = [number for number, it in places.items() if it is None]
    for number in bad:
        print(f"run: growth {number} refused: {found[number]}")
    stops = [int(STOPPED.fullmatch(found[number][1][1])[1]) for number, it in places.items() if it == "stopped"]
    counts = collections.Counter(places.values())
    print(f"growths of run: {counts['opening']} refused at an opening, {counts['no run']} without a run, {counts['stopped']} before {len(set(stops))} instructions")
    return not bad and stops != [] and stops == sorted(stops) and counts["no run"] == counts["opening"] > 0


def tried(name):
    """Whether each growth of the program was refused, and each answer is one that may come."""
    _, calls, fails, as_it_was = PROGRAMS[name]
    with tempfile.TemporaryDirectory(prefix="growths-") as folder:
        text = said(pathlib.Path(folder), name)
    found = answers(text, fails)
    whole = found.get(fails)
    if len(found) != fails or whole[0] != 0:
        print(text[-2000:])
        return False
    if name == "run":
        return is_right_run(found)
    places = {number: place(whole, got, as_it_was) for number, got in sorted(found.items())}
    bad = [number for number, it in places.items() if it is None]
    for number in bad:
        print(f"{name}: growth {number} refused: {found[number]}")
    made = max(number for number, it in places.items() if it != "nowhere")
    counts = collections.Counter(it for number, it in places.items() if number <= made)
    seen = ", ".join(f"{counts[it]} at {it}" for it in calls)
    print(f"growths of {name}: {made} refused in turn, {seen}, {counts['elsewhere']} elsewhere, {counts['nowhere']} without effect; {len(bad)} answers that may not come")
    return not bad and all(counts[it] for it in calls)


def main():
    results = [tried(name) for name in given(__doc__, tuple(PROGRAMS)) or PROGRAMS]
    return 0 if all(results) else 1


if __name__ == "__main__":
    sys.exit(main())
