#!/usr/bin/env python3
"""Whether the sessions of `otbench generate` run whole, and to a quiet end, over many seeds and shapes.

    python3 bench/generate.py [--seeds N]

Each of N seeds (10,000) takes the next shape of a list. Its text is run by `otbench run`: the status has to be 0, the last line `quiet`, or of
an open session whatever it is; the lines say the instructions that were asked for, and behind them the reads of everybody. Printed are how
many sessions and instructions there were, and how many edits, joins and instructions of each kind.
"""
import argparse
import collections
import concurrent.futures
import os
import pathlib
import subprocess
import sys

PROGRAM = os.environ.get("OTBENCH") or pathlib.Path(__file__).resolve().parent.parent / "crates/otbench/out/otbench"
SHAPES = [
    [],
    ["--clients", "1"],
    ["--clients", "2", "--instructions", "16"],
    ["--clients", "2", "--present", "0"],
    ["--clients", "3", "--start", "a\u0301\U0001F600\"\\"],
    ["--clients", "4", "--start", "", "--instructions", "200"],
    ["--clients", "9", "--present", "3", "--instructions", "150"],
    ["--clients", "64", "--instructions", "400"],
    ["--clients", "5", "--instructions", "0"],
    ["--clients", "3", "--open"],
    ["--clients", "7", "--open", "--instructions", "200"],
]


def asked(words, name, otherwise):
    """The number that the words ask for."""
    return int(words[words.index(name) + 1]) if name in words else otherwise


def reads_of_all(clients, present, instructions):
    """The reads of each client that is there in the end, and of the server."""
    joined = set(range(present)) | {line for line in instructions if line.startswith("join ")}
    here = {client for client in range(clients) if client in joined or f"join {client}" in joined}
    return [f"read {client}" for client in sorted(here)] + ["read-server"]


def fault_of(seed, words):
    """What is wrong with the session, or None; and its instructions' words."""
    made = subprocess.run([PROGRAM, "generate", "--seed", str(seed), *words], capture_output=True, check=False)
    text = made.stdout.decode()
    lines = text.splitlines()
    instructions = [line for line in lines if line.split(" ")[0] not in ("clients", "present", "start")]
    counts = collections.Counter(line.split(" ")[0] for line in instructions)
    if made.returncode != 0:
        return f"status {made.returncode}: {made.stderr.decode()}", counts
    clients = asked(words, "--clients", 4)
    present = next((int(line.split(" ")[1]) for line in lines if line.startswith("present ")), clients)
    if present != asked(words, "--present", present):
        return f"present {present}", counts
    count = asked(words, "--instructions", 60)
    reads = [] if "--open" in words else reads_of_all(clients, present, instructions)
    if len(instructions) != count + len(reads) or instructions[count:] != reads:
        return f"{len(instructions)} instructions, the last {instructions[count:]}", counts
    ran = subprocess.run([PROGRAM, "run"], input=made.stdout, capture_output=True, check=False)
    if ran.returncode != 0 or not ("--open" in words or ran.stdout.endswith(b"\nquiet\n")):
        return f"run: status {ran.returncode}, {ran.stdout[-200:]}", counts
    return None, counts


def main():
    words = argparse.ArgumentParser()
    words.add_argument("--seeds", type=int, default=10_000)
    words.add_argument("--jobs", type=int, default=os.cpu_count())
    words = words.parse_args()
    total, failed = collections.Counter(), 0
    with concurrent.futures.ThreadPoolExecutor(words.jobs) as pool:
        rows = [(seed, SHAPES[seed % len(SHAPES)]) for seed in range(words.seeds)]
        for (seed, shape), (fault, counts) in zip(rows, pool.map(lambda row: fault_of(*row), rows)):
            total.update(counts)
            if fault:
                failed += 1
                print(f"seed {seed} {' '.join(shape)}: {fault}", file=sys.stderr)
    print(f"{words.seeds} sessions, {sum(total.values())} instructions, {failed} wrong")
    print(" ".join(f"{word} {count}" for word, count in sorted(total.items())))
    return 1 if failed else 0


if __name__ == "__main__":
    sys.exit(main())
