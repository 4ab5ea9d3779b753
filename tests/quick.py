#!/usr/bin/env python3
"""Builds the unproved program, where it is not there already, and compares it with the proved one on the examples.

    python3 tests/quick.py

A toolchain with which it cannot be built any more, or answers otherwise, is noticed so. What is printed, the faults and the status have
to be the same. The last line says how many runs were the same and how many were not; the status is 1 where one was not.
"""
import os
import pathlib
import subprocess
import sys

from words import given

TOP = pathlib.Path(__file__).resolve().parent.parent
COMMANDS = ["run", "check", "explain", "steps"]


def proved():
    """The proved program. Ends where it is not built of the sources as they are, which `./otbench` says."""
    ran = subprocess.run([TOP / "otbench", "--which"], env={**os.environ, "OTBENCH_NEEDS_PROVED": "1"}, stdout=subprocess.PIPE, text=True, check=False)
    if ran.returncode:
        sys.exit(1)
    return ran.stdout.rstrip("\n")


def answer(program, command, schedule):
    ran = subprocess.run([program, command], input=schedule.read_bytes(), capture_output=True, check=False)
    return ran.returncode, ran.stdout, ran.stderr


def main():
    given(__doc__)
    program, quick, same, others = proved(), TOP / "out/otbench", 0, []
    if subprocess.run([TOP / "scripts/quick_build"], check=False).returncode:
        return 1
    for schedule in sorted((TOP / "examples").glob("*.ots")):
        for command in COMMANDS:
            if answer(program, command, schedule) == answer(quick, command, schedule):
                same += 1
            else:
                others.append(f"{command} < {schedule.relative_to(TOP)}")
    for it in others:
        print(f"{it}: the unproved program answers otherwise than the proved one")
    print(f"unproved program: {same} runs as the proved one's, {len(others)} not")
    return 1 if others or not same else 0


if __name__ == "__main__":
    sys.exit(main())
