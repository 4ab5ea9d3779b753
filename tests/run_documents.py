#!/usr/bin/env python3
"""Runs every command that a document shows, and compares what is printed with what the document shows; and each example that `--help` gives.

    python3 tests/run_documents.py [DOCUMENT ..]

A command is a line `    $ ..` of a document; the lines behind it, as far as they are set in, are what it prints, on the output
and then on standard error. A line `..` stands for lines that are left out. Commands run in a folder of their own, with copies
of the examples, and with `./otbench` a link to the repository's, which runs the proved program alone; with OTBENCH_NEEDS_PROVED=0 it
may be another one.
An example of a subcommand's help has to end with status 0. Where documents are named, these alone are looked at.
The last line says how many there were and how many differed; the status is 1 where one did.
"""
import os
import pathlib
import re
import shutil
import subprocess
import sys
import tempfile

from words import given

TOP = pathlib.Path(__file__).resolve().parent.parent
LINKED = ["otbench", "dist", "package.json", "viewer", "recorder", "conformance", "bench", "oracle"]


def documents():
    """The documents of the repository that show commands."""
    return [path for path in sorted(TOP.glob("**/*.md")) if "out" not in path.parts and ".git" not in path.parts]


def commands(path):
    """Each command of a document: its line, the command, and the lines that are shown of it."""
    found, is_open = [], False
    for number, line in enumerate(path.read_text(encoding="utf-8").split("\n"), 1):
        if line.startswith("    $ "):
            found.append((number, line[6:], []))
            is_open = True
        elif is_open and line.startswith("    "):
            found[-1][2].append(line[4:])
        else:
            is_open = False
    return found


def is_shown(shown, printed):
    """Whether the lines are those that are shown, `..` standing for any number of lines."""
    if not shown:
        return not printed
    if shown[0].strip() == "..":
        return any(is_shown(shown[1:], printed[at:]) for at in range(len(printed) + 1))
    return bool(printed) and shown[0] == printed[0] and is_shown(shown[1:], printed[1:])


def run(command, folder):
    """What a command prints, as lines."""
    ran = subprocess.run(["sh", "-c", command], cwd=folder, capture_output=True, timeout=600)
    said = (ran.stdout + ran.stderr).decode("utf-8", "replace")
    return re.sub(r"\n\Z", "", said).split("\n") if said else []


def help_of(words, folder):
    """What the program's help says, as lines."""
    ran = subprocess.run(["./otbench", *words, "--help"], cwd=folder, capture_output=True, timeout=600)
    return ran.stdout.decode("utf-8").split("\n")


def examples(folder):
    """The example that each subcommand's help gives, if it gives one."""
    lines = help_of([], folder)
    commands = lines[lines.index("Commands:") + 1:]
    for name in (line.split()[0] for line in commands[:commands.index("")] if line.split()[0] != "help"):
        found = [line.split(":", 1)[1].strip() for line in help_of([name], folder) if line.startswith("Example:")]
        yield name, found[0] if found else None


def helps(folder):
    """How many examples of the help end well, and how many do not."""
    passed = failed = 0
    for name, command in examples(folder):
        ran = command and subprocess.run(["sh", "-c", re.sub(r"\botbench\b", "./otbench", command)], cwd=folder, capture_output=True, timeout=600)
        if ran and ran.returncode == 0 and not ran.stderr:
            passed += 1
            continue
        failed += 1
        print(f"otbench {name} --help: {command}: {ran.stderr.decode('utf-8', 'replace') if ran else 'no example'}")
    return passed, failed


def main():
    asked = given(__doc__, sys.argv[1:] if all(pathlib.Path(word).is_file() for word in sys.argv[1:]) else ())
    os.environ.setdefault("OTBENCH_NEEDS_PROVED", "1")
    if subprocess.run([TOP / "otbench", "--which"], stdout=subprocess.DEVNULL).returncode:
        return 1
    paths = [pathlib.Path(word).resolve() for word in asked] or documents()
    passed = failed = 0
    with tempfile.TemporaryDirectory(prefix="documents-") as folder:
        shutil.copytree(TOP / "examples", f"{folder}/examples")
        for name in LINKED:
            if (TOP / name).exists():
                pathlib.Path(folder, name).symlink_to(TOP / name)
        for path in paths:
            for number, command, shown in commands(path):
                printed = run(command, folder)
                if is_shown(shown, printed):
                    passed += 1
                    continue
                failed += 1
                print(f"{path.relative_to(TOP)}:{number}: {command}")
                print("  shown:   " + "\n           ".join(shown))
                print("  printed: " + "\n           ".join(printed[:20]))
        if not asked:
            good, bad = helps(folder)
            passed, failed = passed + good, failed + bad
    print(f"documents: {passed} passed, {failed} failed")
    return 1 if failed or not passed else 0


if __name__ == "__main__":
    sys.exit(main())
