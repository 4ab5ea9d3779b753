#!/usr/bin/env python3
"""Says which files and names that the documents cite are not there.

    python3 tests/check_names.py

What stands between backquotes in a document and ends as a file does must be the end of some file's path, and so must a file of
definitions or proofs that is named without backquotes, as proofs/NAME.antt. Of all other words
between backquotes in the documents on proofs and definitions, each must stand in a source of the repository. The table
of tests/README.md must have a row for each folder of tests, and must name each crate in some row.
The last line says how many were looked up and how many were not found; the status is 1 where one was not.
"""
import pathlib
import re
import sys

from words import given

TOP = pathlib.Path(__file__).resolve().parent.parent
NAMED = ["README.md", "docs/PROOFS.md", "docs/DEFINITIONS.md", "docs/DECISIONS.md"]
FILE = re.compile(r"^[\w./-]+\.(?:antt|rt|py|js|mjs|c|h|ots|json|img|txt|md|html|edit|svg)$")
BARE = re.compile(r"(?<![\w/`.])(?:proofs|specs)/\w+\.antt")
WORD = re.compile(r"[A-Za-z_][A-Za-z0-9_'-]*")
# What documents cite of other projects and of the toolchain.
ELSEWHERE = {"byteorder", "rattle-kit-13f", "logic", "dac8208d650f15bf", "crates", "CRATE-NAME", "my-driver"}
# What commands of the documents write.
WRITTEN = {"session.html", "smaller.html", "smaller.ots"}
# What stands for a name.
PLACE = re.compile(r"\b(?:CRATE-NAME|FILE|FUNCTION|NAME)\b")


def sources():
    """The files of the repository, but for what was built."""
    for path in sorted(TOP.rglob("*")):
        inside = path.relative_to(TOP)
        if path.is_file() and ".git" not in inside.parts and "out" not in inside.parts:
            yield inside


def untried():
    """Folders of tests that are there or have a row in the table of tests/README.md, but not both; and so with crates that some row names."""
    rows = re.findall(r"^\| `(\w+)` \| (`[^|]*) \|", (TOP / "tests/README.md").read_text(encoding="utf-8"), re.MULTILINE)
    there = {path.name for path in (TOP / "tests").iterdir() if path.is_dir()}
    crates = {line.split(":")[0].split()[0] for line in (TOP / "crates.txt").read_text(encoding="utf-8").splitlines() if line}
    tried = {crate for row in rows for crate in re.findall(r"`(\w+)`", row[1])}
    return sorted(there ^ {row[0] for row in rows}) + sorted(crates ^ tried)


def main():
    given(__doc__)
    files = list(sources())
    ends = {"/".join(path.parts[at:]) for path in files for at in range(len(path.parts))}
    words = set(ELSEWHERE)
    for path in files:
        words.update(WORD.findall(str(path).replace("/", " ").rsplit(".", 1)[0]))
        if path.suffix != ".md":
            words.update(WORD.findall((TOP / path).read_text(encoding="utf-8", errors="replace")))
    looked = missing = 0
    for path in (it for it in files if it.suffix == ".md"):
        for number, line in enumerate((TOP / path).read_text(encoding="utf-8").split("\n"), 1):
            for cited in re.findall(r"`([^`]+)`", line) + BARE.findall(line):
                if FILE.match(cited):
                    unknown = [] if cited.removeprefix("./") in ends | WRITTEN or PLACE.search(cited) else [cited]
                elif str(path) in NAMED and "*" not in cited and ".." not in cited:
                    unknown = [word for word in WORD.findall(cited) if len(word) > 2 and word not in words]
                else:
                    continue
                looked += 1
                missing += len(unknown)
                for word in unknown:
                    print(f"{path}:{number}: not found: {word}")
    for name in untried():
        print(f"tests/README.md: its table and the folders and crates that are there differ: {name}")
        looked, missing = looked + 1, missing + 1
    print(f"names: {looked - missing} passed, {missing} failed")
    return 1 if missing or not looked else 0


if __name__ == "__main__":
    sys.exit(main())
