"""How many lines the repository has, by kind.

    python3 bench/count_lines.py [COMMIT]

Counted are lines that are not blank, of the files that git has at COMMIT, or that it has now. With a COMMIT a row has both numbers, and today's share of the earlier one.
Code is `crates/*/src` without clauses, contracts are the clauses there, definitions `crates/*/specs`, proofs `crates/*/proofs`; the rest are tests, documents, and the scripts around the program. What a release made (`dist/`)
and the inputs that tests read (texts, images, traces) are left out.
"""
import collections
import pathlib
import re
import subprocess
import sys

TOP = pathlib.Path(__file__).resolve().parent.parent
CLAUSE = re.compile(r"\s*(?:requires|ensures|ghost)\b")
CRATE = re.compile(r"crates/\w+/(src|specs|proofs)/")
KINDS = {"src": "code", "specs": "definitions", "proofs": "proofs"}
SCRIPTS = re.compile(r"\.(?:py|js|mjs|c|css|html|sh)$")
ROWS = ["code", "contracts", "definitions", "proofs", "tests", "scripts", "documents"]


def git(*words):
    return subprocess.run(["git", *words], cwd=TOP, capture_output=True, check=True).stdout


def files(commit):
    """The names and the contents of the files at a commit, or of those that are there now."""
    if commit is None:
        for name in git("ls-files", "-z").decode().split("\0")[:-1]:
            if (TOP / name).is_file():
                yield name, (TOP / name).read_bytes()
        return
    names = git("ls-tree", "-r", "-z", "--name-only", commit).decode().split("\0")[:-1]
    asked = "".join(f"{commit}:{name}\n" for name in names).encode()
    told = subprocess.run(["git", "cat-file", "--batch"], cwd=TOP, input=asked, capture_output=True, check=True).stdout
    at = 0
    for name in names:
        end = told.index(b"\n", at)
        size = int(told[at:end].split()[2])
        yield name, told[end + 1:end + 1 + size]
        at = end + 2 + size


def kind_of(name, content):
    """The row of a file; None where it is not counted."""
    crate = CRATE.match(name)
    if crate:
        return KINDS[crate[1]]
    if name.startswith("dist/"):
        return None
    if re.search(r"(?:^|/)tests?/|_tests\.|\.test\.|\.rt\.txt$|^mutants/|must-fail/", name):
        return "tests" if SCRIPTS.search(name) or name.endswith((".rt.txt", ".edit")) else None
    if name.endswith(".md"):
        return "documents"
    return "scripts" if SCRIPTS.search(name) or content.startswith(b"#!") else None


def count(commit):
    counted = collections.Counter()
    for name, content in files(commit):
        kind = kind_of(name, content)
        if kind is None:
            continue
        lines = [line for line in content.decode("utf-8", "replace").split("\n") if line.strip()]
        clauses = sum(1 for line in lines if CLAUSE.match(line)) if kind == "code" else 0
        counted["contracts"] += clauses
        counted[kind] += len(lines) - clauses
    return counted


def main():
    if len(sys.argv) > 2 or sys.argv[1:2] and sys.argv[1].startswith("-"):
        raise SystemExit(__doc__)
    now = count(None)
    before = count(sys.argv[1]) if sys.argv[1:] else None
    for row in ROWS:
        print(f"{row:12}{now[row]:8,}" if before is None else f"{row:12}{before[row]:8,}{now[row]:8,}{now[row] / before[row]:8.0%}")


if __name__ == "__main__":
    main()
