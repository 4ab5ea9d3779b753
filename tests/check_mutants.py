#!/usr/bin/env python3
"""Says which mutants do not apply, and where documents count them wrongly.

    python3 tests/check_mutants.py

A mutant, `crates/NAME/must-fail/*.edit` or `mutants/NAME/*.edit`, names files of the crate NAME, and for each a text that goes and the text in its place. A text that goes has to stand
in its file exactly once, and no two mutants may make the same change. README.md and docs/TESTING.md have to say how many there are. Nothing is proved here: `rt must-fail` and `mutants/try.py` try whether the prover refuses them.
The last line says how many there are and how much was found; the status is 1 where something was, or where no mutant is there.
"""
import pathlib
import re
import sys

from words import given

TOP = pathlib.Path(__file__).resolve().parent.parent
LINE = re.compile(r"^(file|old|new): ?(.*)$", re.MULTILINE)
# Where documents count mutants, and the folders of those that they count.
COUNTED = [
    ("README.md", r"(\d+) mutants", ("crates", "mutants")),
    ("docs/TESTING.md", r"\| mutants, each run \| (\d+) \|", ("crates",)),
    ("docs/TESTING.md", r"\| mutants, on demand \| (\d+) \|", ("mutants",)),
    ("docs/TESTING.md", r"\| mutants that apply, each once \| (\d+) \|", ("crates", "mutants")),
]


def mutants():
    """Each mutant's path and the folder of its crate."""
    for path in sorted(TOP.glob("crates/*/must-fail/*.edit")):
        yield path, path.parent.parent
    for path in sorted(TOP.glob("mutants/*/*.edit")):
        yield path, TOP / "crates" / path.parent.name


def changed(text, crate):
    """The files that an edit changes, each as it was and as it is then. A `ValueError` says why it cannot be applied."""
    file, old, files = None, None, {}
    for key, value in LINE.findall(text):
        if key == "file":
            file = crate / value
            if not file.is_file():
                raise ValueError(f"names {value}, which is not there")
            source = file.read_text(encoding="utf-8")
            files.setdefault(file, [source, source])
        elif file is None or (key == "new") == (old is None):
            raise ValueError(f"has a line '{key}:' in the wrong place")
        elif key == "old":
            old = value
        else:
            count = files[file][1].count(old)
            if count != 1:
                raise ValueError(f"names a text that {file.relative_to(crate)} has {count} times: {old}")
            files[file][1], old = files[file][1].replace(old, value), None
    if old is not None or all(was == new for was, new in files.values()):
        raise ValueError("changes nothing")
    return tuple((str(path), new) for path, (_, new) in sorted(files.items()))


def miscounted():
    """Where a document counts mutants, and their number is another."""
    folders = [path.relative_to(TOP).parts[0] for path, _ in mutants()]
    for name, words, counted in COUNTED:
        count = sum(it in counted for it in folders)
        said = re.search(words, (TOP / name).read_text(encoding="utf-8"))
        if said is None or int(said.group(1)) != count:
            yield f"{name}: there are {count} mutants in {' and '.join(counted)}"


def main():
    given(__doc__)
    seen, count, wrong = {}, 0, 0
    for path, crate in mutants():
        count += 1
        try:
            made = changed(path.read_text(encoding="utf-8"), crate)
            if made in seen:
                raise ValueError(f"makes the change of {seen[made].relative_to(TOP)}")
            seen[made] = path
        except ValueError as error:
            wrong += 1
            print(f"{path.relative_to(TOP)}: {error}")
    for finding in miscounted():
        wrong += 1
        print(finding)
    print(f"mutants: {count}, {wrong} findings")
    return 1 if wrong or not count else 0


if __name__ == "__main__":
    sys.exit(main())
