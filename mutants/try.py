#!/usr/bin/env python3
"""Tries the mutants that the gate does not try.

    python3 mutants/try.py [CRATE ..]

A mutant is an edit of a crate's source: a mistake that someone could make, which the prover has to refuse. Each is a check of its crate, so `./test` tries those of
`crates/*/must-fail` alone, and this script the others too, `mutants/CRATE/*.edit`: of all crates, or of those that are named. Run it for a crate whose code, contracts or
definitions have changed: in a copy of the repository each crate is checked as it stands, over what this machine keeps of earlier checks, and then `rt must-fail` tries its edits. It is given a few
at a time, since it tells what it found when all that it was given are tried: so each verdict is printed soon after it is known.

A body that is refused can still say nothing: because the only errors are in a proof file, which names a call, a loop or a variable that the edit took away, and none is of a contract. Those are listed at
the end, with the edits that could not be applied, read or tried, with those of crates that are not proved as they stand, and with the bodies that are proved. The last lines say how many of each there
are. The status is 1 where there is one that counts for nothing, or where the run itself fails: such an edit is rewritten, so that it keeps the names and changes a value, or it goes.
"""
import collections
import pathlib
import re
import shutil
import subprocess
import sys
import tempfile

HERE = pathlib.Path(__file__).resolve().parent
TOP = HERE.parent

# How many edits are tried at a time: two for each of four processors, so that the check of the crate before them does not cost more than they do.
AT_ONCE = 8

# What `rt must-fail` says of one edit, after `must-fail CRATE/NAME.edit: `, and what that comes to: the first that it begins with.
TOLD = re.compile(r"must-fail (\S+\.edit): (.*)")
REFUSED = "refused by what is proved"
NOT_TOLD = "not tried"
FINDINGS = {
    "refused, as it must be (only because a proof file": "refused, but only because a proof file names what the edit took away",
    "refused, as it must be (only by a limit": "refused, but only by a limit of the prover",
    "refused, as it must be": REFUSED,
    "NOT REFUSED": "proved",
    "BAD EDIT": "not applied or not read",
    "NOT TRIED": NOT_TOLD,
}


def crates():
    """The crates that have mutants here."""
    return sorted(path.name for path in HERE.iterdir() if path.is_dir() and any(path.glob("*.edit")))


def lay_out(room):
    """A copy of the sources."""
    asked = ["git", "ls-files", "-co", "--exclude-standard", "crates", "crates.txt", "HANDLES"]
    for name in subprocess.run(asked, cwd=TOP, capture_output=True, text=True, check=True).stdout.splitlines():
        if (TOP / name).is_file():
            (room / name).parent.mkdir(parents=True, exist_ok=True)
            shutil.copyfile(TOP / name, room / name)
    # (the toolchain looks for the top of a repository)
    (room / ".git").mkdir()


def edits_of(name):
    """The crate's edits: those of the gate, and the others."""
    return sorted([*(TOP / "crates" / name / "must-fail").glob("*.edit"), *(HERE / name).glob("*.edit")], key=lambda path: path.name)


def is_proved(room, name):
    """Checks the crate as it stands: all that is said of it is printed where it is not proved."""
    ran = subprocess.run(["rt", "check"], cwd=room / "crates" / name, stdout=subprocess.PIPE, stderr=subprocess.STDOUT, text=True, errors="replace", check=False)
    if ran.returncode:
        print(ran.stdout, end="")
        print(f"{name}: not proved as it stands, so none of its mutants is tried", flush=True)
    return not ran.returncode


def try_some(room, name, edits):
    """Tries these edits of the crate and prints what is said of each. What each comes to, by its name, and whether the run was well."""
    place = room / "crates" / name / "must-fail"
    shutil.rmtree(place, ignore_errors=True)
    place.mkdir()
    for edit in edits:
        shutil.copyfile(edit, place / edit.name)
    found = {f"{name}/{edit.name}": NOT_TOLD for edit in edits}
    ran = subprocess.Popen(["rt", "must-fail", name], cwd=room, stdout=subprocess.PIPE, stderr=subprocess.STDOUT, text=True, errors="replace")
    for line in ran.stdout:
        print(line, end="", flush=True)
        told = TOLD.search(line)
        if told:
            found[told[1]] = next((finding for begin, finding in FINDINGS.items() if told[2].startswith(begin)), NOT_TOLD)
    return found, not ran.wait()


def try_all(room, names):
    """Tries the edits of these crates. What each comes to, by its name, and whether each run was well."""
    found, is_well = {}, True
    for name in names:
        edits = edits_of(name)
        if not is_proved(room, name):
            found.update({f"{name}/{edit.name}": NOT_TOLD for edit in edits})
            continue
        for at in range(0, len(edits), AT_ONCE):
            some, well = try_some(room, name, edits[at : at + AT_ONCE])
            found.update(some)
            is_well = is_well and well
    return found, is_well


def main():
    if any(word in ("-h", "--help") for word in sys.argv[1:]):
        print(__doc__.strip())
        return 0
    names = sys.argv[1:] or crates()
    absent = [name for name in names if name not in crates() or not (TOP / "crates" / name).is_dir()]
    if absent:
        print(f"no such crate, or no mutants of it here: {', '.join(absent)}", file=sys.stderr)
        return 2
    with tempfile.TemporaryDirectory(prefix="mutants-") as place:
        room = pathlib.Path(place)
        lay_out(room)
        found, is_well = try_all(room, names)
    idle = {edit: finding for edit, finding in found.items() if finding != REFUSED}
    for finding in dict.fromkeys(idle.values()):
        print(f"{finding}:")
        for edit in idle:
            if idle[edit] == finding:
                print(f"    {edit}")
    print(f"{len(found)} mutants")
    for finding, count in collections.Counter(found.values()).most_common():
        print(f"    {count} {finding}")
    return 1 if idle or not is_well else 0


if __name__ == "__main__":
    sys.exit(main())
