"""Measures what each part of the gate costs, crate by crate, in processor seconds.

    python3 bench/gate_cost.py [--room FOLDER] [--lanes N] [--only proof,tests,edits] [--limit MINUTES] [CRATE ..]

The gate proves each crate from nothing, proves it once more with its tests where it has some, and checks it once for each must-fail edit, the first
of them from nothing. This script does the same by the gate's own functions (it loads the `rt` that is on the path), each part by itself, with one job where there are others to run beside it,
on a copy of the repository in FOLDER, and counts the processor time of all processes of a part: that is about the same on a machine that is busy with other work.

What was measured is kept in FOLDER/costs.json under a sum of the sources that it depends on: a run that was stopped goes on where it was, and what has not
changed is not measured again. Proofs of the crates below those that were asked for are made where they are missing. With --limit nothing is begun after so
many minutes. A part that fails is printed as such and counts for nothing, and what was not measured is named: the last lines are of the rest alone.

The last lines say what the whole gate costs, and its longest chain: the proofs of a crate and of those below it, and then its edits, which wait for its tests.
"""
import argparse
import functools
import hashlib
import importlib.machinery
import importlib.util
import json
import multiprocessing
import os
import resource
import shutil
import subprocess
import sys
import tempfile
import time
from concurrent.futures import FIRST_COMPLETED, ProcessPoolExecutor, wait

ROOT = os.path.dirname(os.path.dirname(os.path.abspath(__file__)))
PARTS = ("proof", "tests", "edits")
ITSELF = "the crate itself"


def copy_sources(room):
    """Brings the copy to the state of the repository. What was built in the copy stays."""
    asked = ["git", "ls-files", "-co", "--exclude-standard", "crates", "crates.txt", "HANDLES"]
    names = subprocess.run(asked, cwd=ROOT, capture_output=True, text=True, check=True).stdout.split("\n")
    names = {it for it in names if it and os.path.isfile(f"{ROOT}/{it}")}
    for at, folders, files in os.walk(f"{room}/crates"):
        folders[:] = [it for it in folders if it != "out"]
        for name in files:
            if os.path.relpath(f"{at}/{name}", room) not in names:
                os.remove(f"{at}/{name}")
    for name in names:
        os.makedirs(os.path.dirname(f"{room}/{name}"), exist_ok=True)
        shutil.copyfile(f"{ROOT}/{name}", f"{room}/{name}")
    # (the toolchain looks for the top of a repository)
    os.makedirs(f"{room}/.git", exist_ok=True)


@functools.lru_cache(maxsize=None)
def gate():
    """The gate's own functions, for the copy in the present folder."""
    path = shutil.which("rt") or sys.exit("rt is not on the path")
    loader = importlib.machinery.SourceFileLoader("gate", os.path.realpath(path))
    found = importlib.util.module_from_spec(importlib.util.spec_from_loader("gate", loader))
    loader.exec_module(found)
    found.rtlib.Crate, found.Crate.cuts_libraries = found.Crate, True
    found.Crate.allowed = found.handles_of(os.getcwd())
    # (its first call sets a signal's handler, which only the main thread may)
    found.rtlib.guarded()
    return found


@functools.lru_cache(maxsize=None)
def crates():
    found = gate().rtlib.crates_below(os.getcwd())
    return {it.name: it for it in sorted(found, key=lambda it: len(it.below()))}


@functools.lru_cache(maxsize=None)
def sum_of(name, part):
    """A sum of what the part depends on: the crate and those below it, and its edits for their own cost."""
    found = hashlib.sha256()
    for it in [crates()[name], *crates()[name].below()]:
        for at, folders, files in os.walk(it.folder):
            folders[:] = sorted(set(folders) - {"out"} - (set() if part == "edits" and it.name == name else {"must-fail"}))
            for file in sorted(files):
                with open(f"{at}/{file}", "rb") as text:
                    found.update(f"{it.name}/{os.path.relpath(at, it.folder)}/{file}\0".encode() + text.read() + b"\0")
    return found.hexdigest()


def timed(call):
    """The processor seconds that a call's processes used, and whether it went well."""
    before = resource.getrusage(resource.RUSAGE_CHILDREN)
    well = call()
    after = resource.getrusage(resource.RUSAGE_CHILDREN)
    return round(after.ru_utime + after.ru_stime - before.ru_utime - before.ru_stime, 1), bool(well)


def edits_in_turn(crate):
    """Each edit over what the checks of those before it proved, as the gate does; then the crate itself over that."""
    found, edits = {}, gate().edits_of(crate)[0]
    with tempfile.TemporaryDirectory(prefix="gate-cost-") as kept:
        over = kept if len(edits) > 1 else None
        for edit in edits:
            found[os.path.basename(edit)] = timed(lambda: gate().must_fail(crate, edit, ["--jobs", "1"], over)[0])
        if over:
            found[ITSELF] = timed(lambda: not gate().checked(crate, {}, ["--jobs", "1"], over).returncode)
    return found


def measured(name, part, jobs):
    """In a process of its own: what the part's calls used, by what they are of."""
    crate = crates()[name]
    os.makedirs(f"{crate.folder}/out", exist_ok=True)
    with open(os.devnull, "w") as quiet:
        sys.stdout = crate.out = quiet
        try:
            if part == "proof":
                return {part: timed(lambda: not crate.ci(["--jobs", str(jobs)], False))}
            if part == "tests" and crate.has_tests():
                return {part: timed(lambda: not crate.ci(["--jobs", str(jobs)], True) and gate().run(crate, True))}
            return edits_in_turn(crate) if part == "edits" else {}
        except (Exception, SystemExit) as error:
            return {f"{part}: {error!r}": (0.0, False)}
        finally:
            sys.stdout = sys.__stdout__


@functools.lru_cache(maxsize=None)
def size(name):
    """The bytes of a crate's own sources, without its edits: about as its proof costs."""
    found = 0
    for at, folders, files in os.walk(crates()[name].folder):
        folders[:] = [it for it in folders if it not in ("out", "must-fail")]
        found += sum(os.path.getsize(f"{at}/{it}") for it in files)
    return found


@functools.lru_cache(maxsize=None)
def chain_from(name):
    """How much the longest chain has that begins with this crate: itself and what depends on it, by size."""
    return size(name) + max((chain_from(it.name) for it in crates().values() if name in {dep.name for dep in it.below()}), default=0)


def is_known(costs, name, part):
    known = costs.get(f"{name} {part}")
    return known is not None and known["sum"] == sum_of(name, part) and (part != "proof" or os.path.isdir(crates()[name].rlib) or crates()[name].is_program)


def well(found):
    return all(it[1] for it in found.values())


def spare(running, lanes):
    return max(0, lanes - sum(jobs for _, _, jobs in running.values()))


def measure(costs, names, parts, lanes, until, file):
    """Runs what is not known yet, side by side, each part once the proofs below it stand."""
    wanted = [(name, part) for name in names for part in parts]
    below = {it.name for name, _ in wanted for it in crates()[name].below()}
    wanted += [(name, "proof") for name in crates() if name in below and (name, "proof") not in wanted]
    left = sorted((it for it in wanted if not is_known(costs, *it)), key=lambda it: (PARTS.index(it[1]), -chain_from(it[0])))
    stands = {name for name in crates() if is_known(costs, name, "proof") and well(costs[f"{name} proof"]["found"])}
    running = {}
    # (each lane is a process, since processor time is counted by process)
    with ProcessPoolExecutor(lanes, mp_context=multiprocessing.get_context("fork")) as pool:
        while left or running:
            ready = [it for it in left if all(dep.name in stands for dep in crates()[it[0]].below())]
            while ready and spare(running, lanes) and time.time() < until:
                # (a proof that others wait for gets the lanes that would be idle, and two where the longest chain of all waits for it)
                jobs = max(1, spare(running, lanes) // len(ready))
                task = ready.pop(0)
                if task[1] == "proof" and chain_from(task[0]) >= max((chain_from(name) for name, part in left if part == "proof"), default=0):
                    jobs = max(jobs, min(2, lanes))
                left.remove(task)
                running[pool.submit(measured, *task, jobs)] = (*task, jobs if task[1] != "edits" else 1)
            if not running:
                return
            for it in wait(running, return_when=FIRST_COMPLETED).done:
                name, part, _ = running.pop(it)
                found = it.result()
                costs[f"{name} {part}"] = {"sum": sum_of(name, part), "found": found}
                if part == "proof" and well(found):
                    stands.add(name)
                with open(f"{file}.part", "w") as text:
                    json.dump(costs, text, indent=1)
                os.replace(f"{file}.part", file)
                print(f"{name}: {part}: {sum(it[0] for it in found.values()):.1f} s{'' if well(found) else ', FAILED'}", flush=True)


def spent_on(costs, name, part, lacking):
    """The seconds of what went well, by what they are of."""
    if not is_known(costs, name, part):
        lacking.append(f"{name} {part}")
        return {}
    found = costs[f"{name} {part}"]["found"]
    lacking += [f"{name} {it} (failed)" for it in found if not found[it][1]]
    return {it: found[it][0] for it in found if found[it][1]}


def table(costs):
    total, lacking, proof, chain = 0.0, [], {}, ("", 0.0)
    print(f"\n{'crate':18}{'proof':>8}{'tests':>8}{'edits':>8}{'number':>8}  the dearest edit but the first")
    for name, crate in crates().items():
        spent = {part: spent_on(costs, name, part, lacking) for part in PARTS}
        cost = {part: sum(spent[part].values()) for part in PARTS}
        total += sum(cost.values())
        before = max((proof[it.name] for it in crate.below()), default=0.0)
        proof[name] = before + cost["proof"]
        chain = max(chain, (name, before + max(cost["proof"], cost["tests"]) + cost["edits"]), key=lambda it: it[1])
        edits = [(seconds, it) for it, seconds in spent["edits"].items() if it != ITSELF]
        seconds, dearest = max(edits[1:], default=(0.0, ""))
        print(f"{name:18}{cost['proof']:8.1f}{cost['tests']:8.1f}{cost['edits']:8.1f}{len(edits):8}  {dearest} {seconds or ''}")
    print(f"\n{'what was measured' if lacking else 'the whole gate'}: {total / 60:.1f} processor minutes; the longest chain, that of {chain[0]}: {chain[1] / 60:.1f} minutes")
    if lacking:
        print(f"not in these figures: {', '.join(lacking)}")
    return 1 if lacking else 0


def main():
    asks = argparse.ArgumentParser(description=__doc__, formatter_class=argparse.RawDescriptionHelpFormatter)
    asks.add_argument("--room", default=f"{tempfile.gettempdir()}/gate-cost")
    asks.add_argument("--lanes", type=int, default=1)
    asks.add_argument("--only", default=",".join(PARTS))
    asks.add_argument("--limit", type=float, default=float("inf"))
    asks.add_argument("crates", nargs="*")
    asked = asks.parse_args()
    room = os.path.abspath(asked.room)
    copy_sources(room)
    os.chdir(room)
    absent = [it for it in asked.crates if it not in crates()]
    if absent:
        sys.exit(f"no such crate: {', '.join(absent)}")
    file = f"{room}/costs.json"
    costs = json.load(open(file)) if os.path.isfile(file) else {}
    parts = [it for it in PARTS if it in asked.only.split(",")]
    measure(costs, asked.crates or list(crates()), parts, asked.lanes, time.time() + 60 * asked.limit, file)
    return table(costs)


if __name__ == "__main__":
    sys.exit(main())
