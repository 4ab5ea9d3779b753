#!/usr/bin/env python3
"""Says what linters find in the scripts of the repository.

    python3 tests/lint.py

Python is looked through by pyflakes, but for lines with `# noqa`; JavaScript by node, for its syntax, and by TypeScript's compiler, for names that are not used, not
defined or not exported. In the page nothing reads a text as markup. The crates are in the layout of `rt fmt`, which the gate asks for, and each of their public functions has a caller that is no test, or is a law, or is promised to
those who use the crate as a library. A linter that is not there is reported and left out; `tests/set-up` installs them. The last line says how many files
there are and how much was found; the status is 1 where something was.
"""
import collections
import pathlib
import re
import shutil
import subprocess
import sys

from words import given

TOP = pathlib.Path(__file__).resolve().parent.parent
COMPILER = "tsc --noEmit --allowJs --checkJs --noUnusedLocals --skipLibCheck --target es2022 --module es2022 --moduleResolution node"
# Of a name that is not known, or of a module beside the file; of one that is not exported; of one that is not used.
NAMES = re.compile(r"error TS(?:2304|2552|2307(?=: Cannot find module '\.)|2305|2724|6133|6192|6196|6198|6199): |^\w*Error: ")
NOT_YET_KNOWN = re.compile(r"'(?:Dec|C)ompressionStream'")  # of browsers, by the compiler of Debian 12

# What reads a text as markup: the page (common, viewer/src) has none of these.
MARKUP = re.compile(r"innerHTML|outerHTML|insertAdjacentHTML|setHTML|parseHTML|DOMParser|createContextualFragment|srcdoc|execCommand|document\s*\.\s*write")

# Public functions without a caller that users of a crate as a library have: readers, and what a contract of another asks for.
PROMISED = {"apply", "can_share", "disassemble_to", "has_failed", "is_noop", "step_kept", "steps_done", "to_components"}


def listed(*patterns):
    """The repository's files, without those that a release made."""
    names = subprocess.run(["git", "ls-files", *patterns], cwd=TOP, capture_output=True, text=True, check=True).stdout.split("\n")
    return [name for name in names if (TOP / name).is_file() and not name.startswith("dist/")]


def is_python(name):
    with open(TOP / name, "rb") as file:
        return name.endswith(".py") or re.match(rb"#!.*python", file.readline(99)) is not None


def said(linter, *names):
    """What a linter says, line by line."""
    if not shutil.which(linter.split()[0]):
        print(f"lint: without {linter.split()[0]}, which is not there")
        return []
    ran = subprocess.run([*linter.split(), *names], cwd=TOP, capture_output=True, text=True, check=False)
    return [line for line in (ran.stdout + ran.stderr).splitlines() if line.strip()]


def has_noqa(finding):
    at = re.match(r"([^:]+):(\d+):", finding)
    return at is not None and "# noqa" in (TOP / at[1]).read_text(encoding="utf-8").split("\n")[int(at[2]) - 1]


def readers_of_markup(*names):
    """The lines of files that would read a text as markup."""
    lines = ((name, i, line) for name in names for i, line in enumerate((TOP / name).read_text(encoding="utf-8").split("\n"), 1))
    return [f"{name}:{i}: a text would be read as markup: {line.strip()[:100]}" for name, i, line in lines if MARKUP.search(line)]


def out_of_layout(*names):
    """The files of crates that `rt fmt` would change."""
    rattle = shutil.which("rattle")
    if not rattle:
        print("lint: without rattle, which is not there")
        return []
    ran = subprocess.run([rattle, "fmt", "--check", *names], cwd=TOP, capture_output=True, text=True, check=False)
    lines = [line for line in (ran.stdout + ran.stderr).splitlines() if line.strip()]
    return lines or [f"rattle fmt --check ended with status {ran.returncode}"] * (ran.returncode != 0)


def without_caller():
    """The public functions of crates that no code names. A law is a function that does nothing, or stands in a file of laws; a name that several crates have is taken for called where one of them is."""
    sources = {name: re.sub(r"//.*|\b(?:requires|ensures)(?: \w+)? \{.*|\bghost [\w ]+= \{.*", "", (TOP / name).read_text(encoding="utf-8")) for name in listed("crates/*/src/*.rt")}
    bodies = {name: re.sub(r"(?s)\bghost use .*?;|\b(?:pub )?use .*?;", "", text) for name, text in sources.items()}
    uses = collections.Counter(word for text in bodies.values() for word in re.findall(r"(?<!fn )\b[a-z_][a-z0-9_]*\b", text))
    return [
        f"{name}: {function} has no caller"
        for name, text in bodies.items()
        if not re.search(r"laws\.rt$|/ot_theorem/", name)
        for function, nothing in re.findall(r"\bpub fn (\w+)[^{;]*\{(\s*\})?", text)
        if not nothing and not uses[function] and function not in PROMISED
    ]


def main():
    given(__doc__)
    scripts = [name for name in listed("*.py") + listed(":!:*.*") if is_python(name)]
    modules = listed("*.js", "*.mjs")
    findings = [line for line in said("pyflakes3", *scripts) if not has_noqa(line)]
    findings += [line for name in modules for line in said("node --check", name)]
    findings += [line for line in said(COMPILER, *modules) if NAMES.search(line) and not NOT_YET_KNOWN.search(line)]
    findings += out_of_layout(*listed("crates/*.rt", "crates/*.antt"))
    findings += without_caller()
    findings += readers_of_markup(*listed("common", "viewer/src", "viewer/html.mjs"))
    print("".join(f"{line}\n" for line in findings), end="")
    print(f"lint: {len(scripts)} scripts of Python, {len(modules)} of JavaScript, {len(findings)} lines of findings")
    return 1 if findings or not scripts or not modules else 0


if __name__ == "__main__":
    sys.exit(main())
