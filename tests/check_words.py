#!/usr/bin/env python3
"""Says where documents and comments use words that docs/GLOSSARY.md replaces.

    python3 tests/check_words.py

Looked through are the documents (`*.md`), but for CHANGELOG.md and the glossary itself, and the comments of the sources below FOLDERS: what stands behind `//` or `--`
in a proved source, and all lines of a script. Left out are what stands between backquotes, and in documents what is set in as a command's output. A phrase is
found across the end of a line too. The last line says how many documents and sources there are and how many words were found; the status is 1 where one was.
"""
import bisect
import pathlib
import re
import subprocess
import sys

from words import given

TOP = pathlib.Path(__file__).resolve().parent.parent
# What is not said, and what is said in its place.
FORBIDDEN = {
    r"wants? of memory|memory(?: [\w']+){0,6} (?:is|was|were|be|been) wanting": "out of memory",
    r"(?:is|are|was|were) wanting": "is missing",
    r"wrong bod(?:y|ies)": "mutant",
    r"leads? back|(?:is|are|was|were) led back": "undo record, restores",
    r"takes? (?:it |them |this |that )?back|took back|taken back|taking back": "undo, restore",
    r"(?<!-)anew": "again, from scratch; rewritten",
    r"carr(?:y|ies|ied|ying) (?:it |them |this |that )?over": "transform",
    r"what waits|operations? that waits?|what (?:a|the|this|its|each) client (?:waits|waited) for": "pending operation",
    r"goes after it|go after it|went after another's": "is transformed against it",
    r"no longer wanted": "no longer needed",
    r"(?:a|the|whole) talk": "command loop",
    r"tells? (?:its|the) caller": "gives its caller",
    r"what (?:every \w+|the type|its type|the type of \w+) keeps": "invariant",
    r"the house": "the code",
}
# What JavaScript has a word for, which comments of proved sources do not speak of.
FORBIDDEN_IN_PROVED = {r"promis(?:e|es|ed)": "ensures; contract, clause"}
FOLDERS = ("crates", "tests", "scripts", "bench", "mutants", "mutants")
# This script has the words itself.
OTHERS = ("CHANGELOG.md", "docs/GLOSSARY.md", "tests/check_words.py")
PROVED = (".rt", ".rt.txt", ".antt")
QUOTED = re.compile(r"`[^`]*`")
COMMENT = re.compile(r"^[^\S\n]*(?://[/!]?|--)(?= |$)(.*)$", re.MULTILINE)


def pattern(words):
    """One expression for all of these, each as a group of its own. A blank is any white space."""
    return re.compile(rf"\b(?:{'|'.join(f'({it})' for it in words)})\b".replace(" ", r"\s+").replace("(?<!-)", "(?<![-_])"), re.IGNORECASE)


EVERYWHERE = pattern(FORBIDDEN), list(FORBIDDEN.values())
PROVED_ONLY = pattern({**FORBIDDEN, **FORBIDDEN_IN_PROVED}), [*FORBIDDEN.values(), *FORBIDDEN_IN_PROVED.values()]


def listed(*patterns):
    names = subprocess.run(["git", "ls-files", *patterns], cwd=TOP, capture_output=True, text=True, check=True).stdout.split("\n")
    return [name for name in names if name and name not in OTHERS and (TOP / name).is_file()]


def blank(match):
    """As many signs, and the same ends of lines, with no word among them."""
    return re.sub(r"[^\n]", "`", match.group())


def comments(text):
    """The comments of a proved source, and the number of the line of each."""
    numbers, texts, line, last = [], [], 1, 0
    for match in COMMENT.finditer(text):
        line += text.count("\n", last, match.start())
        last = match.start()
        # (a phrase goes on in the next line only where that is a comment too)
        if numbers and line > numbers[-1] + 1:
            texts.append(".")
            numbers.append(line - 1)
        texts.append(match[1])
        numbers.append(line)
    return "\n".join(texts), numbers


def found(name, text):
    """Each forbidden word of a document or source: its line, the word, what is said in its place."""
    expression, instead = EVERYWHERE
    numbers = None
    if name.endswith(PROVED):
        expression, instead = PROVED_ONLY
        text, numbers = comments(text)
    elif name.endswith(".md"):
        text = re.sub(r"(?m)^    .*$", "", text)
    if not expression.search(text):
        return
    text = QUOTED.sub(blank, text)
    ends = [it.start() for it in re.finditer("\n", text)]
    for match in expression.finditer(text):
        row = bisect.bisect_left(ends, match.start())
        yield numbers[row] if numbers else row + 1, " ".join(match.group().split()), instead[match.lastindex - 1]


def main():
    given(__doc__)
    count = 0
    documents = listed("*.md")
    sources = listed(*(f"{folder}/*{end}" for folder in FOLDERS for end in (*PROVED, ".py", ".c", ".js", ".sh")), "scripts/*")
    for name in documents + sources:
        for line, word, instead in found(name, (TOP / name).read_text(encoding="utf-8")):
            print(f"{name}:{line}: '{word}': say '{instead}'")
            count += 1
    print(f"words: {len(documents)} documents and {len(sources)} sources, {count} to be replaced")
    return 1 if count or not documents or not sources else 0


if __name__ == "__main__":
    sys.exit(main())
