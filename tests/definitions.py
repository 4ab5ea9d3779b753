#!/usr/bin/env python3
"""The definitions that a contract reaches, and what the documents say of them.

    python3 tests/definitions.py                     # where the documents say otherwise
    python3 tests/definitions.py --write             # writes what they should say into them
    python3 tests/definitions.py ot_serve serve      # what that contract reaches: each definition, where it stands, its lines

A contract is the `requires` and `ensures` of a public function in `crates/*/src`, or the invariant of a public type. It reaches the definitions in `crates/*/specs`
that its clauses name, by the `ghost use` lines of its file, and those that these name in turn. Counted are the lines of a definition, with neither comments nor blank lines.
What the standard library defines is named and not counted.

Written are:

    README.md              the files of the table and their lines; its rows in the order of `PARTS`
    docs/PROOFS.md         the lines of each claim, the main theorem first; the ported crates that `crates.txt` names
    docs/DEFINITIONS.md    the files of a row, which are those of the definitions that it names; the order of a table's rows, and of the numbered sections
    each of them           the number before "lines of definitions"

The words of a row are people's, and stay with their row. Rows stand by crates, the lowest first, and none before one that it uses; else as the contracts of PROOFS reach them.
"""
import difflib
import functools
import re
import sys

from contracts import TOP, Crates, Item, Unknown

CLAIMS = "| Claim | Contract of | Lines | Beyond the first |"
FILES = "| File | Lines | What it defines |"
DEFINED = "| File | Definitions | In words |"
TOTAL = re.compile(r"\d+(?= lines of definitions)")
NUMBERED = re.compile(r"### (\d+)\.")
CRATE = re.compile(r"`\w+`: (?:the type )?`")
FILE = re.compile(r"`((?:\w+/specs/)?\w+\.antt)`")
NAME = re.compile(r"`([^`]+)`")
PORTED = re.compile(r"(?<=The ported crates that `crates\.txt` names: )`\w+`(?:, `\w+`)*")
# The rows of README's table: the crates, or the files of a crate, of which each has those that the main theorem reaches.
PARTS = (
    ("ot_operation/Operation", "ot_operation/Run", "ot_model/Operation"),
    ("ot_operation/Compose", "ot_operation/Merge"),
    ("ot_client", "ot_server"),
    ("ot_isa",),
    ("ot_model/Table",),
    ("ot_machine", "ot_debug"),
    ("ot_model/Part", "ot_model/Session", "ot_board"),
    ("ot_json", "streams", "ot_asm"),
    ("ot_image",),
)


def cells_of(line):
    """The cells of a table's row."""
    return [it.strip() for it in re.split(r"(?<!\\)\|", line)[1:-1]]


def row_of(cells):
    return f"| {' | '.join(cells)} |".replace("|  |", "| |")


def tables(lines, head):
    """Where the rows of each table with this head begin and end."""
    for at, line in enumerate(lines):
        if line == head:
            end = at + 2
            while lines[end : end + 1] and lines[end].startswith("|"):
                end += 1
            yield at + 2, end


def file_of(item):
    _, crate, _, name = item.module.split(".")
    return f"{crate}/specs/{name}.antt"


def lines_of(items):
    """How many lines the definitions of each file have."""
    counts = {}
    for it in items:
        counts[file_of(it)] = counts.get(file_of(it), 0) + it.lines
    return counts


def files_in(text):
    """The files that a line names, where one without a folder lies in that of the one before it."""
    folder, found = "", []
    for name in FILE.findall(text):
        folder = name.rpartition("/")[0] if "/" in name else folder
        found.append(f"{folder}/{name.rpartition('/')[2]}")
    return found


def named(files):
    """The cell that names these files: `files_in` gives them back."""
    before = [None, *(it.rpartition("/")[0] for it in files)]
    return ", ".join(f"`{it.rpartition('/')[2] if it.rpartition('/')[0] == folder else it}`" for it, folder in zip(files, before))


CITED = re.compile(r"(private of )?`([^`]+)`(:?)|([()])")


def cited(cell, crates):
    """What a cell of docs/PROOFS.md cites: (crate, whether it is private there, name, names in the brackets behind it)."""
    crate, private, inside, found = None, False, False, []
    for hidden, name, colon, bracket in CITED.findall(cell):
        if bracket:
            inside = bracket == "("
        elif colon and name in crates:
            crate, private = name, bool(hidden)
        elif inside and found:
            found[-1][3].append(name)
        else:
            found.append((crate, private, name, []))
    return found


def in_order(things, uses, place):
    """The things in the order of their places, but none before one that it uses; and those that use one another in a circle."""
    left, order = sorted(things, key=place), []
    while left:
        free = next((it for it in left if not uses(it) & set(left) - {it}), None)
        if free is None:
            return order + left, left
        left.remove(free)
        order.append(free)
    return order, []


def part_of(file):
    """The row of README's table that a file belongs to, or None."""
    crate, _, name = file.removesuffix(".antt").split("/")
    return next((at for at, part in enumerate(PARTS) if crate in part or f"{crate}/{name}" in part), None)


@functools.lru_cache(maxsize=4)
class Reading:
    """The order in which files are to be read, and which file has a definition."""

    def __init__(self, crates, contracts):
        library, self.homes, self.used = crates.library, {}, {}
        for module in library.modules.values():
            for name, item in {**module.owners, **module.items}.items():
                self.homes.setdefault(name, []).append(file_of(item))
        everything = [item for module in library.modules.values() for item in module.items.values()]
        reached = library.closure(crates.reached(contracts)[0] + everything)[0]
        last = {file_of(it): at for at, it in enumerate(reached)}
        for it in reached:
            self.used.setdefault(file_of(it), set()).update(file_of(used) for used in library.uses(it) if isinstance(used, Item))
        self.place = {file: at for at, file in enumerate(in_order(last, self.used.get, lambda it: (crates.place(it.split("/")[0]), last[it]))[0])}

    def sort(self, files):
        return sorted(files, key=lambda it: self.place.get(it, 0))

    def files(self, names, here, elsewhere):
        """The files that have the definitions of these names, and the names of which it is not known; some files stand `here`, others `elsewhere`."""
        found, unknown = set(), list(names)
        for again in (False, False, True, True):
            near = {*here, *found}
            crates = {it.split("/")[0] for it in near}
            for name in list(unknown):
                homes = self.homes.get(name, [])
                beside = [it for it in homes if it.split("/")[0] in crates]
                tried = [[it for it in homes if it in near], homes, beside] + [[it for it in homes if it not in elsewhere]] * again
                homes = next((it for it in tried if len(it) == 1 or it and it is tried[0]), [])
                found.update(homes)
                if homes:
                    unknown.remove(name)
        return self.sort(found), unknown

    def has(self, names, files):
        """Whether each of these names is that of a definition in one of these files."""
        return all(set(self.homes.get(name, [])) & set(files) for name in names)


class Documents:
    """What the documents say of definitions, and what they should say."""

    def __init__(self, crates, top=TOP):
        self.crates, self.top, self.by_hand, self.texts, self.cited = crates, top, [], {}, {}
        self.readme, self.proofs, self.page = "README.md", "docs/PROOFS.md", "docs/DEFINITIONS.md"
        for path in sorted([*top.glob("*.md"), *top.glob("docs/*.md")]):
            if path.name != "CHANGELOG.md":
                self.texts[str(path.relative_to(top))] = path.read_text(encoding="utf-8")
        self.read = dict(self.texts)

    def tell(self, name, finding):
        """What only people can mend."""
        self.by_hand.append(f"{name}: {finding}")

    def lines(self, name):
        return self.texts[name].split("\n")

    def tables(self, name, head):
        """Where the rows of each table with this head begin and end. A document without one, or a row with other cells, is not understood."""
        lines = self.lines(name)
        found = list(tables(lines, head))
        if not found and head != DEFINED:
            raise Unknown(f"{name} has no table with the head {head}")
        for at in (at for start, end in found for at in range(start, end)):
            if len(cells_of(lines[at])) != len(cells_of(head)):
                raise Unknown(f"{name}: line {at + 1} has {len(cells_of(lines[at]))} cells, where the head of its table has {len(cells_of(head))}: {lines[at]}")
        return found

    def put(self, name, lines):
        self.texts[name] = "\n".join(lines)

    def findings(self):
        """Each place where a document is another than the one that is written."""
        for name, text in self.texts.items():
            old, new = self.read[name].split("\n"), text.split("\n")
            for kind, start, end, at, to in difflib.SequenceMatcher(None, old, new, autojunk=False).get_opcodes():
                if kind == "replace" and end - start == to - at:
                    yield from (f"{name}: line {start + it + 1} should be: {new[at + it]}" for it in range(to - at) if old[start + it] != new[at + it])
                elif kind != "equal":
                    yield from (f"{name}: line {it + 1} should not stand here: {old[it]}" for it in range(start, end))
                    yield from (f"{name}: behind line {end} should stand: {new[it]}" for it in range(at, to))

    def contracts(self, name, cell):
        """The contracts that a cell cites. What it cites and is not there, or is not public, is a finding."""
        if cell in self.cited:
            return self.cited[cell]
        found = self.cited[cell] = []
        for crate, private, cited_name, labels in cited(cell, self.crates.sources):
            contracts = self.crates.contracts(crate, cited_name, private)
            if not contracts and not self.crates.is_type(crate, cited_name):
                self.tell(name, f"{crate} has no {'private' if private else 'public'} function or type {cited_name} with clauses")
            known = {it for contract in contracts for it in contract.labels()} | {it.name for it in self.crates.reached(contracts)[0]}
            for label in labels:
                if label not in known and not self.crates.is_type(None, label):
                    self.tell(name, f"{cited_name} of {crate} has no clause and names no definition {label}")
            found += contracts
        return found

    def claims(self):
        """Each claim with the lines of the definitions that it reaches, and of those that the main theorem does not. The theorem's row is the first."""
        lines, first = self.lines(self.proofs), None
        start, end = self.tables(self.proofs, CLAIMS)[0]
        lines[start:end] = sorted(lines[start:end], key=lambda it: "`main_theorem`" not in cells_of(it)[1])
        for at in range(start, end):
            cells = cells_of(lines[at])
            items = self.crates.reached(self.contracts(self.proofs, cells[1]))[0]
            first = items if first is None else first
            beyond = [it for it in items if it not in first]
            lines[at] = row_of([*cells[:2], str(sum(it.lines for it in items)), str(sum(it.lines for it in beyond))])
        self.put(self.proofs, lines)
        self.texts[self.proofs] = PORTED.sub(", ".join(f"`{it}`" for it in self.crates.ported()), self.texts[self.proofs])
        return first

    def files(self, items):
        """The README's table: each file that the main theorem reaches, with the lines of its definitions that it reaches."""
        counts, lines, parts = lines_of(items), self.lines(self.readme), {}
        start, end = self.tables(self.readme, FILES)[0]
        for file in self.reading.sort(counts):
            parts.setdefault(part_of(file), []).append(file)
        for file in parts.pop(None, []):
            self.tell(self.readme, f"the main theorem reaches {counts[file]} lines of {file}, which `PARTS` of tests/definitions.py gives no row")
        rows, others = {}, []
        for at in range(start, end):
            listed, words = set(files_in(cells_of(lines[at])[0])), cells_of(lines[at])[2]
            part = max(parts, key=lambda it: len(set(parts[it]) & listed), default=None)
            if part in rows or not set(parts.get(part, [])) & listed:
                others.append((at, words))
            else:
                rows[part] = words
        if len(others) == len(set(parts) - set(rows)) == 1:
            rows[min(set(parts) - set(rows))] = others.pop()[1]
        for at, _ in others:
            self.tell(self.readme, f"line {at + 1} names no file that the main theorem reaches, or those of another row: {lines[at]}")
        if others:
            return
        for part in set(parts) - set(rows):
            self.tell(self.readme, f"the main theorem reaches {', '.join(parts[part])}: write a row with these files, and with words of what they define")
        lines[start:end] = [row_of([named(parts[it]), str(sum(counts[file] for file in parts[it])), rows[it]]) for it in sorted(rows)]
        self.put(self.readme, lines)

    def total(self, items):
        for name, text in self.texts.items():
            self.texts[name] = TOTAL.sub(str(sum(it.lines for it in items)), text)

    def sections(self):
        """The numbered sections of docs/DEFINITIONS.md, in the order of their numbers."""
        lines = self.lines(self.page)
        starts = [at for at, line in enumerate(lines) if NUMBERED.match(line)]
        ends = [next((it for it in range(at + 1, len(lines)) if lines[it].startswith(("## ", "### "))), len(lines)) for at in starts]
        if starts:
            blocks = sorted((lines[at:end] for at, end in zip(starts, ends)), key=lambda it: int(NUMBERED.match(it[0])[1]))
            lines[starts[0] : ends[-1]] = [line for block in blocks for line in block]
        self.put(self.page, lines)

    def rows(self):
        """The rows of the tables of docs/DEFINITIONS.md: each with its files, which are those of the definitions that it names, and in their order."""
        lines = self.lines(self.page)
        elsewhere = {file for line in lines for file in files_in(line)}
        owned = {file for line in lines if not line.startswith("|") for file in files_in(line)}
        for start, end in self.tables(self.page, DEFINED):
            made = []
            for at in range(start, end):
                cells = cells_of(lines[at])
                if made and not cells[0] and self.reading.has(NAME.findall(cells[1]), made[-1][0]):
                    made[-1][1].append(lines[at])
                else:
                    made.append(self.row(at, lines[at], elsewhere))
            owner = {}
            for at, (files, _) in enumerate(made):
                for file in files:
                    if file not in owned:
                        owned.add(file)
                        owner[file] = at
            lines[start:end] = self.sorted_rows(start, made, owner)
        self.put(self.page, lines)

    def row(self, at, line, elsewhere):
        """The files of a row, and its line. The rows below it without files go on with it if they name definitions of these files."""
        cells = cells_of(line)
        here = files_in(cells[0])
        files, unknown = self.reading.files(NAME.findall(cells[1]), here, elsewhere)
        if unknown or not files:
            self.tell(self.page, f"line {at + 1} names {', '.join(unknown) or 'nothing'}: of which file? Its first cell has to say it")
            return self.reading.sort(here), [line]
        return files, [row_of([named(files), *cells[1:]])]

    def sorted_rows(self, start, made, owner):
        mine = [[file for file in files if owner.get(file) == at] or files for at, (files, _) in enumerate(made)]
        uses = [{owner[used] for file in files for used in self.reading.used.get(file, ()) if used in owner} for files in mine]
        highest = [max((self.crates.place(it.split("/")[0]) for it in files), default=0) for files in mine]
        place = [(highest[at], min((self.reading.place.get(it, 0) for it in files), default=0)) for at, files in enumerate(mine)]
        order, circle = in_order(range(len(made)), uses.__getitem__, place.__getitem__)
        for at in circle:
            self.tell(self.page, f"the row of {named(made[at][0])}, below line {start}, uses another and is used by it: they have to be one row, or their files others")
        return [line for at in order for line in made[at][1]]

    def places(self, items, first):
        """docs/DEFINITIONS.md names each file that a contract of docs/PROOFS.md reaches. Within a section, and among the files of the main theorem, none stands before
        one that it uses."""
        place, section = {}, {}
        lines = self.lines(self.page)
        for at, line in enumerate(lines):
            for file in files_in(line):
                if file not in self.reading.place:
                    self.tell(self.page, f"line {at + 1} names {file}, which is no file of definitions")
                place.setdefault(file, len(place))
                section.setdefault(file, sum(it.startswith(("## ", "### ")) and not NUMBERED.match(it) for it in lines[:at]))
        for file in lines_of(items):
            if file not in place:
                self.tell(self.page, f"no row names a definition of {file}, which a contract of PROOFS reaches: name one in a row, or write a row for it")
        main = set(lines_of(first))
        pairs = {(file_of(it), file_of(used)) for it in items for used in self.crates.library.uses(it) if isinstance(used, Item)}
        for file, used in sorted(pairs):
            beside = section.get(file) == section.get(used) or {file, used} <= main
            if file in place and used in place and beside and place[file] < place[used]:
                self.tell(self.page, f"names {file} before {used}, which it uses")

    def compare(self):
        rows = [row for row in self.lines(self.proofs) if row.startswith("| ")]
        contracts = [it for row in rows for cell in row.split(" | ") if CRATE.search(cell) for it in self.contracts(self.proofs, cell.strip())]
        self.reading = Reading(self.crates, tuple(contracts))
        first = self.claims()
        self.files(first)
        self.total(first)
        self.sections()
        self.rows()
        self.places(self.crates.reached(contracts)[0], first)

    def write(self):
        for name, text in self.texts.items():
            if text != self.read[name]:
                (self.top / name).write_text(text, encoding="utf-8")


def listing(crates, crate, name):
    """What a contract reaches, file after file."""
    items, others = crates.reached(crates.contracts(crate, name))
    counts = lines_of(items)
    for file, count in counts.items():
        print(f"{count:5} {file}: {' '.join(it.name for it in items if file_of(it) == file)}")
    declared = sorted({f"{module.split('.')[1]}: {name}" for module, name in others if ".specs.declared." in module and "The" not in module.split(".")[-1]})
    print(f"{sum(counts.values()):5} lines of {len(items)} definitions in {len(counts)} files")
    print(f"      types of the program: {', '.join(declared)}")
    print(f"      of other libraries: {' '.join(sorted({name.replace('◌', '') for module, name in others if '.specs.declared.' not in module}))}")


def main(words, top=TOP):
    crates = Crates(top)
    if any(word in ("-h", "--help") for word in words):
        print(__doc__.strip())
        return 0
    if len(words) == 2 and crates.contracts(*words):
        listing(crates, *words)
        return 0
    if words not in ([], ["--write"]):
        print("no such public function or type, or no such words: python3 tests/definitions.py [--write | CRATE NAME]", file=sys.stderr)
        return 2
    documents = Documents(crates, top)
    try:
        documents.compare()
    except Unknown as error:
        print(f"{error}\ndefinitions: nothing was compared")
        return 1
    findings = list(documents.findings())
    if words == ["--write"]:
        documents.write()
        for finding in documents.by_hand:
            print(finding)
        print(f"definitions: {len(findings)} places written, {len(documents.by_hand)} findings to mend by hand")
        return 1 if documents.by_hand else 0
    for finding in [*findings, *documents.by_hand]:
        print(finding)
    print(f"definitions: {len(findings) + len(documents.by_hand)} findings")
    if findings:
        print(f"python3 tests/definitions.py --write mends {len(findings)} of them")
    return 1 if findings or documents.by_hand else 0


if __name__ == "__main__":
    sys.exit(main(sys.argv[1:]))
