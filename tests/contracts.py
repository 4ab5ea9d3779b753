"""What the contracts of the repository name: the definitions in `crates/*/specs`, and what these name in turn.

A contract is the `requires` and `ensures` of a function in `crates/*/src`, or the invariant of a type. `Library` has the definitions, `Crates` the contracts. Both read what `rt fmt`
lays out: a definition, a clause and an import begin on a line of their own.
"""
import pathlib
import re

TOP = pathlib.Path(__file__).resolve().parent.parent
TOKEN = re.compile(r"""--[^\n]*|"(?:\\.|[^"\\])*"|\|\||[(){}\[\];,|]|\.(?=\s)|\.|[^\s(){}\[\];,|."]+""")
HEAD = re.compile(r"(?:(?:abbrev|unfoldable)(?: pub)?|pub (data|record)|(pub)) (\S+)(.*)", re.DOTALL)
IMPORT = re.compile(r"(?:unfoldable )?(pub )?use (?:(\S+)\.\{(.*)\}|(\S+) as (\S+))$", re.DOTALL)
OPEN, CLOSE = set("([{"), set(")]}")
# The words of the language, which no file imports.
WORDS = {"record", "elim", "if", "then", "else", "Type", "Unit", "λ", "→", "×", "↦", ":", "=", "_", "tt", "⊥", "where", "pub", "let", "in"}


class Unknown(Exception):
    """A name that is not where a file says."""


def tokens(text):
    return [it for it in TOKEN.findall(text) if not it.startswith(("--", '"'))]


class Item:
    """A definition: where it stands, its parts as texts, its constructors and how many lines it has."""

    def __init__(self, module, name, kind):
        self.module, self.name, self.kind = module, name, kind
        self.parts, self.constructors, self.lines = [], [], 0

    def add(self, text):
        self.parts.append(text)
        self.lines += sum(1 for line in text.split("\n") if line.strip() and not line.strip().startswith("--"))
        if self.kind == "data":
            self.constructors += re.findall(r"^  (\S+) :", text, re.MULTILINE)


class Names:
    """What the names of a file stand for: (module, name) for an imported one, a module for another word for one."""

    def __init__(self):
        self.names, self.modules, self.passed_on = {}, {}, {}

    def add(self, line):
        found = IMPORT.match(" ".join(line.split()))
        if not found:
            raise Unknown(f"an import that is not understood: {line}")
        public, module, listed, whole, word = found.groups()
        if whole:
            self.modules[word] = whole
            return
        for entry in listed.split(","):
            name, _, word = entry.strip().partition(" as ")
            self.names[word or name] = module, name
            if public:
                self.passed_on[word or name] = module, name


def blocks(text):
    """The pieces of a file that begin at the left margin, without comments that stand between them."""
    piece = []
    for line in text.split("\n"):
        if line[:1] not in ("", " ", "-") and piece:
            yield "\n".join(piece)
            piece = []
        if line.strip() and not line.startswith("--"):
            piece.append(line)
    if piece:
        yield "\n".join(piece)


class Module(Names):
    """A file of definitions."""

    def __init__(self, path, name):
        super().__init__()
        self.path, self.name, self.items, self.owners = path, name, {}, {}
        item = None
        for piece in blocks(path.read_text(encoding="utf-8")):
            head = HEAD.match(piece)
            if re.match(r"(?:unfoldable )?(?:pub )?use ", piece):
                self.add(piece)
            elif re.match(r"(?:pub )?mod |infix", piece):
                continue
            elif head:
                item = self.items[head[3]] = Item(name, head[3], head[1] or ("law" if head[2] else "function"))
                item.add(piece)
            elif item.kind != "law":
                item.add(piece)
        self.owners = {it: item for item in self.items.values() for it in item.constructors}


class Scope:
    """Walks over the tokens of a definition or clause, and gives what is named and bound nowhere in it."""

    def __init__(self, library, names, local=None):
        self.library, self.names, self.local, self.found, self.levels = library, names, local, [], [set()]

    def bound(self, name):
        return any(name in level for level in self.levels)

    def target(self, name):
        """What a name stands for: an item, (module, name) of another library, or None."""
        for word in (name, f"◌{name}◌"):
            if self.local and (word in self.local.items or word in self.local.owners):
                return self.local.items.get(word) or self.local.owners[word]
            if word in self.names.names:
                return self.library.find(*self.names.names[word])
        return None

    def is_constructor(self, name):
        it, called = self.target(name), self.names.names.get(name, (None, name))[1]
        if isinstance(it, Item):
            return called in it.constructors
        return it is not None and (not called[0].islower() or called in ("suc", "zero", "true", "false"))

    def use(self, target):
        if target is not None:
            self.found.append(target)

    def pattern(self, words):
        """Binds the variables of a pattern."""
        at = 0
        while at < len(words):
            word = words[at]
            if words[at + 1 : at + 2] == ["."] and word in self.names.modules:
                self.use(self.library.find(self.names.modules[word], words[at + 2]))
                at += 2
            elif self.is_constructor(word):
                self.use(self.target(word))
            elif word[0].isalpha() and word not in WORDS:
                self.levels[-1].add(word)
            at += 1

    def binders(self, words, at):
        """The names before a colon, directly behind an opening bracket."""
        end = at
        while end < len(words) and words[end][0].isalpha() and words[end] not in WORDS:
            end += 1
        return set(words[at:end]) if end > at and words[end : end + 1] == [":"] else set()

    def walk(self, words):
        at = 0
        while at < len(words):
            word, after = words[at], words[at + 1 : at + 2]
            if word in OPEN:
                self.levels[-1] |= self.binders(words, at + 1)
                self.levels.append(set())
            elif word in CLOSE:
                self.levels.pop()
            elif word == "λ" or word == "|":
                at = self.bind(words, at + 1, "." if word == "λ" else "↦", fresh=word == "|")
            elif word == ".":
                at += 1
            elif after != ["="] and word not in WORDS and not self.bound(word):
                at += self.name(word, words[at + 1 : at + 3])
            at += 1

    def bind(self, words, at, end, fresh):
        """Binds what stands up to the sign that ends a list of binders or a pattern, and gives that sign's place."""
        to = at
        while words[to] != end or (end == "." and words[to - 1] in self.names.modules and to > at):
            to += 1
        if fresh:
            self.levels[-1] = set()
        if end == "↦":
            self.pattern(words[at:to])
        elif words[at] in OPEN:
            self.walk(words[at:to])
        else:
            self.levels[-1] |= set(words[at:to])
        return to

    def name(self, word, behind):
        """Takes up a name, or one behind a module's, and gives how many more tokens that were."""
        if word in self.names.modules and behind[:1] == ["."] and len(behind) == 2:
            self.use(self.library.find(self.names.modules[word], behind[1]))
            return 2
        self.use(self.target(word))
        return 0


class Library:
    """All definitions of the repository."""

    def __init__(self, top=TOP):
        self.modules, self.top, self.named = {}, top, {}
        for path in sorted(top.glob("crates/*/specs/*.antt")):
            name = f"Rattle.{path.parent.parent.name}.specs.{path.stem}"
            if path.stem != "Lib":
                self.modules[name] = Module(path, name)
        self.crates = {path.name for path in (top / "crates").iterdir()}

    def find(self, module, name):
        """The item of that name in a module, or (module, name) where another library or the compiler has it."""
        if module not in self.modules:
            if module.split(".")[1] in self.crates and ".specs.declared." not in module:
                raise Unknown(f"no file {module}")
            return module, name
        file = self.modules[module]
        if name in file.passed_on:
            return self.find(*file.passed_on[name])
        it = file.items.get(name) or file.owners.get(name)
        if it is None:
            raise Unknown(f"{module} has no {name}")
        return it

    def uses(self, item):
        """What a definition names."""
        if item not in self.named:
            file = self.modules[item.module]
            scope = Scope(self, file, file)
            for number, part in enumerate(item.parts):
                scope.levels = [set()]
                try:
                    walk_part(scope, item, part, number)
                except (Unknown, IndexError) as error:
                    raise Unknown(f"{item.module}: {item.name}: {error}") from error
            self.named[item] = scope.found
        return self.named[item]

    def closure(self, roots):
        """The items that these reach, and what they name of other libraries; both in an order in which nothing stands before what it names."""
        seen, others, order = set(), {}, []

        def visit(it):
            if isinstance(it, tuple):
                others[it] = None
            elif it not in seen:
                seen.add(it)
                for used in self.uses(it):
                    visit(used)
                order.append(it)

        for it in roots:
            visit(it)
        return order, list(others)


def walk_part(scope, item, part, number):
    """Walks over the head of a definition (the first part), or over one of its clauses."""
    if number == 0:
        head = HEAD.match(part)
        words = tokens(head[4])
        if item.kind in ("function", "law"):
            scope.walk(words)
        else:
            walk_type(scope, words)
        return
    words = tokens(part)
    depth, at = 0, 0
    while words[at] != "=" or depth:
        depth += (words[at] in OPEN) - (words[at] in CLOSE)
        at += 1
    scope.pattern([it for it in words[:at] if it != item.name])
    scope.walk(words[at + 1 :])


def walk_type(scope, words):
    """Walks over the parameters, fields or constructors of a record or data type."""
    at = words.index("where") if "where" in words else len(words)
    scope.walk(words[:at])
    rest = words[at + 1 :]
    names = [i for i, it in enumerate(rest[:-1]) if rest[i + 1] == ":" and sum((it in OPEN) - (it in CLOSE) for it in rest[:i]) == 0]
    for start, end in zip(names, [*names[1:], len(rest)]):
        scope.walk([it for it in rest[start + 2 : end] if it != "pub"])
        scope.levels[-1].add(rest[start])


FUNCTION = re.compile(r"^( *)(pub )?(?:pub\(\w+\) )?(?:const )?fn (\w+)", re.MULTILINE)
CLAUSE = re.compile(r"^ *(requires|ensures)(?: (\w+))? (?=\{)", re.MULTILINE)
OWNER = re.compile(r"^(?:pub )?(?:impl(?:<.*?>)?(?: \w+(?:<.*?>)? for)?|trait) (\w+)")
GHOST_USE = re.compile(r"^ *ghost (use [^;]+);", re.MULTILINE)
INVARIANT = re.compile(r"^    ghost invariant = (?=\{)", re.MULTILINE)
VALUE = re.compile(r"^    ghost Value = (?=\{)", re.MULTILINE)
ALIAS = re.compile(r"^pub type (\w+)(?:<.*?>)? = (\w+)", re.MULTILINE)


def braced(text, at):
    """What stands between the brace at this place and the one that closes it."""
    depth = 0
    for end in range(at, len(text)):
        depth += (text[end] == "{") - (text[end] == "}")
        if not depth:
            return text[at + 1 : end]
    raise Unknown("a brace that is not closed")


class Contract:
    """The clauses of a function or the invariant of a type, each with its label; the types of what they speak of, by its name; and the file that they stand in."""

    def __init__(self, source, owner, name, clauses, types=None, public=True):
        self.source, self.owner, self.name, self.clauses, self.types, self.public = source, owner, name, clauses, types or {}, public

    def labels(self):
        return [label for label, _ in self.clauses if label]

    def spoken_of(self):
        """The types of the parameters and results that the clauses name."""
        words = {word for _, text in self.clauses for word in tokens(text)}
        return {it for name, types in self.types.items() if name in words for it in types}

    def roots(self, library):
        """The definitions that the clauses name."""
        return roots_of(library, self.source, [text for _, text in self.clauses])


def roots_of(library, names, texts):
    scope = Scope(library, names)
    for text in texts:
        scope.levels = [set()]
        scope.walk(tokens(text))
    return scope.found


class Source(Names):
    """A file of a crate: the contracts of its functions and types."""

    def __init__(self, path):
        super().__init__()
        self.path, self.crate, self.contracts = path, path.parent.parent.name, []
        text = path.read_text(encoding="utf-8")
        for line in GHOST_USE.findall(text):
            self.add(line)
        self.exported = {word for names in re.findall(r"^pub use ([^;]+);", text, re.MULTILINE) for word in re.findall(r"\w+", names)}
        self.exported |= set(re.findall(r"^pub (?:fn|struct|enum|trait|type) (\w+)", text, re.MULTILINE))
        self.types = set(re.findall(r"^pub (?:struct|enum|trait|type) (\w+)", text, re.MULTILINE))
        self.modules_out = set(re.findall(r"^pub mod (\w+);", text, re.MULTILINE))
        functions = list(FUNCTION.finditer(text))
        for found in functions:
            owner = self.owner(text, found) if found[1] else None
            public = bool(found[2]) or owner is not None and f"\npub trait {owner}" in text
            head = head_of(text, found.end())
            self.contracts.append(Contract(self, owner, found[3], clauses(head), types_in(head, owner), public))
        self.aliases = dict(ALIAS.findall(text))
        self.values = {self.owner(text, found): braced(text, found.end()) for found in VALUE.finditer(text)}
        for found in INVARIANT.finditer(text):
            self.contracts.append(Contract(self, None, self.owner(text, found), [(None, braced(text, found.end()))]))

    @staticmethod
    def owner(text, found):
        """The type or trait of the last `impl` or `trait` above this place."""
        above = [line for line in text[: found.start()].split("\n") if re.match(r"(?:pub )?(?:impl|trait)\b", line)]
        at = OWNER.match(above[-1]) if above else None
        return at[1] if at else None


def head_of(text, at):
    """The text of a function from its name to its body."""
    end = re.compile(r"\{|;$", re.MULTILINE).search(text, at).start()
    clause = CLAUSE.search(text, at)
    return text[at : clause.start()] + clauses_text(text, clause.start()) if clause and clause.end() == end else text[at:end]


def clauses_text(text, at):
    """The clauses that follow one another from this place, as they stand."""
    start = at
    while (clause := CLAUSE.match(text, at)) or (at < len(text) and re.match(r" *//", text[at:])):
        at = clause.end() + len(braced(text, clause.end())) + 2 if clause else text.index("\n", at)
        at = at + 1 if text[at : at + 1] == "\n" else at
    return text[start:at]


def types_in(head, owner):
    """The words of the type of each parameter, of `self` and of `result`."""
    head = head[: min((it.start() for it in [CLAUSE.search(head)] if it), default=len(head))]
    named, _, given = head.rpartition("->") if "->" in head else (head, "", "")
    parts = re.split(r"\b(\w+): ", named)
    types = {name: set(re.findall(r"[A-Z]\w*", text)) for name, text in zip(parts[1::2], parts[2::2])}
    return {**types, "self": {owner}, "result": {owner if it == "Self" else it for it in re.findall(r"[A-Z]\w*", given)}}


def clauses(head):
    return [(found[2], braced(head, found.end())) for found in CLAUSE.finditer(head)]


class Crates:
    """The contracts of all crates."""

    def __init__(self, top=TOP):
        self.library, self.sources, self.known = Library(top), {}, {}
        for path in sorted(top.glob("crates/*/src/*.rt")):
            self.sources.setdefault(path.parent.parent.name, []).append(Source(path))
        listed = top / "crates.txt"
        self.listed = [it.partition(":") for it in listed.read_text(encoding="utf-8").split("\n") if it] if listed.exists() else []

    def place(self, crate):
        """The place of a crate in `crates.txt`, which has the lowest first."""
        return next((at for at, it in enumerate(self.listed) if it[0] == crate), len(self.listed))

    def ported(self):
        """The crates that `crates.txt` names and the repository does not have, in its order."""
        own = {it[0] for it in self.listed}
        return list(dict.fromkeys(word for it in self.listed for word in it[2].split() if word not in own))

    def is_out(self, contract):
        """Whether other crates can name it: it, or the type that it is of, is a public name of the crate or of one of its public modules."""
        if not contract.public:
            return False
        files = {it.path.stem: it for it in self.sources[contract.source.crate]}
        root = files.get("lib") or files["main"]
        return any((contract.owner or contract.name) in it.exported for it in (root, *(files[word] for word in root.modules_out)))

    def contracts(self, crate, name, private=False):
        """The contracts of that name, which may have a type's name before it: the public ones, or the others."""
        owner, _, last = name.rpartition("::")
        found = [it for file in self.sources.get(crate, []) for it in file.contracts if it.name == last and owner in ("", it.owner)]
        return [it for it in found if self.is_out(it) != private]

    def is_type(self, crate, name):
        """Whether a public type has this name, in a crate or, for None, in any."""
        files = self.sources.get(crate, []) if crate else [it for files in self.sources.values() for it in files]
        return any(name in it.types for it in files)

    def views(self, name):
        """What contracts see of the values of a type: the definitions that its `ghost Value` names."""
        files = [it for files in self.sources.values() for it in files]
        name = next((it.aliases[name] for it in files if name in it.aliases), name)
        return [root for it in files if name in it.values for root in roots_of(self.library, it, [it.values[name]])]

    def reached(self, contracts):
        """All that the clauses of these contracts reach, and what they see of the values that they speak of."""
        if tuple(contracts) not in self.known:
            roots = [root for it in contracts for root in it.roots(self.library)]
            views = [root for it in contracts for name in sorted(it.spoken_of() - {None}) for root in self.views(name)]
            self.known[tuple(contracts)] = self.library.closure(roots + views)
        return self.known[tuple(contracts)]
