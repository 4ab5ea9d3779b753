"""Which definitions a contract reaches, and what `tests/definitions.py` writes into the documents: over small crates, and over the repository's documents with what breaks them."""
import contextlib
import io
import pathlib
import re
import shutil
import sys
import tempfile
import unittest
from unittest import mock

TOP = pathlib.Path(__file__).resolve().parents[2]
sys.path.insert(0, str(TOP / "tests"))
from contracts import Crates, Unknown  # noqa: E402
import definitions  # noqa: E402
from definitions import DEFINED, FILES, Documents, cells_of, cited, file_of, files_in, lines_of, named, row_of, tables  # noqa: E402

SHAPES = """-- Shapes.
use Rattle.std.specs.Prelude.{ℕ, suc, ◌+◌, List, [], ◌∷◌}
use Rattle.low.specs.declared.lib.Colour.{Colour}

-- a comment of two
-- lines
pub data Shape : Type 0 where
  Dot : Shape
  Line : ℕ → Shape

pub record Pair (A : Type 0) : Type 0 where
  pub left : A
  pub right : A

-- how long a shape is
abbrev pub size : Shape → ℕ
size Dot = 0
size (Line n) =
    if n then n

    else n

infixl 10 ◌+>◌
abbrev pub ◌+>◌ : Shape → Shape → ℕ
s +> t = size s + size t

abbrev pub unused : ℕ
unused = 1

pub law : (s : Shape) → size s ≡ size s
law s = by s
  where
    by : (s : Shape) → size s ≡ size s
    by s = refl
"""
AGAIN = """use Rattle.std.specs.Prelude.{List, filter_map}
use Rattle.low.specs.Shapes as shapes
pub use Rattle.low.specs.Shapes.{Shape, Line as Long}
unfoldable pub use Rattle.low.specs.Shapes.{size}

-- `size` is a name of its own here, in a pattern and behind λ
abbrev pub hides : List Shape → List Shape
hides size = filter_map (λ unused. unused) size

abbrev pub split : Shape → shapes.Shape
split x = elim x [ | shapes.Dot ↦ shapes.Dot | Long size ↦ Long size ]

abbrev pub Joins : shapes.Pair Shape → Type 0
Joins p = (x : Shape) × (p.left +> x ≡ shapes.size x)
"""
LOW = """ghost use Rattle.std.specs.Prelude.{◌≡◌, IfOk};
ghost use Rattle.low.specs.Shapes.{size, unused};

/// A shape.
pub struct Held {
    unused: u8,
}

impl Model for Held {
    ghost use Rattle.low.specs.Shapes.{Pair, Shape};

    ghost Value = { Pair Shape };

    ghost invariant = { λ h. size h.left ≡ 0 };
}

pub type Alias = Held;

impl Held {
    /// Not the function of that name.
    pub fn unused(&self) -> u8
        ensures value { result ≡ size self.now.left }
        // unused
        ensures other { IfOk result (λ unused. unused ≡ 0) }
    {
        unused()
    }

    fn hidden(&self) -> u8 { 0 }
}

fn private() -> u8
    ensures { result ≡ unused }
{
    1
}

pub fn takes(array: [u8; 4], held: &Alias) -> u8
    requires { held.now.left ≡ held.now.right }
{
    0
}
"""
README = "# P\n\nIt rests on 7 lines of definitions.\n\n| File | Lines | What it defines |\n|---|---|---|\n| `low/specs/Shapes.antt`, `Again.antt` | 1 | shapes |\n"
PROOFS = """| Claim | Contract of | Lines | Beyond the first |
|---|---|---|---|
| the size | `low`: `Held::unused` (`value`) | 0 | 0 |
| nothing | private of `low`: `private`; `low`: `none` | 0 | 0 |
"""
PAGE = "# D\n\n## A\n\n| `low/specs/Again.antt` | |\n| `low/specs/Shapes.antt` | |\n"


class Definitions(unittest.TestCase):
    def setUp(self):
        self.top = pathlib.Path(tempfile.mkdtemp(prefix="definitions-"))
        self.addCleanup(shutil.rmtree, self.top)
        files = {"crates/low/specs/Shapes.antt": SHAPES, "crates/low/specs/Again.antt": AGAIN, "crates/low/src/lib.rt": LOW, "README.md": README}
        for name, text in {**files, "docs/PROOFS.md": PROOFS, "docs/DEFINITIONS.md": PAGE}.items():
            self.put(name, text)

    def put(self, name, text):
        (self.top / name).parent.mkdir(parents=True, exist_ok=True)
        (self.top / name).write_text(text, encoding="utf-8")

    def reached(self, *names, private=False):
        """The names that these contracts reach."""
        crates = Crates(self.top)
        return [it.name for it in crates.reached([it for name in names for it in crates.contracts("low", name, private)])[0]]

    def uses(self, file, name):
        library = Crates(self.top).library
        module = library.modules[f"Rattle.low.specs.{file}"]
        return [it.name if not isinstance(it, tuple) else it[1] for it in library.uses(module.items[name])]

    def test_lines_are_those_of_a_definition(self):
        items = Crates(self.top).library.modules["Rattle.low.specs.Shapes"].items
        self.assertEqual({name: it.lines for name, it in items.items()}, {"Shape": 3, "Pair": 3, "size": 5, "◌+>◌": 2, "unused": 2, "law": 1})

    def test_names_that_are_bound_are_not_used(self):
        self.assertEqual(self.uses("Again", "hides"), ["List", "Shape", "List", "Shape", "filter_map"])
        self.assertEqual(self.uses("Again", "split"), ["Shape", "Shape", "Shape", "Shape", "Shape", "Shape"])

    def test_operators_fields_and_modules(self):
        self.assertEqual(self.uses("Shapes", "◌+>◌"), ["Shape", "Shape", "ℕ", "size", "◌+◌", "size"])
        self.assertEqual(self.uses("Again", "Joins"), ["Pair", "Shape", "Shape", "size"])

    def test_a_contract_reaches_what_its_clauses_name_and_what_is_seen_of_its_values(self):
        self.assertEqual(self.reached("Held::unused"), ["Shape", "size", "Pair"])
        self.assertEqual(self.reached("takes"), ["Pair", "Shape"])
        self.assertEqual(self.reached("private"), [])
        self.assertEqual(self.reached("private", private=True), ["unused"])
        self.assertEqual(self.reached("Held"), ["Shape", "size"])

    def test_names_that_are_nowhere(self):
        self.put("crates/low/specs/Again.antt", AGAIN.replace("{size}", "{sizes}"))
        with self.assertRaises(Unknown):
            crates = Crates(self.top)
            crates.library.find("Rattle.low.specs.Again", "sizes")
        self.put("crates/low/specs/Again.antt", "use Rattle.low.specs.Nowhere.{a}\n\nabbrev pub b : a\n")
        with self.assertRaises(Unknown):
            self.uses("Again", "b")

    def test_cells(self):
        self.assertEqual(
            cited("`low`: `Held::unused` (`value`, a word), `takes`; private of `low`: `private`", {"low": 1}),
            [("low", False, "Held::unused", ["value"]), ("low", False, "takes", []), ("low", True, "private", [])],
        )
        self.assertEqual(files_in("| `low/specs/A.antt`, `B.antt` | `c`, `D.antt`"), ["low/specs/A.antt", "low/specs/B.antt", "low/specs/D.antt"])

    def compared(self):
        documents = Documents(Crates(self.top), self.top)
        documents.compare()
        return documents

    @mock.patch.object(definitions, "PARTS", (("low",),))
    def test_documents(self):
        documents = self.compared()
        written = {
            "README.md": README.replace("7 lines", "11 lines").replace("`low/specs/Shapes.antt`, `Again.antt` | 1 |", "`low/specs/Shapes.antt` | 11 |"),
            "docs/DEFINITIONS.md": PAGE,
            "docs/PROOFS.md": PROOFS.replace("| 0 | 0 |", "| 11 | 0 |", 1).replace("| 0 | 0 |", "| 2 | 2 |"),
        }
        self.assertEqual(documents.texts, written)
        self.assertEqual(documents.by_hand, ["docs/PROOFS.md: low has no public function or type none with clauses"])
        self.assertEqual([it[: it.index(":", 15)] for it in documents.findings()], ["README.md: line 3 should be", "README.md: line 7 should be", *(f"docs/PROOFS.md: line {at} should be" for at in (3, 4))])
        documents.write()
        documents = self.compared()
        self.assertEqual((documents.texts, list(documents.findings())), (written, []))

    def test_a_file_that_is_not_named_and_one_that_is_named_too_early(self):
        self.put("crates/low/src/lib.rt", LOW.replace("Shapes.{size, unused}", "Again.{Joins as size}"))
        self.assertIn("docs/DEFINITIONS.md: names low/specs/Again.antt before low/specs/Shapes.antt, which it uses", self.compared().by_hand)
        self.put("docs/DEFINITIONS.md", "")
        self.assertIn("no row names a definition of low/specs/Again.antt, which a contract of PROOFS reaches", "".join(self.compared().by_hand))
        self.assertIn("which `PARTS` of tests/definitions.py gives no row", "".join(self.compared().by_hand))

    @mock.patch.object(definitions, "PARTS", (("low",),))
    def test_the_command(self):
        def run(*words):
            with contextlib.redirect_stdout(io.StringIO()) as out:
                return definitions.main([*words], self.top), out.getvalue().split("\n")[:-1]

        self.put("docs/PROOFS.md", PROOFS.replace("; `low`: `none`", ""))
        before = [(self.top / name).read_text(encoding="utf-8") for name in ("README.md", "docs/PROOFS.md")]
        status, lines = run()
        self.assertEqual((status, lines[0]), (1, "README.md: line 3 should be: It rests on 11 lines of definitions."))
        self.assertEqual(lines[-2:], ["definitions: 4 findings", "python3 tests/definitions.py --write mends 4 of them"])
        self.assertEqual([(self.top / name).read_text(encoding="utf-8") for name in ("README.md", "docs/PROOFS.md")], before)
        self.assertEqual(run("--write"), (0, ["definitions: 4 places written, 0 findings to mend by hand"]))
        self.assertEqual(run(), (0, ["definitions: 0 findings"]))
        self.assertEqual(run("--write"), (0, ["definitions: 0 places written, 0 findings to mend by hand"]))

    def test_tables_that_are_not_understood(self):
        rows = [
            ("README.md", README.replace("| 1 | shapes |", "| shapes |"), "README.md: line 7 has 2 cells, where the head of its table has 3: | `low/specs/Shapes.antt`, `Again.antt` | shapes |"),
            ("README.md", README.replace("| Lines |", "| Line |"), "README.md has no table with the head | File | Lines | What it defines |"),
        ]
        for name, text, said in rows:
            self.put(name, text)
            with contextlib.redirect_stdout(io.StringIO()) as out:
                self.assertEqual(definitions.main(["--write"], self.top), 1)
            self.assertEqual(out.getvalue().split("\n")[:-1], [said, "definitions: nothing was compared"])
            self.assertEqual((self.top / name).read_text(encoding="utf-8"), text)

    def test_the_repository_s_own(self):
        """Each definition is understood, and the machine's step reaches the table."""
        crates = Crates()
        for module in crates.library.modules.values():
            for item in module.items.values():
                crates.library.uses(item)
        counts = lines_of(crates.reached(crates.contracts("ot_machine", "Machine::step"))[0])
        self.assertIn("ot_model/specs/Table.antt", counts)
        self.assertNotIn("ot_asm/specs/Spelling.antt", counts)


class Broken(unittest.TestCase):
    """The repository's documents with a break: it is found, and what is written is the text as it was."""

    @classmethod
    def setUpClass(cls):
        cls.crates = Crates()
        cls.texts = Documents(cls.crates).read

    def mends(self, name, text):
        """The findings in a text, which is no longer the committed one."""
        self.assertNotEqual(text, self.texts[name])
        documents = Documents(self.crates)
        documents.texts[name] = documents.read[name] = text
        documents.compare()
        self.assertEqual(documents.by_hand, [])
        self.assertEqual(documents.texts, self.texts)
        found = list(documents.findings())
        self.assertTrue(found)
        self.assertTrue(all(re.match(re.escape(name) + r": (line \d+ should|behind line \d+ should stand: )", it) for it in found), found)
        return found

    def lines(self, name):
        return self.texts[name].split("\n")

    def changed(self, name, head, change):
        """The document with the files of each row as `change` gives them."""
        lines = self.lines(name)
        for start, end in tables(lines, head):
            for at in range(start, end):
                cells = cells_of(lines[at])
                if cells[0]:
                    lines[at] = row_of([named(change(at, files_in(cells[0]))), *cells[1:]])
        return "\n".join(lines)

    def test_as_they_are(self):
        documents = Documents(self.crates)
        documents.compare()
        self.assertEqual((list(documents.findings()), documents.by_hand), ([], []))

    def test_numbers(self):
        lines = self.lines("README.md")
        start, end = next(tables(lines, FILES))
        for at in range(start, end):
            cells = cells_of(lines[at])
            lines[at] = row_of([cells[0], str(int(cells[1]) + 1), cells[2]])
        self.assertEqual([int(re.search(r"line (\d+)", it)[1]) for it in self.mends("README.md", "\n".join(lines))], [at + 1 for at in range(start, end)])
        for name in ("README.md", "docs/DEFINITIONS.md"):
            at = next(at for at, line in enumerate(self.lines(name)) if definitions.TOTAL.search(line))
            self.assertIn(f"{name}: line {at + 1} should be: ", self.mends(name, definitions.TOTAL.sub("1", self.texts[name]))[0])
        lines = self.lines("docs/PROOFS.md")
        start, end = next(tables(lines, definitions.CLAIMS))
        for at in range(start, end):
            cells = cells_of(lines[at])
            lines[at] = row_of([*cells[:2], str(int(cells[2]) - 1), str(int(cells[3]) + 1)])
        self.assertEqual(len(self.mends("docs/PROOFS.md", "\n".join(lines))), end - start)

    def test_rows_that_are_moved(self):
        for name, head in (("README.md", FILES), ("docs/DEFINITIONS.md", DEFINED)):
            lines = self.lines(name)
            for start, end in tables(self.lines(name), head):
                units = []
                for line in lines[start:end]:
                    if cells_of(line)[0]:
                        units.append([])
                    units[-1].append(line)
                lines[start:end] = [line for unit in reversed(units) for line in unit]
            self.mends(name, "\n".join(lines))
        lines = self.lines("docs/PROOFS.md")
        start, end = next(tables(lines, definitions.CLAIMS))
        lines[start:end] = [*lines[start + 1 : end], lines[start]]
        self.mends("docs/PROOFS.md", "\n".join(lines))

    def test_one_row_that_is_moved(self):
        lines = self.lines("docs/DEFINITIONS.md")
        start = next(at for at, line in enumerate(lines) if line.startswith("| `ot_model/specs/SessionLaws.antt`"))
        lines.insert(start - 2, lines.pop(start))
        self.assertEqual(len(self.mends("docs/DEFINITIONS.md", "\n".join(lines))), 2)

    def test_a_section_that_is_moved(self):
        text = self.texts["docs/DEFINITIONS.md"]
        second, third, fourth = (text.index(f"### {number}. ") for number in (2, 3, 4))
        self.mends("docs/DEFINITIONS.md", text[:second] + text[third:fourth] + text[second:third] + text[fourth:])

    def test_files_that_are_left_out(self):
        for which in range(14):
            def rest(row, files):
                return files if len(files) == 1 or row % 2 != which % 2 else [it for at, it in enumerate(files) if at != which // 2]

            self.mends("docs/DEFINITIONS.md", self.changed("docs/DEFINITIONS.md", DEFINED, rest))
        for which in range(6):
            self.mends("README.md", self.changed("README.md", FILES, lambda _, files: files if len(files) == 1 else [it for at, it in enumerate(files) if at != which]))
        for which in range(6):
            self.mends("docs/DEFINITIONS.md", self.changed("docs/DEFINITIONS.md", DEFINED, lambda at, files: files if len(files) > 1 or at % 6 != which else []))
        self.mends("README.md", self.changed("README.md", FILES, lambda at, files: [] if files == ["ot_model/specs/Table.antt"] else files))

    def test_files_too_many(self):
        named_here = {name for line in self.lines("docs/DEFINITIONS.md") for name in definitions.NAME.findall(line)}
        modules = self.crates.library.modules.values()
        other = next(file_of(next(iter(it.items.values()))) for it in modules if it.items and not named_here & {*it.items, *it.owners})
        for more in (other, "ot_codes/specs/Nowhere.antt"):
            self.mends("docs/DEFINITIONS.md", self.changed("docs/DEFINITIONS.md", DEFINED, lambda _, files: [*files, more]))
            self.mends("README.md", self.changed("README.md", FILES, lambda _, files: [more, *files]))

    def test_crates_of_the_toolchain(self):
        text = self.texts["docs/PROOFS.md"]
        self.mends("docs/PROOFS.md", text.replace("`strsim`, `itoa`", "`itoa`"))
        self.mends("docs/PROOFS.md", text.replace("`strsim`, `itoa`", "`strsim`, `rand`, `itoa`"))

    def test_what_people_have_to_write(self):
        """A row that is gone has words that no script has, and a name may be that of no definition."""
        lines = self.lines("README.md")
        gone = next(at for at, line in enumerate(lines) if line.startswith("| `ot_model/specs/Table.antt`"))
        documents = Documents(self.crates)
        documents.texts["README.md"] = "\n".join(lines[:gone] + lines[gone + 1 :])
        page = self.texts["docs/DEFINITIONS.md"]
        documents.texts["docs/DEFINITIONS.md"] = page.replace("| `IsFound` |", "|").replace("`Answers` |", "`Answerings` |")
        documents.compare()
        at = next(at for at, line in enumerate(page.split("\n")) if "`Answers` |" in line)
        self.assertEqual(
            documents.by_hand[:2],
            [
                "README.md: the main theorem reaches ot_model/specs/Table.antt: write a row with these files, and with words of what they define",
                f"docs/DEFINITIONS.md: line {at + 1} names Answerings: of which file? Its first cell has to say it",
            ],
        )


if __name__ == "__main__":
    unittest.main()
