"""That `./otbench` hands words and streams over to the package's command, and what it does without node and without the toolchain."""
import shutil
import subprocess
import unittest

from tree import TOP, Tree


@unittest.skipUnless(shutil.which("node"), "no node is there")
class Words(unittest.TestCase):
    """Over a proved program that prints its words and then its input."""

    @classmethod
    def setUpClass(cls):
        cls.tree = Tree()
        cls.addClassCleanup(cls.tree.remove)
        cls.tree.has_proved()
        cls.tree.put("a.ots", "clients 1\n")
        cls.tree.put("no end", "clients 2")
        cls.tree.put("bytes", b"\xff\x00\\n\n")
        cls.tree.put("port", '{"at":0}\n')
        (cls.tree.room / "folder").mkdir()

    def table(self, rows):
        for words, given, wanted in rows:
            with self.subTest(words=words):
                self.assertEqual(self.tree.run(*words, given=given), wanted)

    def test_files(self):
        rows = [([word, "a.ots"], "", (0, f"proved one: {word}\nclients 1\n", "")) for word in "run check explain judge threads asm dis conform".split()]
        rows += [
            (["run"], "input", (0, "proved one: run\ninput", "")),
            (["run", "-"], "input", (0, "proved one: run\ninput", "")),
            (["run", "a.ots", "--image"], "", (0, "proved one: run --image\nclients 1\n", "")),
            (["run", str(self.tree.room / "a.ots")], "", (0, "proved one: run\nclients 1\n", "")),
            (["explain", "--plan", "a.ots"], "", (0, "proved one: explain --plan\nclients 1\n", "")),
            (["run", "no end", "a.ots"], "", (0, "==> 'no end' <==\nproved one: run\nclients 2\n==> a.ots <==\nproved one: run\nclients 1\n", "")),
            (["conform", "no end", "port"], "", (0, 'proved one: conform\nclients 2\n%%\n{"at":0}\n', "")),
            (["conform", "a.ots", "-"], "lines", (0, "proved one: conform\nclients 1\n%%\nlines", "")),
            (["conform", "-", "port"], "clients 3", (0, 'proved one: conform\nclients 3\n%%\n{"at":0}\n', "")),
            (["run"], "clients 1\n %%\t\r\nlines", (0, "proved one: run\nclients 1\n", "")),
            (["conform"], "clients 1\n%%\nlines", (0, "proved one: conform\nclients 1\n%%\nlines", "")),
            (["run", "--image"], "a\n%%\nb", (0, "proved one: run --image\na\n%%\nb", "")),
        ]
        self.table(rows)

    def test_bytes_are_handed_on_as_they_are(self):
        ran = subprocess.run([self.tree.top / "otbench", "conform", "bytes", "bytes"], cwd=self.tree.room, env=self.tree.environment, capture_output=True, check=True)
        self.assertEqual(ran.stdout, b"proved one: conform\n\xff\x00\\n\n%%\n\xff\x00\\n\n")

    def test_words_that_are_the_programs(self):
        self.table([
            (["generate", "--seed", "7"], "", (0, "", "")),
            (["threads", "--workers", "2"], "input", (0, "proved one: threads --workers 2\ninput", "")),
            (["debug"], "input", (0, "proved one: debug\ninput", "")),
            (["nosuch", "x"], "input", (0, "proved one: nosuch x\ninput", "")),
            ([], "input", (0, "proved one: \ninput", "")),
            (["version", "x"], "input", (0, "proved one: version x\ninput", "")),
        ])

    def test_files_that_are_not_there(self):
        self.table([
            (["run", "nosuch.ots"], "", (1, "", "otbench: nosuch.ots: there is no such file\n")),
            (["run", "folder"], "", (1, "", "otbench: folder: is a folder\n")),
        ])

    def test_help_and_the_version(self):
        status, printed, faults = self.tree.run("help")
        self.assertEqual((status, faults), (0, ""))
        for word in ("Commands:", "--proved", "--which", "otbench view", "otbench merge"):
            self.assertIn(word, printed)
        self.table([
            (["--help"], "", (0, printed, "")),
            (["help", "threads"], "", (0, "Usage: otbench threads\n", "")),
            *((words, "", (0, "otbench 0.1.0 (proved)\n", "")) for words in (["version"], ["--version"], ["-V"], ["-v"])),
        ])

    def test_its_name_in_hints(self):
        shown = f"otbench: what happened, in words: '{self.tree.top / 'otbench'}' explain a.ots\n"
        self.assertEqual(self.tree.run("run", "a.ots", environment={"FAKE_STATUS": "1"}), (1, "proved one: run\nclients 1\n", shown))
        again = self.tree.run("run", "a.ots", environment={"FAKE_STATUS": "1"}, cwd=self.tree.top, program="./otbench")
        self.assertEqual(again[0], 1)
        self.assertIn("there is no such file", again[2])


class WithoutNode(unittest.TestCase):
    """The program runs by itself."""

    def test_words_and_streams_are_the_programs(self):
        tree = Tree(has_node=False)
        self.addCleanup(tree.remove)
        tree.has_proved()
        said = "otbench: no node of version 20 or later is on the path: the program runs by itself, and reads standard input alone\n"
        self.assertEqual(tree.run("run", "a.ots", given="input", environment={"FAKE_STATUS": "3"}), (3, "proved one: run a.ots\ninput", said))


class WithoutToolchain(unittest.TestCase):
    """No `rt` is on the path."""

    def setUp(self):
        if shutil.which("rt", path="/usr/bin:/bin"):
            self.skipTest("a toolchain is in /usr/bin")
        self.tree = Tree(has_rt=False)
        self.addCleanup(self.tree.remove)

    def release(self, sources):
        (self.tree.top / "dist").mkdir()
        (self.tree.top / "dist/otbench.mjs").write_text('process.stdin.on("data", (it) => process.stdout.write(it));\nconsole.log(process.argv.slice(2).join(" "));\n', encoding="utf-8")
        (self.tree.top / "dist/VERSION.json").write_text(f'{{\n  "version": "0.1.0",\n  "commit": "abc",\n  "proved": true,\n  "sources": "{sources}"\n}}\n', encoding="utf-8")

    def sources(self):
        return subprocess.run([self.tree.top / "scripts/sources"], capture_output=True, text=True, check=True).stdout.strip()

    def has_node(self, version):
        node = self.tree.room / "tools/node"
        node.unlink(missing_ok=True)
        node.write_text(f'#!/bin/sh\n[ "$1" != --version ] || echo {version}\n', encoding="utf-8")
        node.chmod(0o755)

    @unittest.skipUnless(shutil.which("node"), "no node is there")
    def test_node_runs_the_release(self):
        self.release(self.sources())
        self.tree.put("a.ots", "clients 1\n")
        self.assertEqual(self.tree.run("run", "a.ots", "--image", given="input"), (0, "run a.ots --image\ninput", ""))
        self.assertEqual(self.tree.run("help"), (0, "help\n", ""))
        self.assertEqual(self.tree.run("--which"), (0, f"{self.tree.top}/otbench\n", ""))

    @unittest.skipUnless(shutil.which("node"), "no node is there")
    def test_a_release_of_other_sources_says_so(self):
        self.release(self.sources())
        self.tree.proof.write_text("proof two", encoding="utf-8")
        said = "otbench: dist/ is a release of other sources than these: version 0.1.0, commit abc\n"
        self.assertEqual(self.tree.run("run", given="input"), (0, "run\ninput", said))

    def test_nothing_to_run(self):
        none = "otbench: nothing to run: no toolchain (rt) is on the path, and no release is in dist/\n"
        self.assertEqual(self.tree.run("run"), (1, "", none))
        self.release("")
        old = "otbench: nothing to run: neither the toolchain (rt) nor node of version 20 or later is on the path\n"
        for version in ("v18.20.1", "v8.0.0", ""):
            self.has_node(version)
            self.assertEqual(self.tree.run("run"), (1, "", old))

    def test_building_says_that_there_is_no_toolchain(self):
        for words in (["--proved"],):
            self.assertEqual(self.tree.run(*words), (1, "", "rt is not on the path: the toolchain is not there\n"))
        ran = subprocess.run([self.tree.top / "scripts/quick_build"], env=self.tree.environment, capture_output=True, text=True, check=False)
        self.assertEqual((ran.returncode, ran.stderr), (1, "rt is not on the path: the toolchain is not there\n"))

    def test_release_is_no_proved_program_where_one_is_needed(self):
        self.release(self.sources())
        status, printed, faults = self.tree.run("run", environment={"OTBENCH_NEEDS_PROVED": "1"})
        self.assertEqual((status, printed), (1, ""))
        self.assertIn("the proved program of these sources is not built", faults)


class Scripts(unittest.TestCase):
    def test_the_shell_finds_no_fault(self):
        for name in ("otbench", "test", "release", "scripts/sources", "scripts/stamp"):
            subprocess.run(["sh", "-n", TOP / name], check=True)

    def test_unknown_words_are_refused_and_help_is_printed(self):
        """Before anything begins."""
        shell = ["test", ".ci/run", ".ci/refused", "tests/set-up", "tests/run_page_tests", "engine/set-up", "engine/try", "viewer/set-up-browser", "viewer/test-in-browser"]
        python = [f"tests/{name}.py" for name in ("check_mutants", "check_names", "check_words", "growths", "lint", "quick", "run", "run_documents")]
        others = ["release", "scripts/prove", "scripts/quick_build", "engine/build", "conformance/check", "tests/definitions.py", "mutants/try.py"]
        for name in shell + python + others:
            call = ["python3", TOP / name] if name.endswith(".py") else [TOP / name]
            with self.subTest(name=name):
                ran = subprocess.run([*call, "--no-such-word"], capture_output=True, text=True, check=False)
                self.assertEqual((ran.returncode, ran.stdout), (2, ""), ran.stderr)
                self.assertNotIn("Traceback", ran.stderr)
                ran = subprocess.run([*call, "--help"], capture_output=True, text=True, check=False)
                self.assertEqual((ran.returncode, ran.stderr), (0, ""))
                self.assertTrue(ran.stdout.strip())

    def test_words_that_are_not_understood(self):
        for words in (["scripts/sources", "other"], ["scripts/stamp"], ["scripts/stamp", "check", "x"], ["scripts/quick_build", "--to", "x"], ["scripts/quick_build", "a", "b"]):
            ran = subprocess.run([TOP / words[0], *words[1:]], capture_output=True, text=True, check=False)
            self.assertEqual((ran.returncode, ran.stdout), (2, ""), words)
            self.assertRegex(ran.stderr, f"^usage: {words[0]} ")


if __name__ == "__main__":
    unittest.main()
