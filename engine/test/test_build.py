"""The way from a module to an engine: it runs, two builds in two folders give the same bytes, and a build that fails leaves what there was."""
import importlib.machinery
import importlib.util
import pathlib
import shutil
import subprocess
import sys
import tempfile
import unittest

ENGINE = pathlib.Path(__file__).resolve().parent.parent
sys.dont_write_bytecode = True

# It writes its first word behind its name, and ends with status 3.
PROGRAM = """target datalayout = "e-m:e-p270:32:32-p271:32:32-p272:64:64-i64:64-i128:128-f80:128-n8:16:32:64-S128"
target triple = "x86_64-unknown-linux-gnu"
declare i64 @rattle_arg(i64, ptr, i64)
declare i64 @write(i32, ptr, i64)
define i32 @main() {
  %word = alloca [16 x i8], align 8
  %length = call i64 @rattle_arg(i64 1, ptr %word, i64 16)
  %written = call i64 @write(i32 1, ptr %word, i64 %length)
  ret i32 3
}
"""
RUN = """
const [host, file] = process.argv.slice(1);
const { serve } = await import(host);
const { status, output } = serve(new WebAssembly.Module((await import("node:fs")).readFileSync(file)), ["héllo"], new Uint8Array());
process.stdout.write(output);
process.exitCode = status;
"""


def script(engine):
    """The script `build` of a folder."""
    for it in ("module", "retarget"):
        sys.modules.pop(it, None)
    loader = importlib.machinery.SourceFileLoader("build", str(engine / "build"))
    module = importlib.util.module_from_spec(importlib.util.spec_from_loader("build", loader))
    loader.exec_module(module)
    return module


def taken(top, kit, room, to):
    to.write_text(PROGRAM)


class Build(unittest.TestCase):
    def setUp(self):
        self.folder = tempfile.TemporaryDirectory()
        self.addCleanup(self.folder.cleanup)
        self.at = pathlib.Path(self.folder.name)

    def built(self, name):
        """An engine, built by a copy of the scripts in a folder of this name."""
        copy, room = self.at / name / "engine", self.at / name / "room"
        shutil.copytree(ENGINE, copy, ignore=shutil.ignore_patterns("out", "test"))
        room.mkdir()
        script(copy).build(self.at / f"{name}.wasm", room, taken)
        return self.at / f"{name}.wasm"

    def test_two_folders_give_the_same_bytes(self):
        self.assertEqual(self.built("one").read_bytes(), self.built("another-folder").read_bytes())

    def test_the_engine_runs(self):
        words = ["node", "--input-type=module", "-e", RUN, (ENGINE / "host.mjs").as_uri(), self.built("one")]
        ran = subprocess.run(words, capture_output=True, text=True, check=False)
        self.assertEqual((ran.stdout, ran.stderr, ran.returncode), ("héllo", "", 3))

    def test_a_build_that_fails_leaves_what_there_was(self):
        there, room = self.at / "there.wasm", self.at / "room"
        there.write_text("before")
        room.mkdir()
        build = script(ENGINE)

        def refused(top, kit, room, to):
            to.write_text(PROGRAM.replace("rattle_arg", "getenv"))

        with self.assertRaises(build.Refused):
            build.build(there, room, refused)
        self.assertEqual(there.read_text(), "before")
        self.assertEqual(sorted(it.name for it in self.at.iterdir()), ["room", "there.wasm"])

    def test_unproved_crates_are_named(self):
        tree = self.at / "tree"
        (tree / "crates/otbench/src").mkdir(parents=True)
        (tree / "crates/low/src").mkdir(parents=True)
        (tree / "crates.txt").write_text("low:\notbench: low\n")
        (tree / "crates/low/src/lib.rt").write_text("")
        (tree / "crates/otbench/src/main.rt").write_text("fn main(rt: HostRuntime) {}\n")
        shutil.copytree(ENGINE, tree / "engine", ignore=shutil.ignore_patterns("out", "test"))
        ran = subprocess.run([tree / "engine/build", self.at / "to.wasm"], capture_output=True, text=True, check=False)
        self.assertEqual(ran.returncode, 1)
        self.assertIn("1 crates are not proved as they stand, the first is low", ran.stderr)


if __name__ == "__main__":
    unittest.main()
