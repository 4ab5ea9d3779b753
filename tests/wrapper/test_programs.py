"""Which program `./otbench` runs, and how it comes there."""
import os
import shutil
import signal
import subprocess
import time
import unittest

from tree import TOP, Tree

BUILDING = "otbench: building an unproved program of these sources, in about three minutes; ./test or ./otbench --proved proves it\n"
NEEDS_PROVED = {"OTBENCH_NEEDS_PROVED": "1"}


def can_mount():
    """Whether a file system can be mounted here, by root or in a user's name space."""
    return subprocess.run(["unshare", "-rm", "true"], capture_output=True, check=False).returncode == 0 if shutil.which("unshare") else False


class Programs(unittest.TestCase):
    def setUp(self):
        self.tree = Tree()
        self.addCleanup(self.tree.remove)

    def answers(self, kind, source="one", said="", **how):
        """That `run` is answered by such a program, built of this source, and what stands on standard error."""
        self.assertEqual(self.tree.run("run", given="input", **how), (0, f"{kind} {source}: run\ninput", said))


class Choice(Programs):
    def test_the_unproved_program_is_built_once(self):
        self.answers("quick", said=BUILDING)
        self.answers("quick")
        self.assertEqual(self.tree.built(), ["quick"])

    def test_the_proved_program_is_preferred(self):
        self.answers("quick", said=BUILDING)
        self.tree.has_proved()
        self.answers("proved")

    def test_a_changed_source_is_noticed(self):
        self.answers("quick", said=BUILDING)
        self.tree.has_proved()
        self.tree.source.write_text("two", encoding="utf-8")
        self.answers("quick", "two", BUILDING)
        self.tree.source.write_text("one", encoding="utf-8")
        self.answers("proved")

    def test_a_changed_proof_concerns_the_proved_program_alone(self):
        self.answers("quick", said=BUILDING)
        self.tree.has_proved()
        self.tree.proof.write_text("proof two", encoding="utf-8")
        self.answers("quick")

    def test_a_file_that_comes_or_goes_is_noticed(self):
        self.tree.has_proved()
        further = self.tree.proof.with_name("Further.antt")
        further.touch()
        self.answers("quick", said=BUILDING)
        further.unlink()
        self.answers("proved")

    def test_a_date_alone_is_no_change(self):
        self.answers("quick", said=BUILDING)
        self.tree.has_proved()
        for path in [*self.tree.top.rglob("*.rt"), *self.tree.top.rglob("*.antt"), self.tree.top / "crates.txt"]:
            os.utime(path)
        self.answers("proved")
        self.tree.proved.unlink()
        self.answers("quick")

    def test_a_change_under_the_old_date_is_noticed(self):
        self.tree.has_proved()
        time.sleep(2.1)
        self.answers("proved")
        self.assertTrue((self.tree.top / "out/sources.proved").exists())
        was = os.stat(self.tree.source)
        self.tree.source.write_text("six", encoding="utf-8")
        os.utime(self.tree.source, ns=(was.st_atime_ns, was.st_mtime_ns))
        self.answers("quick", "six", BUILDING)

    def test_a_program_that_is_not_what_was_built_does_not_run(self):
        self.tree.has_proved()
        self.tree.proved.write_text("#!/bin/sh\necho another\n", encoding="utf-8")
        self.answers("quick", said=BUILDING)
        self.tree.quick.write_text("", encoding="utf-8")
        self.answers("quick", said=BUILDING)

    def test_another_toolchain_builds_anew(self):
        self.answers("quick", said=BUILDING)
        (self.tree.room / "kit/KIT-ID").write_text("a later toolchain\n", encoding="utf-8")
        self.answers("quick", said=BUILDING)

    def test_an_unproved_program_is_refused_where_the_proved_one_is_needed(self):
        said = "otbench: the proved program of these sources is not built, and OTBENCH_NEEDS_PROVED allows no other; ./otbench --proved builds it\n"
        self.answers("quick", said=BUILDING)
        for words in (["run"], ["--which"]):
            self.assertEqual(self.tree.run(*words, environment=NEEDS_PROVED), (1, "", said))
        self.tree.has_proved()
        self.answers("proved", environment=NEEDS_PROVED)

    def test_a_program_that_is_named_runs_and_nothing_is_built(self):
        other = self.tree.put("another program", "#!/bin/sh\nprintf '%s.' \"other: $*\" \"${OTBENCH-}\"\ncat\n")
        other.chmod(0o755)
        named = {"OTBENCH": str(other)}
        self.assertEqual(self.tree.run("run", given="input", environment=named), (0, "other: run..input", ""))
        self.assertEqual(self.tree.run("--which", environment=named), (0, f"{other}\n", ""))
        self.assertEqual(self.tree.built(), [])
        said = f"otbench: OTBENCH names {other}, and OTBENCH_NEEDS_PROVED allows the proved program of these sources alone\n"
        self.assertEqual(self.tree.run("run", environment={**named, **NEEDS_PROVED}), (1, "", said))
        nowhere = self.tree.room / "no such/program"
        self.assertEqual(self.tree.run("run", environment={"OTBENCH": str(nowhere)}), (1, "", f"otbench: {nowhere}: there is no such file\n"))
        self.assertEqual(self.tree.built(), [])
        self.tree.has_proved()
        self.answers("proved", environment={"OTBENCH": str(self.tree.proved), **NEEDS_PROVED})
        self.tree.source.write_text("two", encoding="utf-8")
        self.assertEqual(self.tree.run("run", environment={"OTBENCH": str(self.tree.proved), **NEEDS_PROVED})[0], 1)

    def test_a_script_of_javascript_or_this_one_is_no_program_that_is_named(self):
        self.tree.has_proved()
        link = self.tree.room / "link"
        link.symlink_to(self.tree.top / "otbench")
        for name in ("", "some.js", "some.mjs", "some.cjs", self.tree.top / "otbench", link):
            self.answers("proved", environment={"OTBENCH": str(name)})

    def test_which(self):
        self.assertEqual(self.tree.run("--which"), (0, f"{self.tree.quick}\n", BUILDING))
        self.tree.has_proved()
        self.assertEqual(self.tree.run("--which"), (0, f"{self.tree.proved}\n", ""))

    def test_through_a_link_and_from_another_folder(self):
        elsewhere = self.tree.room / "elsewhere"
        elsewhere.mkdir()
        (elsewhere / "input").write_text("input", encoding="utf-8")
        (elsewhere / "link").symlink_to("../tree/otbench")
        self.answers("quick", said=BUILDING, cwd=elsewhere, program="./link")
        self.assertEqual(self.tree.run("run", "input", cwd=elsewhere, program="./link"), (0, "quick one: run\ninput", ""))
        self.assertEqual(self.tree.built(), ["quick"])

    def test_the_status_is_the_programs(self):
        self.answers("quick", said=BUILDING)
        for status in (0, 1, 2, 77):
            self.assertEqual(self.tree.run("run", environment={"FAKE_STATUS": str(status)})[0], status)
        self.assertEqual(self.tree.run("run", environment={"FAKE_SIGNAL": "ILL"})[0], -signal.SIGILL)

    @unittest.skipUnless(shutil.which("cc"), "no C compiler is there")
    def test_a_check_that_fails_is_told_in_words(self):
        main = self.tree.put("main.c", "int main(void) { __builtin_trap(); }")
        program = self.tree.room / "stopped"
        subprocess.run(["cc", "-Wall", "-Wextra", "-Werror", main, TOP / "scripts/stopped.c", "-o", program], check=True)
        ran = subprocess.run([program], capture_output=True, text=True, check=False)
        self.assertEqual((ran.returncode, ran.stdout), (-signal.SIGILL, ""))
        self.assertRegex(ran.stderr, "^otbench: a run-time check failed in this unproved program, and ended it[.].*\n.*\n$")


class Builds(Programs):
    """Builds that end before their time, or are not alone. What was there stays, and the next one goes on."""

    def wait_for(self, holds, what):
        for _ in range(500):
            if holds():
                return
            time.sleep(0.02)
        self.fail(what)

    def started(self, *words):
        """A build that is under way."""
        at_work = self.tree.room / "running"
        at_work.unlink(missing_ok=True)
        running = self.tree.start(*words, environment={"FAKE_SECONDS": "30"})
        self.addCleanup(running.communicate)
        self.wait_for(lambda: at_work.exists() and at_work.read_text(encoding="utf-8").endswith("\n"), "no build began")
        return running, int(at_work.read_text(encoding="utf-8"))

    def stop(self, *words):
        """Ends a build that is under way, by the signals of Ctrl-C, of `kill` and of a machine that is short of memory."""
        for number in (signal.SIGINT, signal.SIGTERM, signal.SIGKILL):
            running, compiler = self.started(*words)
            os.killpg(running.pid, number)
            self.assertNotEqual(running.wait(10), 0)
            self.wait_for(lambda: not os.path.exists(f"/proc/{compiler}"), f"the compiler still runs after signal {number}")

    def test_a_quick_build_that_is_stopped(self):
        self.answers("quick", said=BUILDING)
        self.tree.source.write_text("two", encoding="utf-8")
        before = self.tree.quick.read_bytes()
        self.stop("run")
        self.assertEqual(self.tree.quick.read_bytes(), before)
        self.answers("quick", "two", BUILDING)
        self.assertEqual(list((self.tree.room / "temporary").iterdir()), [])
        self.assertEqual(sorted(it.name for it in self.tree.quick.parent.glob("otbench*")), ["otbench", "otbench.sources"])

    def test_proofs_that_are_stopped(self):
        self.tree.has_proved()
        self.tree.source.write_text("two", encoding="utf-8")
        before = self.tree.proved.read_bytes()
        self.stop("--proved")
        self.assertEqual(self.tree.proved.read_bytes(), before)
        self.tree.has_proved()
        self.answers("proved", "two")

    def test_two_quick_builds_at_once(self):
        pair = [self.tree.start("run", environment={"FAKE_SECONDS": "1"}) for _ in range(2)]
        ended = [(*it.communicate(timeout=30), it.returncode) for it in pair]
        self.assertEqual([(it[0], it[2]) for it in ended], 2 * [("quick one: run\n", 0)])
        waits = "otbench: another build of it is under way; waiting for that one\n"
        self.assertEqual(sorted(it[1] for it in ended), [f"{BUILDING}{waits}", BUILDING][::-1])
        self.assertEqual(self.tree.built(), ["quick"])

    def test_two_proofs_at_once(self):
        pair = [self.tree.start("--proved", environment={"FAKE_SECONDS": "1"}) for _ in range(2)]
        ended = [(*it.communicate(timeout=30), it.returncode) for it in pair]
        self.assertEqual([it[2] for it in ended], [0, 0])
        self.assertIn("otbench: another ./otbench --proved is under way; waiting for that one\notbench: the proved program is crates/otbench/out/otbench\n", [it[1] for it in ended])
        self.assertEqual(len(self.tree.built()), 1)

    def test_what_fails_leaves_what_is_there(self):
        self.answers("quick", said=BUILDING)
        self.tree.has_proved()
        self.tree.source.write_text("two", encoding="utf-8")
        before = self.tree.quick.read_bytes(), self.tree.proved.read_bytes()
        self.assertEqual(self.tree.run("run", environment={"FAKE_FAILS": "quick"}), (1, "", f"{BUILDING}error: the sources do not compile\notbench: nothing was built\n"))
        for part, said in (("proof", "not proved; what is proved is kept, and out/proving.log says more\n  otbench: failed (1)\n"), ("link", "not built; what is proved is kept, and out/proving.log says more\n")):
            status, printed, faults = self.tree.run("--proved", environment={"FAKE_FAILS": part})
            self.assertEqual((status, printed), (1, ""))
            self.assertTrue(faults.endswith(f"otbench: {said}"), faults)
        self.assertEqual((self.tree.quick.read_bytes(), self.tree.proved.read_bytes()), before)
        self.assertIn("== otbench", (self.tree.top / "out/proving.log").read_text(encoding="utf-8"))
        self.answers("quick", "two", BUILDING)

    def test_proving(self):
        status, printed, faults = self.tree.run("--proved", "--jobs", "2")
        self.assertEqual((status, printed), (0, ""))
        said = ("otbench: proving 1 crates; out/proving.log has what rt says\n"
                "otbench: first ot_machine and what lies below it, by 2 processes\n"
                "otbench: so far: 1 of 1 functions checked [(]after [0-9]+ min [0-9]+ s[)]\n"
                "otbench: now the other crates, 3 at a time\n"
                "otbench: 1 of 1 crates done, 0 left, after [0-9]+ min [0-9]+ s: otbench\n"
                "otbench: building the program over what is proved\n"
                "otbench: the proved program is crates/otbench/out/otbench\n")
        self.assertRegex(faults, f"^{said}$")
        self.assertEqual(self.tree.built(), ["all check --jobs 3"])
        self.assertEqual(self.tree.run("--proved"), (0, "", "otbench: the proved program is crates/otbench/out/otbench\n"))
        self.assertEqual(len(self.tree.built()), 1)

    def test_sources_that_change_while_they_are_proved(self):
        running = self.tree.start("--proved", environment={"FAKE_SECONDS": "1"})
        self.wait_for(lambda: self.tree.built(), "no build began")
        self.tree.source.write_text("two", encoding="utf-8")
        said = running.communicate(timeout=30)[1]
        self.assertEqual((running.returncode, said.splitlines()[-1]), (1, "otbench: the sources changed meanwhile: run this again"))
        self.answers("quick", "two", BUILDING)

    def test_sources_that_change_while_they_are_compiled(self):
        running, _ = self.tree.start("run", environment={"FAKE_SECONDS": "1"}), self.wait_for(lambda: self.tree.built(), "no build began")
        self.tree.source.write_text("two", encoding="utf-8")
        self.assertEqual(running.communicate(timeout=30)[0], "quick one: run\n")
        self.answers("quick", "two", BUILDING)

    def test_words_that_are_not_understood(self):
        for words in (["--proved", "--jobs", "0"], ["--proved", "--jobs", "many"], ["--proved", "twice"]):
            status, printed, faults = self.tree.run(*words)
            self.assertEqual((status, printed), (2, ""))
            self.assertIn("usage: ./otbench --proved", faults)
        self.assertEqual(self.tree.built(), [])


class Gate(Programs):
    """What `./test` does with the programs that it finds, and with the one that it builds."""

    def test_the_program_that_it_builds_is_the_proved_one(self):
        self.tree.has_gate()
        status, printed, _ = self.tree.run(program=self.tree.top / "test")
        self.assertEqual((status, printed), (0, "1 passed, 0 failed\n15 passed, 0 failed\n"))
        self.answers("proved")
        self.assertEqual([it.name for it in (self.tree.top / "out").glob("otbench*")], [])

    def test_the_earlier_program_is_put_back_where_it_builds_none(self):
        self.tree.has_gate()
        self.tree.has_proved()
        status, printed, _ = self.tree.run(program=self.tree.top / "test", environment={"FAKE_FAILS": "ci"})
        self.assertEqual((status, printed), (1, "0 passed, 1 failed\n14 passed, 1 failed\n"))
        self.answers("proved")
        self.tree.source.write_text("two", encoding="utf-8")
        self.tree.run(program=self.tree.top / "test", environment={"FAKE_FAILS": "ci"})
        self.answers("quick", "two", BUILDING)


@unittest.skipUnless(can_mount(), "no file system can be mounted here")
class Disks(Programs):
    """Disks that are full, or cannot be written."""

    def within(self, script, **environment):
        """What a script prints that may mount file systems for itself."""
        how = {"cwd": self.tree.top, "env": {**self.tree.environment, **environment}, "text": True, "stdin": subprocess.DEVNULL}
        return subprocess.run(["unshare", "-rm", "sh", "-c", script], stdout=subprocess.PIPE, stderr=subprocess.STDOUT, check=False, **how).stdout

    def test_a_full_disk(self):
        self.answers("quick", said=BUILDING)
        self.tree.source.write_text("two", encoding="utf-8")
        said = self.within("""
            cp -a out out.kept && mount -t tmpfs -o size=256k none out && cp -a out.kept/. out
            ./otbench run; echo "status $?"; cmp out/otbench out.kept/otbench && ls out/otbench*
            mount -o remount,size=8m out && ./otbench run; echo "status $?"
        """, FAKE_BYTES="1000000")
        lacks = "otbench: nothing was built: .*: No space left on device\n"
        self.assertRegex(said, f"^{BUILDING}{lacks}status 1\nout/otbench\nout/otbench.sources\n{BUILDING}quick two: run\n(.*\n)*.*status 0\n$")

    def test_a_full_disk_of_temporary_files(self):
        self.answers("quick", said=BUILDING)
        self.tree.source.write_text("two", encoding="utf-8")
        said = self.within("""
            mount -t tmpfs -o size=256k none "$TMPDIR"
            ./otbench run; echo "status $?"; ls -A "$TMPDIR"
            mount -o remount,size=8m "$TMPDIR" && ./otbench run; echo "status $?"
        """, FAKE_BYTES="1000000")
        self.assertRegex(said, f"^{BUILDING}.*No space left on device\notbench: nothing was linked\nstatus 1\n{BUILDING}quick two: run\n(.*\n)*.*status 0\n$")

    def test_a_full_disk_while_proving(self):
        self.tree.has_proved()
        self.tree.source.write_text("two", encoding="utf-8")
        said = self.within("""
            cp -a out out.kept && mount -t tmpfs -o size=16k none out
            head -c 100000 /dev/zero >out/filler 2>/dev/null
            ./otbench --proved; echo "status $?"; grep -c 'proved SOURCE\\|proved one' crates/otbench/out/otbench
            rm out/filler; ./otbench --proved; echo "status $?"
        """)
        self.assertRegex(said, "(?s)^.*No space left on device.*status 1\n.*status 0\n$")
        self.answers("proved", "two")

    def test_a_checkout_that_cannot_be_written(self):
        read_only = 'mount --bind . . && mount -o remount,ro,bind . && cd "$PWD" && '
        run = './otbench run; echo "status $?"'
        lacks = "otbench: nothing was built: .*/tree/out: Read-only file system\n"
        self.assertRegex(self.within(read_only + run), f"^{BUILDING}{lacks}status 1\n$")
        self.assertRegex(self.within(read_only + './otbench --proved; echo "status $?"'), "^otbench: .*/tree/out: Read-only file system; what is proved is kept\nstatus 1\n$")
        self.answers("quick", said=BUILDING)
        self.assertEqual(self.within(read_only + run), "quick one: run\nstatus 0\n")
        self.tree.has_proved()
        self.assertEqual(self.within(read_only + run), "proved one: run\nstatus 0\n")


if __name__ == "__main__":
    unittest.main()
