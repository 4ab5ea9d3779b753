"""The debugger at a terminal: a pseudo-terminal types what a person would. Wants node and the program."""
import fcntl
import os
import pathlib
import pty
import re
import select
import shutil
import struct
import subprocess
import tempfile
import termios
import time
import unittest

TOP = pathlib.Path(__file__).resolve().parents[2]
PROGRAM = os.environ.get("OTBENCH", TOP / "crates/otbench/out/otbench")
ESCAPES = re.compile(r"\x1b\[[0-9;?]*[A-Za-z]")


class Terminal:
    """A debugger at a terminal of its own."""

    def __init__(self, *words, call=None, output=None, state=None, rows=0, **more):
        """call: what runs in place of the debugger; output: a file for its standard output; state: the folder for the state of programs; rows: of the screen."""
        master, slave = pty.openpty()
        fcntl.ioctl(slave, termios.TIOCSWINSZ, struct.pack("HHHH", rows, 80, 0, 0))
        self.state = tempfile.TemporaryDirectory()
        environment = {**os.environ, "OTBENCH": str(PROGRAM), "TERM": "xterm", "XDG_STATE_HOME": state or self.state.name, **more}
        self.ran = subprocess.Popen([*(call or ["node", TOP / "command/cli.mjs", "debug"]), *words], stdin=slave, stdout=output or slave, stderr=slave, env=environment, start_new_session=True, preexec_fn=lambda: fcntl.ioctl(slave, termios.TIOCSCTTY, 0))
        os.close(slave)
        self.master = master
        self.bytes = b""

    def until(self, wanted, seconds=20):
        """What was shown up to these words."""
        shown, end = "", time.monotonic() + seconds
        while not re.search(wanted, shown):
            ready, _, _ = select.select([self.master], [], [], max(0, end - time.monotonic()))
            if not ready:
                raise AssertionError(f"{wanted!r} was not shown, but {shown!r}")
            read = os.read(self.master, 65536)
            self.bytes += read
            shown += ESCAPES.sub("", read.decode())
        return shown

    def type(self, text, wanted):
        os.write(self.master, text.encode())
        return self.until(wanted)

    def close(self):
        os.close(self.master)
        self.ran.kill()
        self.ran.wait()
        self.state.cleanup()


@unittest.skipUnless(shutil.which("node") and os.path.exists(PROGRAM), "node or the program is not there")
class Debugging(unittest.TestCase):
    def start(self, *words, **how):
        terminal = Terminal(*words, **how)
        self.addCleanup(terminal.close)
        terminal.until(r"\(0/\d+\) ")
        return terminal

    def start_beside_a_port(self):
        """The session of examples/weak-order.ots, and the lines of a port that does not transform its buffer."""
        folder = tempfile.TemporaryDirectory()
        self.addCleanup(folder.cleanup)
        schedule = TOP / "examples/weak-order.ots"
        lines = subprocess.run([PROGRAM, "steps"], input=schedule.read_text(), capture_output=True, text=True, check=True).stdout
        port = pathlib.Path(folder.name, "port.jsonl")
        port.write_text(lines.replace('"buffer":["a",1,-1,1],"applied"', '"buffer":["a",-1,1],"applied"'))
        return self.start(str(schedule), "--port", str(port))

    def test_an_editor_opens_the_schedule_and_the_run_is_read_again(self):
        """The terminal is the editor's meanwhile, and the debugger's again behind it."""
        folder = tempfile.TemporaryDirectory()
        self.addCleanup(folder.cleanup)
        schedule = pathlib.Path(folder.name, "a b.ots")
        schedule.write_text("clients 1\nread 0\n")
        terminal = self.start(str(schedule), VISUAL="printf 'read 0\\n' >>")
        terminal.type("edit\r", r"the end: quiet[^(]*\(1/2\) |\(0/2\) ")
        terminal.type("goto end\r", r"\(2/2\) ")
        self.assertEqual(schedule.read_text(), "clients 1\nread 0\nread 0\n")

    def test_a_port_s_fault_is_found_in_three_commands(self):
        """Where, what, and what had to be; in five keys without the full words: r, e, sh 0."""
        for run, explain, show in (("run", "explain", "show 0"), ("r", "e", "sh 0")):
            terminal = self.start_beside_a_port()
            shown = terminal.type(f"{run}\r", r"note [^\r]*\r\n\(7/16\) ")
            self.assertIn("line 11, instruction 6: deliver 0", shown)
            self.assertIn("differs at 7: deliver 0: client 0 buffer", shown)
            self.assertIn("rule AwaitingWithBuffer.applyServer", shown)
            self.assertIn("transforms it against its outstanding operation", terminal.type(f"{explain}\r", r"\(7/16\) $"))
            self.assertIn('  buffer ["a",1,-1,1]', terminal.type(f"{show}\r", r"\(7/16\) $"))

    def test_back_from_the_end_to_the_instruction_in_which_a_port_differs(self):
        terminal = self.start_beside_a_port()
        terminal.type("goto end\r", r"\(16/16\) $")
        shown = terminal.type("rrun\r", r"note [^\r]*\r\n\(6/16\) ")
        self.assertIn("before line 11, instruction 6: deliver 0", shown)
        self.assertIn("differs at 7: deliver 0: client 0 buffer", shown)
        self.assertIn("line 11, instruction 6: deliver 0", terminal.type("explain\r", r"\(6/16\) $"))

    def test_back_from_a_wrong_document_to_the_instruction_that_made_it(self):
        terminal = self.start(str(TOP / "examples/weak-order.ots"))
        terminal.type("goto end\r", r"\(16/16\) $")
        terminal.type("watch doc 0\r", r"\(16/16\) $")
        shown = terminal.type("rrun\r", r"\(6/16\) $")
        self.assertIn("before line 11, instruction 6: deliver 0", shown)
        self.assertIn('client 0 doc: "az" -> "acz"', shown)

    def test_the_key_that_interrupts_drops_the_line(self):
        """Wherever the cursor stands in it."""
        terminal = self.start(str(TOP / "examples/two-clients.ots"))
        for typed in ("goto 5", "goto 5\x1b[D\x1b[D", ""):
            terminal.type(f"{typed}\x03", r"\^C\r\n\(\d/8\) $")
            self.assertNotIn("no place", terminal.type("step\r", r"behind line[^\r]*\r\n[^\r]*\r\n\(\d/8\) $"))
        self.assertIn("behind line", terminal.type("\r", r"\(4/8\) $"))

    def test_the_key_that_interrupts_ends_a_search_where_it_began(self):
        """What is typed behind the key is the next line."""
        folder = tempfile.TemporaryDirectory()
        self.addCleanup(folder.cleanup)
        schedule = pathlib.Path(folder.name, "long.ots")
        length = 30_000
        schedule.write_text('clients 1\nstart "' + "\U0001f600" * length + '"\n' + f"edit 0 [1,\"x\",{length - 1}]\nedit 0 [1,-1,{length - 1}]\n" * 1500)
        terminal = self.start(str(schedule))
        terminal.type("step\r", r"\(1/3000\) ")
        os.write(terminal.master, b"find nosuch\r")
        time.sleep(0.5)
        shown = terminal.type("lost\x03goto 2\r", r"\(2/3000\) ")
        self.assertIn("interrupted; the place is as it was", shown)
        self.assertNotIn("lost", shown.split("interrupted")[1])
        self.assertIn("(1/3000) goto 2", shown)

    def test_history_completion_and_the_end(self):
        terminal = self.start(str(TOP / "examples/two-clients.ots"))
        terminal.type("ste\t\r", r"\(1/8\) $")
        terminal.type("\x1b[A\r", r"\(2/8\) $")
        terminal.type("\r", r"\(3/8\) $")
        os.write(terminal.master, b"\x04")
        self.assertEqual(terminal.ran.wait(timeout=10), 0)

    @unittest.skipUnless(shutil.which("bash"), "no bash is there")
    def test_a_session_that_is_stopped_goes_on(self):
        """Ctrl-Z, a line to the shell, and fg, twice; the line that was begun is there."""
        shell = Terminal("--norc", "--noprofile", "-i", call=["bash"], PS1="$ ")
        self.addCleanup(shell.close)
        shell.until(r"\$ $")
        shell.type(f"node {TOP}/command/cli.mjs debug {TOP}/examples/two-clients.ots\r", r"\(0/8\) $")
        shell.type("step\r", r"\(1/8\) $")
        for place in (1, 2):
            os.write(shell.master, b"ste")
            shell.type("\x1a", r"Stopped[^$]*\$ $")
            shell.type("echo he''re\r", r"here\r\n\$ $")
            shell.type("fg\r", rf"\({place}/8\) ste")
            shell.type("p\r", rf"\({place + 1}/8\) $")
        shell.type("quit\r", r"\$ $")

    def test_an_output_that_is_no_terminal_has_the_answers_alone(self):
        """The prompt and what is typed are on standard error; no escape is in the output."""
        with tempfile.TemporaryFile() as output:
            terminal = self.start(str(TOP / "examples/two-clients.ots"), output=output)
            terminal.type("step\r", r"\(1/8\) $")
            terminal.type("quit\r", "quit")
            self.assertEqual(terminal.ran.wait(timeout=10), 0)
            output.seek(0)
            said = output.read().decode()
        self.assertNotIn("\x1b", said)
        self.assertNotIn("(0/8)", said)
        self.assertIn("behind line 4, instruction 0: edit 0", said)

    def test_what_a_terminal_would_obey_is_shown_by_its_number(self):
        with tempfile.TemporaryDirectory() as folder:
            file = pathlib.Path(folder, "a.ots")
            file.write_text('clients 1\nstart "a\u202eb\x9b2J"\nedit 0 [6,"\u2066"]\n', encoding="utf-8")
            terminal = self.start(str(file))
            for command in ("explain", "step", "show", "print doc 0", "list"):
                terminal.type(f"{command}\r", r"\(\d/1\) $")
            shown = terminal.bytes.decode()
        self.assertIn("a\\u202eb\\u009b2J\\u2066", shown)
        for character in "\u202e\x9b\u2066":
            self.assertNotIn(character, shown)

    def test_colours_unless_a_person_wants_none(self):
        for more, has_colours in (({}, True), ({"NO_COLOR": "1"}, False)):
            terminal = self.start(str(TOP / "examples/two-clients.ots"), **more)
            terminal.type("step\r", r"\(1/8\) $")
            self.assertEqual(b"\x1b[1mbehind line" in terminal.bytes, has_colours)

    def test_what_is_longer_than_the_screen_goes_to_the_pager(self):
        """Where there is one; what fits the screen is printed."""
        for pager, has_pager in (("sed s/^/paged:/", True), ("", False), ("no-such-pager", False)):
            terminal = self.start(str(TOP / "examples/two-clients.ots"), rows=10, PAGER=pager)
            self.assertNotIn("paged:", terminal.type("step\r", r"\(1/8\) $"))
            shown = terminal.type("help\r", r"counted from 0\.\r\n\(1/8\) $")
            self.assertEqual("paged:step" in shown, has_pager, shown)
            terminal.type("step\r", r"\(2/8\) $")

    def test_the_history_is_kept_for_the_next_session(self):
        with tempfile.TemporaryDirectory() as state:
            terminal = self.start(str(TOP / "examples/two-clients.ots"), state=state)
            terminal.type("goto 5\r", r"\(5/8\) $")
            terminal.type("quit\r", "quit")
            self.assertEqual(terminal.ran.wait(timeout=10), 0)
            again = self.start(str(TOP / "examples/two-clients.ots"), state=state)
            again.type("\x1b[A\x1b[A\r", r"\(5/8\) $")


if __name__ == "__main__":
    unittest.main()
