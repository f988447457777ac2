"""Progress on standard error, where that is a terminal and a file takes its time."""

import os
import pty
import select
import subprocess
import time

import harness
from harness import TIMEOUT, Case
from images import every


class Terminal:
    """What a program writes to a terminal."""

    def __init__(self, case):
        self.ours, self.theirs = pty.openpty()
        self.seen = b""
        case.addCleanup(os.close, self.ours)

    def wait_for(self, text):
        """Until this is seen, or nothing more comes."""
        while text not in self.seen and select.select([self.ours], [], [], TIMEOUT)[0]:
            try:
                self.seen += os.read(self.ours, 4096)
            except OSError:
                return

    def lines(self):
        """What stood in the line, one after the other."""
        return [line.rstrip(" ") for line in self.seen.decode().split("\r")]


class Progress(Case):
    def watched(self, *words, out=subprocess.PIPE):
        """Feeds half of a file to standard input, and the rest when progress is seen."""
        terminal = Terminal(self)
        out = terminal.theirs if out == "terminal" else out
        streams = {"stdin": subprocess.PIPE, "stdout": out, "stderr": terminal.theirs}
        data = every().bytes
        with subprocess.Popen([*harness.COMMAND, *words], cwd=self.folder, **streams) as process:
            os.close(terminal.theirs)
            process.stdin.write(data[:50])
            process.stdin.flush()
            terminal.wait_for(b"reading")
            process.stdin.write(data[50:])
            process.stdin.close()
            said = process.stdout.read().decode() if process.stdout else None
            self.assertEqual(process.wait(), 0)
        terminal.wait_for(b"the end")
        return terminal, said

    def test_a_file_that_takes_more_than_a_second(self):
        begun = time.monotonic()
        terminal, said = self.watched("check", "-")
        self.assertGreater(time.monotonic() - begun, 1)
        self.assertEqual(said, "-: accepted\n")
        lines = terminal.lines()
        self.assertRegex(lines[1], r"^tikomuci: reading, 0 MiB, [1-9]\d* s$")
        self.assertEqual((lines[0], lines[-2:]), ("", ["", ""]), "the line is gone in the end")
        self.assertNotIn(b"\n", terminal.seen)

    def test_which_of_several_files(self):
        terminal, said = self.watched("check", "every", "-", "every")
        self.assertEqual(said, "every: accepted\n-: accepted\nevery: accepted\n")
        shown = [line for line in terminal.lines() if "reading" in line]
        self.assertRegex(shown[-1], r"^tikomuci: file 2 of 3, reading, 0 MiB, [1-9]\d* s$")

    def test_which_of_the_files_that_are_put(self):
        terminal, said = self.watched("cache-demo", "every", "-")
        self.assertTrue(said.startswith("every, instance 1, slot 0: accepted\n-, instance 2, slot 1: accepted\n"), said)
        shown = [line for line in terminal.lines() if "reading" in line]
        self.assertRegex(shown[-1], r"^tikomuci: file 2 of 2, reading, 0 MiB, [1-9]\d* s$")

    def test_what_is_done_behind_the_last_file_has_no_number(self):
        os.mkfifo(self.folder / "out.buffer")
        terminal = Terminal(self)
        words = [*harness.COMMAND, "cache-demo", "every", "every", "-o", "out"]
        streams = {"stdout": subprocess.DEVNULL, "stderr": terminal.theirs}
        with subprocess.Popen(words, cwd=self.folder, **streams) as process:
            os.close(terminal.theirs)
            terminal.wait_for(b"writing")
            data = (self.folder / "out.buffer").read_bytes()
            self.assertEqual((process.wait(), len(data)), (0, 64 * len(every().bytes)))
        shown = [line for line in terminal.lines() if "writing" in line]
        self.assertRegex(shown[-1], r"^tikomuci: writing, 0 of 0 MiB, [1-9]\d* s$")

    def test_the_line_does_not_stand_in_the_text(self):
        terminal, _ = self.watched("check", "-", out="terminal")
        self.assertRegex(terminal.seen, rb"reading, 0 MiB, \d+ s *(\r.*)?\r +\r-: accepted\r\n$")

    def test_a_file_that_is_quick(self):
        """On a machine that is too busy no file is."""
        for _ in range(20):
            terminal = Terminal(self)
            begun = time.monotonic()
            command = [*harness.COMMAND, "check", "every"]
            subprocess.run(command, cwd=self.folder, stdout=subprocess.DEVNULL, stderr=terminal.theirs, check=True)
            took = time.monotonic() - begun
            os.close(terminal.theirs)
            if took < 1:
                terminal.wait_for(b"anything")
                self.assertEqual(terminal.seen, b"")
                return
        self.skipTest("each call took more than a second")

    def test_no_terminal(self):
        streams = {"stdin": subprocess.PIPE, "stdout": subprocess.PIPE, "stderr": subprocess.PIPE}
        with subprocess.Popen([*harness.COMMAND, "check", "-"], **streams) as process:
            time.sleep(1.5)
            self.assertEqual(process.communicate(every().bytes), (b"-: accepted\n", b""))
