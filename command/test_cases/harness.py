"""What all tests of the command need."""

import json
import os
import shutil
import subprocess
import tempfile
import unicodedata
import unittest
from pathlib import Path

from images import every

# Set before any test runs.
COMMAND = []

ROOT = Path(__file__).resolve().parent.parent.parent
# Those of the library's own writer, and those of the genuine one.
FILES = [*(ROOT / "hosts/cpp/fuzz/corpus/file").iterdir(), *(ROOT / "hosts/files").glob("*.tileirbc")]
TIMEOUT = 300
MISUSED, UNREADABLE, UNWRITTEN, MEMORY = 2, 3, 4, 5

# What may not reach a terminal: controls, separators of lines, and what changes the direction of writing.
BIDI_CLASSES = {"LRE", "RLE", "LRO", "RLO", "PDF", "LRI", "RLI", "FSI", "PDI"}
BIDI_MARKS = {"\u061c", "\u200e", "\u200f"}


def is_hostile(letter):
    controls = unicodedata.category(letter) in {"Cc", "Zl", "Zp"} and letter != "\n"
    return controls or unicodedata.bidirectional(letter) in BIDI_CLASSES or letter in BIDI_MARKS


HOSTILE = {chr(code) for code in range(0x110000) if is_hostile(chr(code))}


def sanitized():
    return b"__asan_init" in Path(COMMAND[-1]).read_bytes()


def no_repetition(pairs):
    if len({key for key, _ in pairs}) != len(pairs):
        raise ValueError("a key stands twice")
    return dict(pairs)


def no_constant(name):
    raise ValueError(name + " is no JSON")


def parsed(line):
    return json.loads(line, object_pairs_hook=no_repetition, parse_constant=no_constant)


class Case(unittest.TestCase):
    maxDiff = None

    def setUp(self):
        self.folder = Path(tempfile.mkdtemp())
        self.addCleanup(shutil.rmtree, self.folder)
        self.file("every", every().bytes)
        self.file("hints", every(flags=4).bytes)

    def file(self, name, data):
        with open(os.path.join(os.fsencode(self.folder), os.fsencode(name)), "wb") as file:
            file.write(data)

    def holds(self, name, data):
        self.assertEqual((self.folder / name).read_bytes(), data)

    def state(self, name):
        """What changes if a file is written or replaced."""
        about = (self.folder / name).stat()
        return about.st_ino, about.st_mode, about.st_size, about.st_mtime_ns

    def as_nobody(self):
        """Options of a call by a user who may not do everything."""
        os.chmod(self.folder, 0o777)
        shutil.copy(COMMAND[-1], self.folder / "command")
        command = [*COMMAND[:-1], self.folder / "command"]
        nobody = {"user": 65534, "group": 65534, "extra_groups": []}
        return {"command": command, **(nobody if os.geteuid() == 0 else {})}

    def call(self, *words, command=None, **options):
        """The status of a call, and what it writes to standard output and to standard error, as bytes."""
        options = {"cwd": self.folder, "timeout": TIMEOUT, "stdout": subprocess.PIPE, **options}
        if "input" not in options:
            options.setdefault("stdin", subprocess.DEVNULL)
        done = subprocess.run([*(command or COMMAND), *words], stderr=subprocess.PIPE, **options)
        return done.returncode, done.stdout or b"", done.stderr

    def said(self, *words, **options):
        """The same as text, in which nothing may be that steers a terminal."""
        status, out, errors = self.call(*words, **options)
        self.assertEqual(HOSTILE & set(out.decode() + errors.decode()), set())
        return status, out.decode(), errors.decode()

    def says(self, status, out, errors, *words, **options):
        self.assertEqual(self.said(*words, **options), (status, out, errors), words)

    def objects(self, status, errors, *words, **options):
        """What a call with --json says: one object in each line."""
        code, out, said = self.said(*words, **options)
        self.assertEqual((code, said), (status, errors), words)
        lines = out.split("\n")
        self.assertEqual(lines.pop(), "", "the last line has an end")
        return [parsed(line) for line in lines]

    def object(self, status, errors, *words, **options):
        [one] = self.objects(status, errors, *words, **options)
        return one
