"""Where files come from."""

import os
import resource
import threading
import unittest

import harness
from harness import MEMORY, UNREADABLE, Case, sanitized
from images import HINTS_TEXT, every


class Input(Case):
    def feed(self, name, data):
        """Makes a pipe with a name, and a thread that writes to it, in pieces."""
        os.mkfifo(self.folder / name)

        def write():
            with open(self.folder / name, "wb", buffering=0) as pipe:
                for at in range(0, len(data), 7):
                    pipe.write(data[at : at + 7])

        thread = threading.Thread(target=write)
        thread.start()
        self.addCleanup(thread.join)

    def test_a_pipe_with_a_name(self):
        self.feed("pipe", every().bytes)
        self.says(0, "pipe: accepted\n", "", "check", "pipe")

    def test_a_pipe_that_has_a_refused_file(self):
        self.feed("pipe", every(flags=4).bytes)
        self.says(1, "pipe: " + HINTS_TEXT, "", "check", "pipe")

    def test_standard_input(self):
        self.says(0, "-: accepted\n", "", "check", "-", input=every().bytes)
        with open(self.folder / "every", "rb") as file:
            self.assertEqual(self.object(0, "", "show", "--json", "-", stdin=file)["file"], "-")
        self.assertEqual(self.call("constant", "-", "0", "-o", "-", input=every().bytes), (0, b"\xde\xad\xbe", b""))

    def test_a_file_that_is_called_as_standard_input(self):
        self.file("-", every().bytes)
        self.says(0, "./-: accepted\n", "", "check", "./-")

    def test_standard_input_that_is_closed(self):
        closed = 'exec "$0" "$@" <&-'
        command = ["sh", "-c", closed, *harness.COMMAND]
        self.says(UNREADABLE, "", "tikomuci: -: Bad file descriptor\n", "check", "-", command=command)

    def test_what_cannot_be_read(self):
        self.file("vanished", every().bytes)
        os.remove(self.folder / "vanished")
        absent = "No such file or directory"
        for name, why in {"vanished": absent, "": absent, ".": "Is a directory"}.items():
            error = f"tikomuci: {name}: {why}\n"
            self.says(UNREADABLE, "", error, "show", name)
            self.says(UNREADABLE, "", error, "constant", name, "0", "-o", "out")
            one = {"file": name, "status": UNREADABLE, "path": name, "error": why}
            self.assertEqual(self.object(UNREADABLE, error, "show", "--json", name), one)
        self.assertFalse((self.folder / "out").exists())

    def test_a_file_that_may_not_be_read(self):
        """As another user if this one may read everything."""
        os.chmod(self.folder / "every", 0)
        options = self.as_nobody()
        error = "tikomuci: every: Permission denied\n"
        self.says(UNREADABLE, "", error, "check", "every", **options)
        self.assertEqual(self.object(UNREADABLE, error, "check", "--json", "every", **options)["path"], "every")

    def test_a_file_without_an_end_is_read_up_to_the_limit(self):
        one = self.object(1, "", "show", "--json", "/dev/zero")
        self.assertEqual((one["refusal"], one["stage"], one["size"], one["version"]), (1, 0, None, None))

    def test_a_file_as_long_as_the_limit(self):
        with open(self.folder / "long", "wb") as file:
            file.write(every().bytes)
            file.truncate(2**30)
        self.says(0, "long: accepted\n", "", "check", "long")

    @unittest.skipIf(not harness.COMMAND or sanitized(), "a sanitizer ends the program where there is no memory")
    def test_not_enough_memory(self):
        def limit():
            resource.setrlimit(resource.RLIMIT_AS, (2**29, 2**29))

        error = "tikomuci: /dev/zero: there is not enough memory\n"
        self.says(MEMORY, "every: accepted\n", error, "check", "every", "/dev/zero", preexec_fn=limit)
        objects = self.objects(MEMORY, error, "check", "--json", "/dev/zero", "every", preexec_fn=limit)
        wanted = {"file": "/dev/zero", "status": MEMORY, "path": "/dev/zero", "error": "there is not enough memory"}
        self.assertEqual((objects[0], objects[1]["accepted"]), (wanted, True))
