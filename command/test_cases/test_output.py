"""Where bytes and verdicts go, and what happens if they cannot go there."""

import os
import resource
import signal
import stat
import subprocess
import threading
import time

import harness
from harness import UNWRITTEN, Case
from images import CONSTANT, HINTS, HINTS_TEXT, Image, checksum, every, large_constant, table

PROFILE = b"\xde\xad\xbe"
ABSENT = "refused: what was asked for is not there (refusal 14, stage 10)\n"
LOST = "tikomuci: standard output: No space left on device\n"


def seven_parts():
    """A part of each kind: the words that ask for it, what is said of it, and its bytes."""
    image = every()
    yield ("string", "1"), {"string": 1, "offset": 29}, b"main"
    yield ("constant", "0"), {"constant": 0, "offset": 80}, PROFILE
    yield ("body", "0"), {"body": 0, "offset": 100}, b"\x0a\x0b\x0c\x0d"
    for word, number in {"Func": 2, "func": 2, "CONSTANT": 4, "7": 7}.items():
        [place] = [section for section in image.sections if section["id"] == number]
        payload = image.bytes[place["offset"] : place["offset"] + place["length"]]
        yield ("section", word), {"section": number, "offset": place["offset"]}, payload


class Parts(Case):
    def test_to_a_file_and_to_standard_output(self):
        for (verb, part), _, data in seven_parts():
            self.says(0, "", "", verb, "every", part, "-o", "out")
            self.holds("out", data)
            self.assertEqual(self.call(verb, "every", part, "-o", "-"), (0, data, b""))

    def test_objects(self):
        for (verb, part), said, data in seven_parts():
            one = self.object(0, "", verb, "--json", "every", part, "-o", "out")
            self.assertEqual(one, {"file": "every", "status": 0, "accepted": True, **said, **checksum(data)})
            self.holds("out", data)

    def test_a_refusal_leaves_out_as_it_was(self):
        self.file("out", b"old")
        before = self.state("out")
        far = str(2**64 - 1)
        for verb, part in [("string", "2"), ("constant", "1"), ("body", far), ("section", "8"), ("section", "0")]:
            self.says(1, "every: " + ABSENT, "", verb, "every", part, "-o", "out")
            one = self.object(1, "", verb, "--json", "every", part, "-o", "out")
            self.assertEqual((one["status"], one["accepted"], one["refusal"], one["stage"]), (1, False, 14, 10))
        for verb in ("string", "constant", "body"):
            self.says(1, "hints: " + HINTS_TEXT, "", verb, "hints", "0", "-o", "out")
            self.assertEqual(self.object(1, "", verb, "--json", "hints", "0", "-o", "out"), {"file": "hints", **HINTS})
        self.holds("out", b"old")
        self.assertEqual(self.state("out"), before)

    def test_a_verdict_is_not_taken_for_bytes(self):
        self.says(1, "", "every: " + ABSENT, "constant", "every", "1", "-o", "-")
        self.says(1, "", "hints: " + HINTS_TEXT, "constant", "hints", "0", "-o", "-")


class Replaced(Case):
    def fetch(self, out, status=0, errors="", **options):
        self.says(status, "", errors, "constant", "every", "0", "-o", out, **options)

    def names(self):
        return set(os.listdir(self.folder))

    def test_a_new_file_has_the_mode_that_the_mask_leaves(self):
        self.fetch("out", umask=0o027)
        self.assertEqual(stat.S_IMODE((self.folder / "out").stat().st_mode), 0o640)
        self.assertEqual(self.names(), {"every", "hints", "out"})

    def test_an_old_file_is_replaced_and_not_written_into(self):
        self.file("out", b"an old one")
        os.chmod(self.folder / "out", 0o604)
        os.link(self.folder / "out", self.folder / "other")
        self.fetch("out", umask=0o077)
        self.holds("out", PROFILE)
        self.holds("other", b"an old one")
        self.assertEqual(stat.S_IMODE((self.folder / "out").stat().st_mode), 0o604)
        self.assertEqual(self.names(), {"every", "hints", "out", "other"})

    def test_who_has_the_old_file_open_keeps_it(self):
        self.file("out", b"an old one")
        with open(self.folder / "out", "rb") as old:
            self.fetch("out")
            self.assertEqual(old.read(), b"an old one")

    def test_the_file_that_a_link_leads_to_is_replaced(self):
        os.mkdir(self.folder / "there")
        self.file("there/file", b"old")
        os.symlink("there/file", self.folder / "link")
        self.fetch("link")
        self.assertTrue((self.folder / "link").is_symlink())
        self.holds("there/file", PROFILE)
        self.assertEqual(os.listdir(self.folder / "there"), ["file"])

    def test_the_file_itself(self):
        self.fetch("every")
        self.holds("every", PROFILE)

    def test_a_write_that_fails_leaves_out_as_it_was(self):
        self.file("large", Image().add(CONSTANT, table([bytes(100000)], 8), 8).end().bytes)
        self.file("out", b"old")
        before = self.state("out")

        def limit():
            resource.setrlimit(resource.RLIMIT_FSIZE, (4096, 4096))

        error = "tikomuci: out: File too large\n"
        self.says(UNWRITTEN, "", error, "constant", "large", "0", "-o", "out", preexec_fn=limit)
        one = self.object(UNWRITTEN, error, "constant", "--json", "large", "0", "-o", "out", preexec_fn=limit)
        self.assertEqual(one, {"file": "large", "status": UNWRITTEN, "path": "out", "error": "File too large"})
        self.holds("out", b"old")
        self.assertEqual(self.state("out"), before)
        self.assertEqual(self.names(), {"every", "hints", "large", "out"})

    def test_what_cannot_be_written(self):
        os.mkdir(self.folder / "folder")
        self.fetch("no/where", UNWRITTEN, "tikomuci: no/where: No such file or directory\n")
        self.fetch("folder", UNWRITTEN, "tikomuci: folder: Is a directory\n")
        self.fetch("every/out", UNWRITTEN, "tikomuci: every/out: Not a directory\n")
        self.fetch("", UNWRITTEN, "tikomuci: : No such file or directory\n")
        self.assertEqual(self.names(), {"every", "hints", "folder"})

    def test_a_device_and_a_pipe_are_written_into(self):
        os.symlink("/dev/full", self.folder / "full")
        self.fetch("full", UNWRITTEN, "tikomuci: full: No space left on device\n")
        self.assertTrue(stat.S_ISCHR(os.stat("/dev/full").st_mode))
        os.mkfifo(self.folder / "pipe")
        read = []
        thread = threading.Thread(target=lambda: read.append((self.folder / "pipe").read_bytes()))
        thread.start()
        self.fetch("pipe")
        thread.join()
        self.assertEqual(read, [PROFILE])
        self.assertTrue(stat.S_ISFIFO((self.folder / "pipe").stat().st_mode))

    def test_a_file_that_may_not_be_written_is_not_replaced(self):
        """As another user if this one may write everything."""
        self.file("out", b"old")
        os.chmod(self.folder / "out", 0o444)
        self.fetch("out", UNWRITTEN, "tikomuci: out: Permission denied\n", **self.as_nobody())
        self.holds("out", b"old")
        self.assertEqual(self.names(), {"every", "hints", "out", "command"})

    def write_large(self, size, **options):
        """Begins to write many bytes, which takes a while."""
        head, length = large_constant(size)
        self.file("large", head)
        os.truncate(self.folder / "large", length)
        return subprocess.Popen([*harness.COMMAND, "constant", "large", "0", "-o", "out"], cwd=self.folder, **options)

    def ended_while_it_writes(self, number, size):
        """Whether the signal came before all was written. Whoever runs the tests may have it ignored."""
        self.file("out", b"old")
        with self.write_large(size, preexec_fn=lambda: signal.signal(number, signal.SIG_DFL)) as process:
            while process.poll() is None and not any(name.startswith(".tikomuci-") for name in self.names()):
                time.sleep(0.001)
            process.send_signal(number)
        self.assertEqual(self.names(), {"every", "hints", "large", "out"})
        there = (self.folder / "out").stat().st_size
        self.assertIn(there, (3, size), "the old bytes or the new ones")
        return there == 3 and process.returncode == -number

    def test_a_signal_leaves_nothing_behind(self):
        for number in (signal.SIGTERM, signal.SIGINT, signal.SIGHUP):
            sizes = [2**bits for bits in range(25, 31)]
            self.assertTrue(any(self.ended_while_it_writes(number, size - 64) for size in sizes))

    def test_a_signal_that_is_ignored_stays_so(self):
        ignore = lambda: signal.signal(signal.SIGHUP, signal.SIG_IGN)
        with self.write_large(2**26, preexec_fn=ignore) as process:
            while process.poll() is None:
                process.send_signal(signal.SIGHUP)
                time.sleep(0.01)
        self.assertEqual((process.returncode, (self.folder / "out").stat().st_size), (0, 2**26))


class Lost(Case):
    def test_standard_output_that_is_full(self):
        calls = [
            ("show", "every"),
            ("show", "--json", "every"),
            ("check", "every", "hints"),
            ("check", "--json", "absent-not-reached", "every"),
            ("constant", "every", "0", "-o", "-"),
            ("constant", "--json", "every", "0", "-o", "out"),
            ("cache-demo", "every"),
            ("cache-demo", "--json", "every", "-o", "out"),
            ("cache", "every", "every"),
            ("--help",),
            ("--version",),
        ]
        for words in calls:
            with open("/dev/full", "wb") as full:
                status, _, errors = self.call(*words, stdout=full)
            self.assertEqual((status, errors.decode().splitlines(True)[-1]), (UNWRITTEN, LOST), words)

    def test_no_file_is_judged_behind_a_line_that_is_lost(self):
        with open("/dev/full", "wb") as full:
            self.says(UNWRITTEN, "", LOST, "check", "every", "absent", stdout=full)

    def test_a_text_that_is_longer_than_a_block(self):
        self.file("long", Image().add(CONSTANT, table([b""] * 5000, 8), 8).end().bytes)
        self.assertEqual(len(self.object(0, "", "show", "--json", "long")["constants"]), 5000)
        with open("/dev/full", "wb") as full:
            self.says(UNWRITTEN, "", LOST, "show", "long", stdout=full)

    def test_standard_output_that_is_closed(self):
        command = ["sh", "-c", 'exec "$0" "$@" >&-', *harness.COMMAND]
        error = "tikomuci: standard output: Bad file descriptor\n"
        self.says(UNWRITTEN, "", error, "check", "every", command=command)
        self.says(UNWRITTEN, "", error, "constant", "--json", "every", "0", "-o", "out", command=command)
        self.holds("out", PROFILE)
        self.says(0, "", "", "constant", "every", "0", "-o", "out", command=command)

    def test_a_reader_that_went_away(self):
        self.file("long", Image().add(CONSTANT, table([b""] * 50000, 8), 8).end().bytes)
        words = [*harness.COMMAND, "show", "long"]
        with subprocess.Popen(words, cwd=self.folder, stdout=subprocess.PIPE, stderr=subprocess.PIPE) as process:
            self.assertEqual(process.stdout.readline(), b"long: accepted\n")
            process.stdout.close()
            self.assertEqual((process.stderr.read(), process.wait()), (b"", -signal.SIGPIPE))
