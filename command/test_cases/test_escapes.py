"""Names of files and strings are any bytes: none of them steers a terminal, and none is lost."""

import os
import re

from harness import HOSTILE, Case
from images import STRING, Image, every, table

LETTERS = [chr(code) for code in range(0x110000) if not 0xD800 <= code <= 0xDFFF]
# C0, C1, the direction of writing, lines, and what is not seen, the last of it above FFFF.
HOSTILE_NAMES = [text.encode() for text in ("a\x1b[31mb", "a\nb", "a\x9bb", "a\u202eb", "a\u2028b", "a\U000e0041b")]
ESCAPED_NAMES = [r"a\x1b[31mb", r"a\x0ab", r"a\u{9b}b", r"a\u{202e}b", r"a\u{2028}b", r"a\u{e0041}b"]
# A continuation alone, a character that is cut, a long form, a surrogate, above 10FFFF, and a lead that does not exist.
NO_UTF8 = [b"a\x80", b"a\xe2\x82", b"\xc0\xafa", b"\xed\xa0\x80", b"\xf4\x90\x80\x80", b"\xffa"]
NO_UTF8_ESCAPED = [r"a\x80", r"a\xe2\x82", r"\xc0\xafa", r"\xed\xa0\x80", r"\xf4\x90\x80\x80", r"\xffa"]


def unescaped(text):
    """The bytes that a text between quotes stands for."""
    pieces = re.findall(r"\\u\{([0-9a-f]+)\}|\\x([0-9a-f]{2})|\\(.)|([^\\]+)", text, re.DOTALL)
    return b"".join(
        chr(int(code, 16)).encode() if code else bytes.fromhex(byte) if byte else (quoted or plain).encode()
        for code, byte, quoted, plain in pieces
    )


class Strings(Case):
    def strings(self, entries):
        """The strings of a file, as JSON and as text have them."""
        self.file("strings", Image().add(STRING, table(entries)).end().bytes)
        shown = self.object(0, "", "show", "--json", "strings")["strings"]
        status, out, errors = self.said("show", "strings")
        self.assertEqual((status, errors), (0, ""))
        rows = out.split(f"strings ({len(entries)})\n")[1].splitlines()
        return shown, [row.split("] ", 1)[1] for row in rows]

    def test_every_character(self):
        """Both forms stand for the characters, and `said` looks for what may not stand in them as it is."""
        text = "".join(LETTERS)
        [shown], [row] = self.strings([text.encode()])
        self.assertEqual(shown, text)
        self.assertEqual(unescaped(row[1:-1]), text.encode())
        self.assertTrue(HOSTILE <= set(text))

    def test_what_can_be_read_stays_as_it_is(self):
        words = ["na\u00efve", "\u6f22\u5b57", "\u05d0\u05d1", "\U0001f3a7", "a b'c"]
        shown, rows = self.strings([word.encode() for word in words])
        self.assertEqual((shown, rows), (words, [f'"{word}"' for word in words]))
        out = self.said("show", "--json", "strings")[1]
        self.assertTrue(all(f'"{word}"' in out for word in words))

    def test_what_is_no_utf8(self):
        shown, rows = self.strings(NO_UTF8)
        self.assertEqual(shown, [{"hex": data.hex()} for data in NO_UTF8])
        self.assertEqual(rows, [f'"{text}"' for text in NO_UTF8_ESCAPED])


class Names(Case):
    def test_verdicts(self):
        for name, escaped in zip(HOSTILE_NAMES + NO_UTF8, ESCAPED_NAMES + NO_UTF8_ESCAPED):
            self.file(name, every().bytes)
            self.says(0, f"{escaped}: accepted\n", "", "check", name)
            self.assertEqual(self.said("show", name)[1].split("\n")[0], f"{escaped}: accepted")
            self.file(name, b"")
            self.assertEqual(self.said("check", name)[1].split(": refused")[0], escaped)

    def test_objects(self):
        for name in HOSTILE_NAMES:
            self.file(name, every().bytes)
            self.assertEqual(self.object(0, "", "check", "--json", name)["file"], name.decode())
        for name in NO_UTF8:
            self.file(name, b"")
            self.assertEqual(self.object(1, "", "show", "--json", name)["file"], {"hex": name.hex()})

    def test_errors(self):
        for name, escaped in zip(HOSTILE_NAMES + NO_UTF8, ESCAPED_NAMES + NO_UTF8_ESCAPED):
            absent = f"tikomuci: {escaped}: No such file or directory\n"
            self.says(3, "", absent, "show", name)
            one = self.object(3, absent, "check", "--json", name)
            self.assertEqual(one["file"], {"hex": name.hex()} if name in NO_UTF8 else name.decode())
            out = os.path.join(b"absent", name)
            nowhere = f"tikomuci: absent/{escaped}: No such file or directory\n"
            self.says(4, "", nowhere, "constant", "every", "0", "-o", out)
            self.assertEqual(self.object(4, nowhere, "constant", "--json", "every", "0", "-o", out)["status"], 4)

    def test_words_that_are_not_understood(self):
        for word, escaped in zip(HOSTILE_NAMES + NO_UTF8, ESCAPED_NAMES + NO_UTF8_ESCAPED):
            self.says(2, "", f"tikomuci: there is no command {escaped}; see tikomuci --help\n", word)
            self.says(2, "", f"tikomuci: there is no option --{escaped}; see tikomuci --help\n", b"--" + word)
            self.says(
                2,
                "",
                f"tikomuci: {escaped} is no number of a row; see tikomuci --help\n",
                *("constant", "every", word, "-o", "out"),
            )

    def test_a_backslash_and_quotes(self):
        self.file("a\\\"'", every().bytes)
        self.says(0, "a\\\\\"': accepted\n", "", "check", "a\\\"'")
        self.assertEqual(self.object(0, "", "check", "--json", "a\\\"'")["file"], "a\\\"'")
