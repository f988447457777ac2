"""What `show` and `check` say of files."""

import hashlib
import os

from harness import FILES, Case
from images import (
    CONSTANT,
    EVERY_ROWS,
    EVERY_ROWS_TEXT,
    EVERY_SECTIONS_TEXT,
    FUNC,
    HINTS,
    HINTS_TEXT,
    KINDS_ROWS,
    KINDS_ROWS_TEXT,
    STRING,
    Image,
    checksum,
    every,
    every_kind,
    table,
)
from walk import container

ODD_TEXT = r"""odd: accepted
Tile IR bytecode 13.1.7, 46 bytes

sections (2)
  [0] String (id 1): 18 bytes at 14, counts
  [1] Func (id 2): 11 bytes at 34, counts
  end marker at 45, 0 bytes behind it

strings (2)
  [0] "a\"\x0a\\"
  [1] "\xffb"

functions (2)
  [0] func <no string 9> : <no type 9>, public, location 0, body of 0 bytes, sha256 e3b0c44298fc1c14..
  [1] func "a\"\x0a\\" : <no type 0>, private, location 0, body of 0 bytes, sha256 e3b0c44298fc1c14..
"""

# The vectors that are published with SHA-256.
PUBLISHED = {
    b"": "e3b0c44298fc1c149afbf4c8996fb92427ae41e4649b934ca495991b7852b855",
    b"abc": "ba7816bf8f01cfea414140de5dae2223b00361a396177a9cb410ff61f20015ad",
    b"abcdbcdecdefdefgefghfghighijhijkijkljklmklmnlmnomnopnopq": (
        "248d6a61d20638b8e5c026930c3e6039a33ce45964ff2167f6ecedd419db06c1"
    ),
    b"a" * 1000000: "cdc76e5c9914fb9281a1c7e284d73e67f1809a48a497200e046d39ccc7112cd0",
}


class Shown(Case):
    def test_a_row_in_every_table(self):
        self.says(0, "every: accepted\n" + EVERY_SECTIONS_TEXT + EVERY_ROWS_TEXT, "", "show", "every")
        wanted = {"file": "every", "status": 0, "accepted": True, **every().container(), **EVERY_ROWS}
        self.assertEqual(self.object(0, "", "show", "--json", "every"), wanted)

    def test_every_kind(self):
        image = every_kind()
        self.file("kinds", image.bytes)
        status, out, errors = self.said("show", "kinds")
        self.assertEqual((status, errors), (0, ""))
        self.assertEqual(out[out.index("\ntypes") :], KINDS_ROWS_TEXT)
        wanted = {"file": "kinds", "status": 0, "accepted": True, **image.container(), **KINDS_ROWS}
        self.assertEqual(self.object(0, "", "show", "kinds", "--json"), wanted)

    def test_rows_that_name_what_is_not_there(self):
        functions = bytes.fromhex("02 0909000000 0000010000")
        image = Image(13, 1, 7).add(STRING, table([b'a"\n\\', b"\xffb"])).add(FUNC, functions).end()
        self.file("odd", image.bytes)
        self.says(0, ODD_TEXT, "", "show", "odd")
        shown = self.object(0, "", "show", "--json", "odd")
        self.assertEqual(shown["strings"], ['a"\n\\', {"hex": "ff62"}])
        self.assertEqual(shown["version"], {"major": 13, "minor": 1, "tag": 7})
        self.assertEqual([row["name"] for row in shown["functions"]], [9, 0])

    def test_a_long_name_is_cut_between_two_characters(self):
        name = "x" * 63 + "\u00e9" + "y" * 9
        image = Image().add(STRING, table([name.encode()])).add(FUNC, bytes.fromhex("01 0000000000")).end()
        self.file("long", image.bytes)
        _, out, _ = self.said("show", "long")
        self.assertIn(f'  [0] "{name}"\n', out)
        self.assertIn(f'func "{"x" * 63}".. : <no type 0>', out)

    def test_several_files(self):
        shown = "every: accepted\n" + EVERY_SECTIONS_TEXT + EVERY_ROWS_TEXT
        refused = "hints: " + HINTS_TEXT + EVERY_SECTIONS_TEXT + "  a payload that counts can be viewed\n"
        absent = "tikomuci: absent: No such file or directory\n"
        self.says(3, f"{shown}\n{refused}\n{shown}", absent, "show", "every", "hints", "absent", "every")
        objects = self.objects(3, absent, "show", "--json", "every", "hints", "absent", "every")
        self.assertEqual([one["status"] for one in objects], [0, 1, 3, 0])

    def test_files_of_both_writers(self):
        """The map of the sections by the second walk, and the checksum of what stands at the offset."""
        files = sorted(map(str, FILES))
        objects = self.objects(0, "", "show", "--json", *files)
        self.assertEqual([one["file"] for one in objects], files)
        for one in objects:
            with open(one["file"], "rb") as file:
                data = file.read()
            wanted = container(data)
            self.assertEqual({key: one[key] for key in wanted}, wanted)
            for constant in one["constants"]:
                part = data[constant["offset"] : constant["offset"] + constant["length"]]
                self.assertEqual({"offset": constant["offset"], **checksum(part)}, constant)
        self.assertTrue(self.said("show", *files)[1].startswith(f"{files[0]}: accepted\n"))


class Checksums(Case):
    def constants(self, entries):
        self.file("sums", Image().add(CONSTANT, table(entries, 8), 8).end().bytes)
        return self.object(0, "", "show", "--json", "sums")["constants"]

    def test_published_vectors(self):
        self.assertEqual([row["sha256"] for row in self.constants(list(PUBLISHED))], list(PUBLISHED.values()))

    def test_every_length_around_a_block(self):
        entries = [os.urandom(length) for length in [*range(131), 1000, 70000]]
        self.assertEqual(
            [row["sha256"] for row in self.constants(entries)], [hashlib.sha256(entry).hexdigest() for entry in entries]
        )

    def test_two_profiles_of_one_size_are_told_apart(self):
        profile = os.urandom(4096)
        first, second = self.constants([profile, profile[:-1] + bytes([profile[-1] ^ 1])])
        self.assertEqual((first["length"], second["offset"]), (4096, first["offset"] + 4096))
        self.assertNotEqual(first["sha256"], second["sha256"])
        lines = self.said("show", "sums")[1].split("constants (2)\n")[1].split("\n")
        self.assertNotEqual(lines[0].split("sha256 ")[1], lines[1].split("sha256 ")[1])
        self.assertIn(first["sha256"][:16] + "..", lines[0])


class Checked(Case):
    def test_verdicts_go_to_standard_output_and_errors_to_standard_error(self):
        self.file("empty", b"")
        short = "empty: refused: the data ends inside an item, in the magic or the version (refusal 2, stage 1)\n"
        self.says(0, "every: accepted\nevery: accepted\n", "", "check", "every", "every")
        self.says(1, f"hints: {HINTS_TEXT}every: accepted\n{short}", "", "check", "hints", "every", "empty")
        absent = "tikomuci: absent: No such file or directory\n"
        self.says(3, f"every: accepted\nhints: {HINTS_TEXT}", absent, "check", "absent", "every", "hints")

    def test_an_object_for_each_file(self):
        absent = "tikomuci: absent: No such file or directory\ntikomuci: .: Is a directory\n"
        objects = self.objects(3, absent, "check", "--json", "every", "absent", "hints", ".")
        self.assertEqual(
            objects,
            [
                {"file": "every", "status": 0, "accepted": True, "size": 142, "words": 49, "pool": 12},
                {"file": "absent", "status": 3, "path": "absent", "error": "No such file or directory"},
                {"file": "hints", **HINTS},
                {"file": ".", "status": 3, "path": ".", "error": "Is a directory"},
            ],
        )
