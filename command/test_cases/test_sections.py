"""The map of the sections, of files that are accepted and of files that are refused."""

import random

import walk
from harness import FILES, Case, parsed
from images import CONSTANT, HEADER, HINTS, HINTS_TEXT, STRING, EVERY_SECTIONS_TEXT, Image, every, table

MAGIC_TEXT = "refused: the first eight bytes are not those of Tile IR bytecode, in the magic or the version"
SHORT_TEXT = "refused: the data ends inside an item, on the way from section to section (refusal 2, stage 2)"


class Sections(Case):
    def compare(self, files):
        """Shows all these bytes, and compares what header and walk tell with the second walk."""
        names = [f"file{i}" for i in range(len(files))]
        for name, data in zip(names, files):
            self.file(name, data)
        status, out, errors = self.said("show", "--json", *names)
        self.assertEqual((errors, status in (0, 1)), ("", True))
        objects = [parsed(line) for line in out.splitlines()]
        self.assertEqual([one["file"] for one in objects], names)
        for one, data in zip(objects, files):
            wanted = walk.container(data)
            self.assertEqual({key: one[key] for key in wanted}, wanted, data.hex())
            self.assertEqual(one["accepted"] or one["stage"] > 2, bool(wanted["version"]) and not wanted["broken"])
            if wanted["broken"]:
                self.assertEqual((one["refusal"], one["stage"]), (wanted["broken"]["refusal"], 2))
        return objects

    def test_the_last_section_counts(self):
        image = Image().add(STRING, table([b"old"])).add(9, b"xyz", 32).add(STRING, table([b"new"]), 260)
        image.add(CONSTANT, table([b"p"], 8), 1).add(127, b"").end(0x80, b"tail")
        self.file("twice", image.bytes)
        shown = self.object(0, "", "show", "--json", "twice")
        self.assertEqual({key: shown[key] for key in image.container()}, image.container())
        self.assertEqual(shown["strings"], ["new"])
        text = self.said("show", "twice")[1].split("\n\n")[1]
        self.assertEqual(
            text,
            "sections (5)\n"
            "  [0] String (id 1): 11 bytes at 14, does not count: [2] has its id\n"
            "  [1] unknown (id 9): 3 bytes at 32, aligned to 32, passed over\n"
            "  [2] String (id 1): 11 bytes at 260, aligned to 260, counts\n"
            "  [3] Constant (id 4): 17 bytes at 274, aligned to 1, counts\n"
            "  [4] unknown (id 127): 0 bytes at 293, passed over\n"
            "  end marker at 293, 4 bytes behind it",
        )

    def test_a_refused_file_still_tells_its_sections(self):
        image = every(flags=4)
        wanted = {"file": "hints", **HINTS, **image.container()}
        self.assertEqual(self.object(1, "", "show", "--json", "hints"), wanted)
        text = "hints: " + HINTS_TEXT + EVERY_SECTIONS_TEXT + "  a payload that counts can be viewed\n"
        self.says(1, text, "", "show", "hints")
        for section in image.sections:
            place = section["offset"], section["offset"] + section["length"]
            view = self.call("section", "hints", section["name"], "-o", "-")
            self.assertEqual(view, (0, image.bytes[slice(*place)], b""))

    def test_a_cut_file_tells_where_it_is_cut(self):
        self.file("cut", every().bytes[:70])
        text = (
            f"cut: {SHORT_TEXT}\nTile IR bytecode 13.4, 70 bytes\n\nsections (3)\n"
            "  [0] String (id 1): 17 bytes at 16, aligned to 4\n"
            "  [1] Producer (id 7): 1 byte at 35\n"
            "  [2] Type (id 5): 17 bytes at 38\n"
            "  broken at 64: the data ends inside an item, in section Constant (id 4), "
            "whose payload of 19 bytes begins here (left: 6 bytes)\n"
            "  no payload can be viewed\n"
        )
        self.says(1, text, "", "show", "cut")
        self.assertEqual(self.call("section", "cut", "string", "-o", "-")[:2], (1, b""))

    def test_a_file_without_an_end_marker(self):
        self.file("endless", every().bytes[:-1])
        self.assertIn("  broken at 141: the data ends inside an item\n", self.said("show", "endless")[1])

    def test_a_header_that_is_refused(self):
        self.file("elf", b"\x7fELF\x02\x1b[31m")
        text = f'elf: {MAGIC_TEXT} (refusal 4, stage 1)\n10 bytes, beginning with "\\x7fELF\\x02\\x1b[31m"\n'
        self.says(1, text, "", "show", "elf")

    def test_every_cut(self):
        data = every().bytes
        self.compare([data[:size] for size in range(len(data) + 1)])

    def test_damaged_files(self):
        """Bytes behind the magic are changed, put in and taken out; the seed is fixed."""
        numbers = random.Random(14)
        corpus = [path.read_bytes() for path in sorted(FILES)]
        files = list(corpus)
        while len(files) < 400:
            data = bytearray(numbers.choice([*corpus, every().bytes]))
            for _ in range(numbers.randint(1, 4)):
                at = numbers.randint(HEADER, len(data))
                data[at : at + numbers.choice([0, 1, 1, 1, 3])] = numbers.choice(
                    [b"", bytes([numbers.randrange(256)]), b"\x81", b"\xff" * 10, b"\x01\x00", b"\x84\x03\xe0\x01"]
                )
            files.append(bytes(data))
        objects = self.compare(files)
        met = {one["broken"]["refusal_name"] for one in objects if one["broken"]}
        self.assertEqual(met, set(walk.REFUSAL_NAMES.values()), "each way to break was tried")
        self.assertTrue(any(not section["counts"] for one in objects if one["accepted"] for section in one["sections"]))
