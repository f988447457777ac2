"""What `cache` and `cache-demo` say of the slots of a cache, and the stores that `cache-demo` writes."""

import os
import random
import re
import resource
import unittest

import harness
from caches import CACHE_SLOTS, ROW, SESSION_SLOTS, Model, buffer, owners
from harness import FILES, MEMORY, ROOT, UNREADABLE, UNWRITTEN, Case, sanitized
from images import CONSTANT, HINTS, HINTS_TEXT, Image, checksum, every, large_constant, table

FAR = 2**64 - 1
LARGEST_SLOT = 2**30 // SESSION_SLOTS
NO_SLOT_TEXT = "refused: all slots are taken by others (refusal 18, stage 10)\n"
FULL_TEXT = "refused: a store or output is smaller than the result (refusal 11, stage 10)\n"
DAMAGED_TEXT = "refused: the sheet or the owner table is not well-formed (refusal 12, stage 10)\n"
DAMAGED = {"status": 1, "accepted": False, "refusal": 12, "refusal_name": "sheet", "stage": 10, "stage_name": "call"}
CUT_TEXT = "refused: the data ends inside an item, in the magic or the version (refusal 2, stage 1)\n"
EVERY_CONSTANT = {"offset": 80, **checksum(b"\xde\xad\xbe")}
EVERY_CONSTANT_TEXT = "      constant 0: 3 bytes at 80, sha256 08d2eb20ba68a2bf..\n"


def profiles(*constants):
    """A file with these constants."""
    return Image().add(CONSTANT, table(constants, 8), 8).end().bytes


def accepted(name, **said):
    return {"file": name, "status": 0, "accepted": True, **said}


def at(offset, constant):
    return {**constant, "offset": constant["offset"] + offset}


class Demo(Case):
    def stores(self, name="out"):
        return tuple((self.folder / f"{name}.{store}").read_bytes() for store in ("owners", "buffer"))

    def test_who_holds_which_slot(self):
        self.file("bare", Image().end().bytes)
        self.says(
            1,
            "every, instance 1, slot 0: accepted\n"
            f"hints, instance 2: {HINTS_TEXT}"
            "bare, instance 3, slot 1: accepted\n"
            "every, instance 4, slot 2: accepted\n"
            "\n"
            "64 slots of 142 bytes, 3 taken\n"
            "  [0] instance 1, 142 bytes at 0, every: accepted\n"
            f"{EVERY_CONSTANT_TEXT}"
            "  [1] instance 3, 13 bytes at 142, bare: accepted\n"
            "      no constants\n"
            "  [2] instance 4, 142 bytes at 284, every: accepted\n"
            "      constant 0: 3 bytes at 364, sha256 08d2eb20ba68a2bf..\n",
            "",
            *("cache-demo", "every", "hints", "bare", "every"),
        )

    def test_objects(self):
        self.file("bare", Image().end().bytes)
        absent = "tikomuci: absent: No such file or directory\n"
        self.assertEqual(
            self.objects(UNREADABLE, absent, "cache-demo", "--json", "every", "hints", "absent", "bare"),
            [
                accepted("every", instance=1, slot=0),
                {"file": "hints", **HINTS, "instance": 2},
                {"file": "absent", "status": UNREADABLE, "path": "absent", "error": "No such file or directory"},
                accepted("bare", instance=4, slot=1),
                accepted("every", instance=1, slot=0, offset=0, length=142, constants=[EVERY_CONSTANT]),
                accepted("bare", instance=4, slot=1, offset=142, length=13, constants=[]),
            ],
        )

    def test_nothing_is_held(self):
        self.says(1, f"hints, instance 1: {HINTS_TEXT}\n64 slots of 0 bytes, 0 taken\n", "", "cache-demo", "hints")
        self.assertEqual(self.object(1, "", "cache-demo", "--json", "hints"), {"file": "hints", **HINTS, "instance": 1})

    def test_instances(self):
        """A number before a = is the instance, any number; what is none is a part of the name."""
        for name in ("9=every", "x=every", "=every", f"{FAR + 1}=every", "-1=every"):
            self.file(name, every().bytes)
        words = ["0=every", f"{FAR}=every", "./9=every", "7=9=every", "x=every", "=every", f"{FAR + 1}=every", "9=-"]
        objects = self.objects(0, "", "cache-demo", "--json", *words, "--", "-1=every", input=every().bytes)
        wanted = [
            (0, "every"),
            (FAR, "every"),
            (3, "./9=every"),
            (7, "9=every"),
            (5, "x=every"),
            (6, "=every"),
            (7, f"{FAR + 1}=every"),
            (9, "-"),
            (9, "-1=every"),
        ]
        self.assertEqual([(one["instance"], one["file"]) for one in objects[:9]], wanted)
        self.assertEqual([one["slot"] for one in objects[:9]], [0, 1, 2, 3, 4, 5, 3, 6, 6])
        self.assertEqual([one["file"] for one in objects[9:]], [wanted[i][1] for i in (0, 1, 2, 6, 4, 5, 8)])

    def test_a_file_is_replaced_and_a_refused_one_replaces_none(self):
        self.file("a", profiles(b"first"))
        self.file("b", profiles(b"second"))
        objects = self.objects(1, "", "cache-demo", "--json", "7=a", "8=b", "7=b", "8=hints")
        self.assertEqual([one.get("slot") for one in objects], [0, 1, 0, None, 0, 1])
        self.assertEqual([(one["file"], one["instance"]) for one in objects[4:]], [("b", 7), ("b", 8)])
        for one in objects[4:]:
            self.assertEqual(one["constants"][0]["sha256"], checksum(b"second")["sha256"])

    def test_no_slot(self):
        taken = [f"{instance}=every" for instance in range(SESSION_SLOTS)]
        status, out, errors = self.said("cache-demo", *taken, "64=every", "63=every", "65=hints")
        self.assertEqual((status, errors), (1, ""))
        lines = out.splitlines(True)
        self.assertEqual(lines[63], "every, instance 63, slot 63: accepted\n")
        self.assertEqual(lines[64], f"every, instance 64: {NO_SLOT_TEXT}")
        self.assertEqual(lines[65], "every, instance 63, slot 63: accepted\n")
        self.assertEqual(lines[66], f"hints, instance 65: {HINTS_TEXT}")
        self.assertEqual(lines[68], "64 slots of 142 bytes, 64 taken\n")
        one = self.objects(1, "", "cache-demo", "--json", *taken, "64=every")[SESSION_SLOTS]
        self.assertEqual((one["refusal"], one["refusal_name"], one["stage"]), (18, "no-slot", 10))

    def test_two_profiles_of_one_size_are_told_apart(self):
        profile = os.urandom(4096)
        self.file("a", profiles(profile))
        self.file("b", profiles(profile[:-1] + bytes([profile[-1] ^ 1])))
        lines = self.said("cache-demo", "a", "b")[1].splitlines()
        sums = [line.split("sha256 ")[1] for line in lines if "sha256" in line]
        self.assertEqual((len(sums), len(set(sums))), (2, 2))
        self.assertEqual(sums[0], checksum(profile)["sha256"][:16] + "..")

    def test_a_file_that_is_larger_than_any_slot(self):
        around = large_constant(LARGEST_SLOT)[1] - LARGEST_SLOT
        head, length = large_constant(LARGEST_SLOT - around)
        self.assertEqual(length, LARGEST_SLOT)
        self.file("exact", head)
        os.truncate(self.folder / "exact", length)
        self.file("more", head)
        os.truncate(self.folder / "more", length + 1)
        status, out, errors = self.said("cache-demo", "exact", "more")
        self.assertEqual((status, errors), (1, ""))
        self.assertTrue(out.startswith(f"exact, instance 1, slot 0: accepted\nmore, instance 2: {FULL_TEXT}"), out)
        self.assertIn(f"64 slots of {LARGEST_SLOT} bytes, 1 taken\n", out)

    def test_names(self):
        for name, escaped in {b"a\x1b[31mb": r"a\x1b[31mb", b"\xffa": r"\xffa"}.items():
            self.file(name, every().bytes)
            out = self.said("cache-demo", b"3=" + name)[1]
            self.assertTrue(out.startswith(f"{escaped}, instance 3, slot 0: accepted\n"), out)
            self.assertIn(f"  [0] instance 3, 142 bytes at 0, {escaped}: accepted\n", out)
            for one in self.objects(0, "", "cache-demo", "--json", name):
                self.assertEqual(one["file"], {"hex": name.hex()} if name[0] == 255 else name.decode())

    def test_stores(self):
        self.file("a", profiles(b"first", b"second"))
        self.says(0, self.said("cache-demo", "5=every", "a")[1], "", "cache-demo", "-o", "out", "5=every", "a")
        rows = {0: (1, 5, 142), 1: (1, 2, len(profiles(b"first", b"second")))}
        files = {0: every().bytes, 1: profiles(b"first", b"second")}
        self.assertEqual(self.stores(), (owners(rows), buffer(files, 142)))
        self.says(1, self.said("cache-demo", "hints")[1], "", "cache-demo", "hints", "-o", "out")
        self.assertEqual(self.stores(), (owners({}), b""), "the ones that were there are replaced")

    def test_stores_that_cannot_be_written(self):
        error = "tikomuci: no/out.buffer: No such file or directory\n"
        self.says(UNWRITTEN, self.said("cache-demo", "every")[1], error, "cache-demo", "every", "-o", "no/out")
        objects = self.objects(UNWRITTEN, error, "cache-demo", "--json", "every", "-o", "no/out")
        failure = {"status": UNWRITTEN, "path": "no/out.buffer", "error": "No such file or directory"}
        self.assertEqual(objects[2:], [{"file": "no/out.buffer", **failure}])
        self.file("out.buffer", b"old")
        self.file("out.owners", b"old")
        limit = lambda: resource.setrlimit(resource.RLIMIT_FSIZE, (4096, 4096))
        full = "tikomuci: out.buffer: File too large\n"
        said = self.said("cache-demo", "every")[1]
        self.says(UNWRITTEN, said, full, "cache-demo", "every", "-o", "out", preexec_fn=limit)
        self.assertEqual(self.stores(), (b"old", b"old"))

    @unittest.skipIf(not harness.COMMAND or sanitized(), "a sanitizer ends the program where there is no memory")
    def test_not_enough_memory(self):
        head, length = large_constant(LARGEST_SLOT // 2)
        self.file("large", head)
        os.truncate(self.folder / "large", length)
        limit = lambda: resource.setrlimit(resource.RLIMIT_AS, (2**29, 2**29))
        error = "tikomuci: large: there is not enough memory\n"
        objects = self.objects(MEMORY, error, "cache-demo", "--json", "every", "large", "every", preexec_fn=limit)
        self.assertEqual([one["status"] for one in objects], [0, MEMORY, 0, 0, 0])
        self.assertEqual([one.get("slot") for one in objects], [0, None, 1, 0, 1])

    def test_random_puts(self):
        """Files of both writers for a few instances, in any order; the seed is fixed."""
        numbers = random.Random(15)
        files = sorted(map(str, FILES))
        for puts in (1, 5, 40, 100):
            model, words, slots = Model(), [], []
            for _ in range(puts):
                instance = numbers.choice([0, 1, 2, FAR, numbers.randrange(FAR), numbers.randrange(puts)])
                name = numbers.choice(files)
                words.append(f"{instance}={name}")
                with open(name, "rb") as file:
                    slots.append(model.put(instance, file.read()))
            status, out, errors = self.said("cache-demo", "--json", "-o", "out", *words)
            objects = [harness.parsed(line) for line in out.splitlines()]
            self.assertEqual((status, errors), (1 if None in slots else 0, ""))
            self.assertEqual([one.get("slot") for one in objects[:puts]], slots)
            self.assertEqual({one.get("refusal") for one in objects[:puts]} - {None}, {18} if None in slots else set())
            self.compare(model, objects[puts:])

    def compare(self, model, objects):
        """What is said of the slots, by `cache` too, and the stores, with those of the model."""
        size = len(self.stores()[1]) // SESSION_SLOTS
        self.assertEqual(self.stores(), model.stores(size))
        held = sorted((slot, instance, len(file)) for slot, (instance, file) in model.held.items())
        self.assertEqual([(one["slot"], one["instance"], one["length"]) for one in objects], held)
        for one in objects:
            with open(one["file"], "rb") as file:
                self.assertEqual(file.read(), model.held[one["slot"]][1])
            for constant in one["constants"]:
                part = self.stores()[1][constant["offset"] : constant["offset"] + constant["length"]]
                self.assertEqual({"offset": constant["offset"], **checksum(part)}, constant)
        shown = self.objects(0, "", "cache", "--json", "out.owners", "out.buffer")
        self.assertEqual(shown[0], accepted("out.owners", buffer="out.buffer", **self.sizes(size, len(held))))
        self.assertEqual(shown[1:], [{**one, "file": "out.buffer"} for one in objects])

    @staticmethod
    def sizes(size, taken):
        return {"slots": SESSION_SLOTS, "slot_size": size, "taken": taken}


class Dumped(Case):
    def dump(self, rows, files, size, slots=SESSION_SLOTS):
        self.file("owners", owners(rows, slots))
        self.file("buffer", buffer(files, size, slots))

    def test_both_numbers_of_slots(self):
        for slots in (CACHE_SLOTS, SESSION_SLOTS):
            last = slots - 1
            rows = {0: (1, FAR, 142), last: (2**63, 0, 142)}
            self.dump(rows, {0: every().bytes, last: every().bytes}, 150, slots)
            self.says(
                0,
                "owners, buffer: accepted\n"
                f"{slots} slots of 150 bytes, 2 taken\n"
                f"  [0] instance {FAR}, 142 bytes at 0: accepted\n"
                f"{EVERY_CONSTANT_TEXT}"
                f"  [{last}] instance 0, 142 bytes at {last * 150}: accepted\n"
                f"      constant 0: 3 bytes at {last * 150 + 80}, sha256 08d2eb20ba68a2bf..\n",
                "",
                *("cache", "owners", "buffer"),
            )
            place = {"length": 142, "offset": last * 150, "constants": [at(last * 150, EVERY_CONSTANT)]}
            self.assertEqual(
                self.objects(0, "", "cache", "--json", "owners", "buffer"),
                [
                    accepted("owners", buffer="buffer", slots=slots, slot_size=150, taken=2),
                    accepted("buffer", instance=FAR, slot=0, offset=0, length=142, constants=[EVERY_CONSTANT]),
                    accepted("buffer", instance=0, slot=last, **place),
                ],
            )

    def test_an_empty_cache(self):
        self.dump({}, {}, 0, CACHE_SLOTS)
        self.says(0, "owners, buffer: accepted\n16 slots of 0 bytes, 0 taken\n", "", "cache", "owners", "buffer")
        self.dump({}, {}, 7)
        one = self.object(0, "", "cache", "--json", "owners", "buffer")
        self.assertEqual((one["slots"], one["slot_size"], one["taken"]), (64, 7, 0))

    def test_a_damaged_file(self):
        """The others are shown all the same. A row may keep a length of 0, and a slot may have no bytes."""
        rows = {1: (1, 7, 142), 2: (1, 8, 142), 3: (1, 9, 0)}
        self.dump(rows, {1: every(flags=4).bytes, 2: every().bytes}, 142)
        self.says(
            1,
            "owners, buffer: accepted\n"
            "64 slots of 142 bytes, 3 taken\n"
            f"  [1] instance 7, 142 bytes at 142: {HINTS_TEXT}"
            "  [2] instance 8, 142 bytes at 284: accepted\n"
            "      constant 0: 3 bytes at 364, sha256 08d2eb20ba68a2bf..\n"
            f"  [3] instance 9, 0 bytes at 426: {CUT_TEXT}",
            "",
            *("cache", "owners", "buffer"),
        )
        objects = self.objects(1, "", "cache", "--json", "owners", "buffer")
        self.assertEqual([one["status"] for one in objects], [0, 1, 0, 1])
        wanted = {"file": "buffer", **HINTS, "instance": 7, "slot": 1, "offset": 142, "length": 142}
        self.assertEqual(objects[1], wanted)
        self.dump({5: (1, 7, 0)}, {}, 0)
        self.assertIn(f"  [5] instance 7, 0 bytes at 0: {CUT_TEXT}", self.said("cache", "owners", "buffer")[1])

    def test_exactly_the_kept_length_is_judged(self):
        self.dump({0: (1, 7, 141)}, {0: every().bytes}, 142)
        _, out, _ = self.said("cache", "owners", "buffer")
        self.assertIn("  [0] instance 7, 141 bytes at 0: refused: the data ends inside an item", out)

    def test_what_stands_in_a_free_row_does_not_count(self):
        self.dump({0: (1, 7, 142), 1: (0, 7, FAR), 2: (0, FAR, FAR)}, {0: every().bytes}, 142)
        self.assertEqual(len(self.objects(0, "", "cache", "--json", "owners", "buffer")), 2)

    def refused(self, *faults):
        wanted = f"owners, buffer: {DAMAGED_TEXT}" + "".join(f"  {fault}\n" for fault in faults)
        self.says(1, wanted, "", "cache", "owners", "buffer")
        one = self.object(1, "", "cache", "--json", "owners", "buffer")
        self.assertEqual(one, {"file": "owners", **DAMAGED, "buffer": "buffer", "faults": list(faults)})

    def test_lengths_that_are_not_right(self):
        for size in (0, 23, 383, 385, 24, 17 * ROW, 1535, 1537):
            self.file("owners", bytes(size))
            self.file("buffer", bytes(64))
            self.refused(f"the owner table has a length of {size}, and not of 384 or 1536")
        for size, slots in {65: 64, 16: 64, 17: 16, 1: 16}.items():
            self.file("owners", bytes(slots * ROW))
            self.file("buffer", bytes(size))
            self.refused(f"the buffer has a length of {size}, which is no multiple of {slots}")

    def test_rows_that_are_not_right(self):
        rows = {3: (1, 7, 143), 5: (2, FAR, 10), 17: (1, 7, 0), 18: (FAR, 7, FAR), 60: (3, FAR, 142), 61: (1, 8, 142)}
        self.dump(rows, {}, 142)
        faults = [
            "row 3 has a length of 143, and a slot one of 142",
            "rows 3 and 17 have one instance, 7",
            f"row 18 has a length of {FAR}, and a slot one of 142",
            "rows 3 and 18 have one instance, 7",
            f"rows 5 and 60 have one instance, {FAR}",
        ]
        self.refused(*faults)
        self.file("buffer", bytes(100))
        self.refused("the buffer has a length of 100, which is no multiple of 64", *faults[1::2], faults[4])

    def test_random_tables(self):
        """A few numbers in all rows: a table is refused if something is found to say of it, and only then."""
        numbers = random.Random(8)
        met = set()
        for _ in range(60):
            size, slots = numbers.choice([0, 1, 40]), numbers.choice([CACHE_SLOTS, SESSION_SLOTS])
            rows = {
                slot: (numbers.choice([0, 0, 1, 256]), numbers.choice([slot, slot + 1000, 3]), numbers.randint(0, size))
                for slot in numbers.sample(range(slots), 4)
            }
            if numbers.random() < 0.3:
                rows[numbers.randrange(slots)] = (numbers.choice([0, 1]), 5000, size + 1)
            self.dump(rows, {}, size, slots)
            taken = [held for held in rows.values() if held[0]]
            doubled = len({held[1] for held in taken}) < len(taken)
            too_long = any(held[2] > size for held in taken)
            one = self.objects(1 if taken else 0, "", "cache", "--json", "owners", "buffer")[0]
            self.assertEqual(one["accepted"], not doubled and not too_long)
            self.assertEqual(any("one instance" in fault for fault in one.get("faults", [])), doubled)
            self.assertEqual(any("a length of" in fault for fault in one.get("faults", [])), too_long)
            met.add((doubled, too_long))
        self.assertEqual(len(met), 4, "each way to be refused was tried")

    def test_standard_input(self):
        self.dump({0: (1, 7, 142)}, {0: every().bytes}, 142)
        for words in (["-", "buffer"], ["owners", "-"]):
            data = (self.folder / ("owners" if words[0] == "-" else "buffer")).read_bytes()
            objects = self.objects(0, "", "cache", "--json", *words, input=data)
            self.assertEqual([one["file"] for one in objects], words)

    def test_stores_that_cannot_be_read(self):
        self.dump({}, {}, 1)
        for words, path in {("absent", "buffer"): "absent", ("owners", "absent"): "absent"}.items():
            error = f"tikomuci: {path}: No such file or directory\n"
            self.says(UNREADABLE, "", error, "cache", *words)
            one = {"file": words[0], "status": UNREADABLE, "path": path, "error": "No such file or directory"}
            self.assertEqual(self.object(UNREADABLE, error, "cache", "--json", *words), one)

    def test_a_store_that_is_over_the_limit(self):
        self.dump({}, {}, 1)
        self.says(UNREADABLE, "", "tikomuci: /dev/zero: File too large\n", "cache", "owners", "/dev/zero")

    def test_names(self):
        self.file(b"a\x1b[31mb", owners({}))
        self.file(b"\xffa", b"")
        self.assertTrue(self.said("cache", b"a\x1b[31mb", b"\xffa")[1].startswith(r"a\x1b[31mb, \xffa: accepted"))
        one = self.object(0, "", "cache", "--json", b"a\x1b[31mb", b"\xffa")
        self.assertEqual((one["file"], one["buffer"]), ("a\x1b[31mb", {"hex": "ff61"}))


class Format(Case):
    """The cache of docs/FORMAT.md, before and after an instance drops its file."""

    def blocks(self, name):
        text = (ROOT / "docs/FORMAT.md").read_text()
        blocks = re.findall(rf"^```{name}\n(.*?)^```\n", text, re.MULTILINE | re.DOTALL)
        return [bytes.fromhex("".join(line.split("   ")[0] for line in block.splitlines())) for block in blocks]

    def test_the_example(self):
        held = []
        for rows, slots in zip(self.blocks("owners"), self.blocks("slots")):
            self.file("owners", rows.ljust(CACHE_SLOTS * ROW, b"\0"))
            self.file("buffer", slots.ljust(640, b"\0"))
            objects = self.objects(0, "", "cache", "--json", "owners", "buffer")
            self.assertEqual((objects[0]["slots"], objects[0]["slot_size"]), (16, 40))
            held.append([(one["slot"], one["instance"], one["length"], one["constants"]) for one in objects[1:]])
        of_7 = 0, 7, 35, [{"offset": 32, **checksum(b"\xaa\xbb")}]
        of_300 = 1, 300, 35, [{"offset": 72, **checksum(b"\xcc\xdd")}]
        self.assertEqual(held, [[of_7, of_300], [of_300]])
