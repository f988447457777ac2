"""The texts of types: what `type` prints, and what `show` has of them."""

from harness import FILES, Case
from images import FUNC, GLOBAL, HINTS, HINTS_TEXT, KINDS_TEXTS, TYPE, Image, every_kind, table, varint

I1, PTR, FUNC_TYPE = b"\x00", b"\x0c\x00", b"\x10"
FAR = 2**64 - 1
# What `show` has of a type, and what `type` prints.
LONGEST, LONGEST_PRINTED = 200, 4096
REFUSED = {"status": 1, "accepted": False, "stage": 10, "stage_name": "call"}
ABSENT = {**REFUSED, "refusal": 14, "refusal_name": "absent"}
ABSENT_TEXT = "refused: what was asked for is not there (refusal 14, stage 10)\n"
FULL = {**REFUSED, "refusal": 11, "refusal_name": "full"}
FULL_TEXT = "refused: a store or output is smaller than the result (refusal 11, stage 10)\n"


def func(*inputs):
    """A function type without results."""
    return FUNC_TYPE + varint(len(inputs)) + b"".join(map(varint, inputs)) + b"\x00"


def text_of(length):
    """A function type that has a text of so many bytes, if type 0 is i1: the inputs are that or not known."""
    known = length % 3
    return func(*[0] * known, *[FAR] * ((length - 6 - known) // 3 - known))


class Types(Case):
    def types(self, *entries, globals_of=(), functions_of=()):
        """A file with these types, and rows of two other tables that name some."""
        image = Image().add(TYPE, table(list(entries)))
        rows = [b"\x00" + varint(row) + b"\x00\x01\x00\x00" for row in globals_of]
        image.add(GLOBAL, varint(len(rows)) + b"".join(rows))
        rows = [b"\x00" + varint(row) + b"\x00\x00\x00" for row in functions_of]
        self.file("types", image.add(FUNC, varint(len(rows)) + b"".join(rows)).end().bytes)

    def shown(self):
        """The texts that `show` has, which are those of its object."""
        status, out, errors = self.said("show", "types")
        self.assertEqual((status, errors), (0, ""))
        rows = out.split("\ntypes (")[1].split("\n\n")[0].splitlines()[1:]
        texts = [row.split("] ", 1)[1] for row in rows]
        self.assertEqual([row["text"] for row in self.object(0, "", "show", "--json", "types")["types"]], texts)
        return texts, out

    def test_every_kind(self):
        self.file("kinds", every_kind().bytes)
        for row, text in enumerate(KINDS_TEXTS):
            self.says(0, text + "\n", "", "type", "kinds", str(row))
            wanted = {"file": "kinds", "status": 0, "accepted": True, "type": row, "text": text}
            self.assertEqual(self.object(0, "", "type", "--json", "kinds", str(row)), wanted)

    def test_refusals(self):
        """A verdict is not taken for a text: it goes to standard error."""
        self.says(0, "(i32) -> ()\n", "", "type", "every", "1")
        for row in ("2", str(FAR)):
            self.says(1, "", "every: " + ABSENT_TEXT, "type", "every", row)
            self.assertEqual(self.object(1, "", "type", "--json", "every", row), {"file": "every", **ABSENT})
        self.says(1, "", "hints: " + HINTS_TEXT, "type", "hints", "9")
        self.assertEqual(self.object(1, "", "type", "hints", "9", "--json"), {"file": "hints", **HINTS})
        self.says(3, "", "tikomuci: absent: No such file or directory\n", "type", "absent", "0")

    def test_from_a_pipe(self):
        self.says(0, KINDS_TEXTS[7] + "\n", "", "type", "-", "7", input=every_kind().bytes)

    def test_the_longest_that_is_printed(self):
        self.types(I1, text_of(LONGEST_PRINTED), text_of(LONGEST_PRINTED + 1))
        self.assertEqual(len(self.said("type", "types", "1")[1]), LONGEST_PRINTED + len("\n"))
        self.says(1, "", "types: " + FULL_TEXT, "type", "types", "2")
        self.assertEqual(self.object(1, "", "type", "--json", "types", "2"), {"file": "types", **FULL})

    def test_the_longest_that_is_shown(self):
        self.types(I1, *map(text_of, range(LONGEST - 2, LONGEST + 3)), globals_of=[0, 3, 4, 9], functions_of=[3, 4, 6])
        texts, out = self.shown()
        self.assertEqual([len(text) for text in texts[:4]], [2, LONGEST - 2, LONGEST - 1, LONGEST])
        self.assertEqual(texts[4:], ["#4", "#5"])
        names = [line.split(" : ")[1].split(" = ")[0] for line in out.splitlines() if " = constant " in line]
        self.assertEqual(names, ["i1", texts[3], "#4", "<no type 9>"])
        names = [line.split(" : ")[1].split(", public")[0] for line in out.splitlines() if " func " in line]
        self.assertEqual(names, [texts[3], "#4", "<no type 6>"])

    def test_a_text_that_nobody_could_wait_for(self):
        """Thirteen types that each name the one before eight times: the last text has 2^39 bytes and more."""
        self.types(I1, *(func(*[row] * 8) for row in range(13)))
        texts, _ = self.shown()
        self.assertEqual(texts[:3], ["i1", "(" + ", ".join(["i1"] * 8) + ") -> ()", "#2"])
        self.assertEqual(texts[3:], [f"#{row}" for row in range(3, 14)])
        self.says(1, "", "types: " + FULL_TEXT, "type", "types", "13")

    def test_rows_that_share_and_that_are_not_earlier(self):
        self.types(I1, PTR + b"\x05", PTR + b"\x00", func(2, 1, 2, 3, 4, 0), func(3, 3), PTR + b"\x04", func(4, 2))
        both = "(ptr<i1>, ptr<?>, ptr<i1>, ?, ?, i1) -> ()"
        texts = ["i1", "ptr<?>", "ptr<i1>", both, f"({both}, {both}) -> ()"]
        texts += [f"ptr<{texts[4]}>", f"({texts[4]}, ptr<i1>) -> ()"]
        self.assertEqual(self.shown()[0], texts)
        for row, text in enumerate(texts):
            self.says(0, text + "\n", "", "type", "types", str(row))

    def test_ten_thousand_types(self):
        """Each names the one before; the texts grow by nine bytes until they are too long to be shown."""
        self.types(I1, *map(func, range(9999)))
        wanted = ["(" * row + "i1" + ") -> ()" * row for row in range(25)]
        self.assertEqual(self.shown()[0], wanted + [f"#{row}" for row in range(25, 10000)])

    def test_a_map_that_is_no_part_of_the_text(self):
        view = b"\x0f\x00\x00\x00" + varint(5000) + bytes(4 * 5000)
        self.types(I1, view, PTR + b"\x01")
        text = "partition_view<tile=(), tv=i1>"
        self.assertEqual(self.shown()[0], ["i1", text, f"ptr<{text}>"])

    def test_files_of_both_writers(self):
        """Of each file the last type: as it is shown, and as it is printed."""
        for one in self.objects(0, "", "show", "--json", *map(str, FILES)):
            if one["types"] and not one["types"][-1]["text"].startswith("#"):
                last = len(one["types"]) - 1
                self.says(0, one["types"][last]["text"] + "\n", "", "type", one["file"], str(last))
