"""Files of Tile IR bytecode, made byte by byte, with what the command has to say of them."""

import hashlib

MAGIC = bytes.fromhex("7f54696c65495200")
HEADER = 12
STRING, FUNC, DEBUG, CONSTANT, TYPE, GLOBAL, PRODUCER = range(1, 8)
NAMES = [None, "String", "Func", "Debug", "Constant", "Type", "Global", "Producer"]


def varint(number):
    spelled = b""
    while number > 127:
        spelled += bytes([number % 128 + 128])
        number //= 128
    return spelled + bytes([number])


def padding(size, alignment):
    return b"\xcb" * (-size % alignment if alignment > 1 else 0)


def table(entries, width=4):
    """The payload of strings or types; of constants with a width of 8."""
    count = varint(len(entries))
    starts, at = [], 0
    for entry in entries:
        starts.append(at.to_bytes(width, "little"))
        at += len(entry)
    return b"".join([count, padding(len(count), width), *starts, *entries])


def checksum(data):
    return {"length": len(data), "sha256": hashlib.sha256(data).hexdigest()}


class Image:
    """A file, and where its sections lie."""

    def __init__(self, major=13, minor=4, tag=0):
        self.version = {"major": major, "minor": minor, "tag": tag}
        self.bytes = MAGIC + bytes([major, minor]) + tag.to_bytes(2, "little")
        self.sections = []
        self.end_at = None

    def add(self, number, payload, alignment=None):
        self.bytes += bytes([number + (0 if alignment is None else 128)]) + varint(len(payload))
        if alignment is not None:
            self.bytes += varint(alignment)
            self.bytes += padding(len(self.bytes), alignment)
        name = NAMES[number] if number < len(NAMES) else None
        place = {"offset": len(self.bytes), "length": len(payload), "alignment": alignment}
        self.sections.append({"id": number, "name": name, **place})
        self.bytes += payload
        return self

    def end(self, marker=0, tail=b""):
        self.end_at = len(self.bytes)
        self.bytes += bytes([marker]) + tail
        return self

    def container(self):
        """What an object says of header and walk."""
        last = {section["id"]: section for section in self.sections if section["name"]}
        sections = [{**section, "counts": section is last.get(section["id"])} for section in self.sections]
        head = {"size": len(self.bytes), "first_bytes": self.bytes[:HEADER].hex(), "version": self.version}
        return {**head, "sections": sections, "end": self.end_at, "broken": None}


def large_constant(size):
    """A file with one constant of so many zeros: its first bytes, and how long it is. All others are zeros too."""
    starts = table([b""], 8)
    head = Image().bytes + bytes([CONSTANT + 128]) + varint(len(starts) + size) + varint(8)
    head += padding(len(head), 8) + starts
    return head, len(head) + size + 1


NO_ROWS = {
    "producer": None,
    **{name: [] for name in ("strings", "types", "constants", "globals", "functions", "attributes", "lists")},
}


def every(flags=2):
    """A row in every table. The function's flags may be others."""
    image = Image().add(STRING, table([b"k", b"main"]), 4).add(PRODUCER, b"\x01")
    image.add(TYPE, table([b"\x03", bytes.fromhex("10010000")]))
    image.add(CONSTANT, table([b"\xde\xad\xbe"], 8), 8).add(GLOBAL, bytes.fromhex("01000000100105"))
    image.add(FUNC, bytes([1, 1, 1, flags, 1, 4]) + b"\x0a\x0b\x0c\x0d")
    debug = "01cbcbcb 00000000 01cbcbcbcbcbcbcb 0100000000000000 01cbcbcb 00000000 020001"
    return image.add(DEBUG, bytes.fromhex(debug)).end()


EVERY_ROWS = {
    "producer": 1,
    "strings": ["k", "main"],
    "types": [{"kind": "i32", "text": "i32"}, {"kind": "func", "inputs": [0], "results": [], "text": "(i32) -> ()"}],
    "constants": [{"offset": 80, **checksum(b"\xde\xad\xbe")}],
    "globals": [{"name": 0, "type": 0, "constant": 0, "alignment": 16, "visibility": 1, "is_constant": True}],
    "functions": [{"name": 1, "signature": 1, "flags": 2, "location": 1, "body": checksum(b"\x0a\x0b\x0c\x0d")}],
    "attributes": [{"kind": "DIFile", "fields": [0, 1]}],
    "lists": [[1]],
}
EVERY_SECTIONS_TEXT = """\
Tile IR bytecode 13.4, 142 bytes

sections (7)
  [0] String (id 1): 17 bytes at 16, aligned to 4, counts
  [1] Producer (id 7): 1 byte at 35, counts
  [2] Type (id 5): 17 bytes at 38, counts
  [3] Constant (id 4): 19 bytes at 64, aligned to 8, counts
  [4] Global (id 6): 7 bytes at 85, counts
  [5] Func (id 2): 10 bytes at 94, counts
  [6] Debug (id 3): 35 bytes at 106, counts
  end marker at 141, 0 bytes behind it
"""
EVERY_ROWS_TEXT = """
produced by "main"

strings (2)
  [0] "k"
  [1] "main"

types (2)
  [0] i32
  [1] (i32) -> ()

constants (1)
  [0] 3 bytes at 80, sha256 08d2eb20ba68a2bf..

globals (1)
  [0] "k" : i32 = constant 0, align 16, private, constant

functions (1)
  [0] entry "main" : (i32) -> (), public, location 1, body of 4 bytes, sha256 b23549dda1578015..

debug attributes (1)
  [1] DIFile(name="k", dir="main")

debug lists (1)
  [0] [1]
"""

# The same file with the hints flag, which is refused at stage 8.
HINTS = {"status": 1, "accepted": False, "refusal": 10, "refusal_name": "hints", "stage": 8, "stage_name": "func"}
HINTS_TEXT = "refused: a function has optimization hints, in the Func section (refusal 10, stage 8)\n"


def every_kind():
    """Every kind of type, and every kind of debug attribute."""
    types = [
        "03",
        "0c010007",
        "0c0000",
        "0d0002 0400000000000000 ffffffffffffffff",
        "0e010001 0800000000000000 02 0000000000000080 0100000000000000 03",
        "0f0102 02000000 fdffffff 0401 00000000 09",
        "140001 05000000 0401",
        "150101 06000000 01 07000000 0401 f8ffffff 02",
        "100200010103",
        "8201",
        "11",
    ]
    attributes = ["00", "0101", "020001", "0301020304", "0401000506", "05010700010208", "060102"]
    debug = bytes.fromhex("00cbcbcb 00cbcbcb") + table([bytes.fromhex(entry) for entry in attributes])
    return Image().add(TYPE, table([bytes.fromhex(entry) for entry in types])).add(DEBUG, debug).end()


KINDS = [
    {"kind": "i32"},
    {"kind": "ptr", "flags": 1, "element": 0, "attribute": 7},
    {"kind": "ptr", "flags": 0, "element": 0, "attribute": None},
    {"kind": "tile", "element": 0, "shape": [4, -1]},
    {"kind": "tensor_view", "flags": 1, "element": 0, "shape": [8], "strides": [-(2**63), 1], "attribute": 3},
    {"kind": "partition_view", "flags": 1, "shape": [2, -3], "view": 4, "map": [0], "padding": 9},
    {"kind": "gather_scatter_view", "flags": 0, "shape": [5], "view": 4, "sparse": 1, "padding": None},
    {"kind": "strided_view", "flags": 1, "shape": [6], "strides": [7], "view": 4, "map": [-8], "padding": 2},
    {"kind": "func", "inputs": [0, 1], "results": [3]},
    {"kind": "f8e5m3fnu"},
    {"kind": "token"},
]
VIEW_TEXT = "tensor_view<8xi32, strides=[?,1], ptr_attr=3>"
KINDS_TEXTS = [
    "i32",
    "ptr<i32, ptr_attr=7>",
    "ptr<i32>",
    "tile<4x-1xi32>",
    VIEW_TEXT,
    f"partition_view<tile=(2x-3), tv={VIEW_TEXT}, padding=9>",
    f"gather_scatter_view<tile=(5), tv={VIEW_TEXT}, sparse_dim=1>",
    f"strided_view<tile=(6), traversal_strides=[7], tv={VIEW_TEXT}, dim_map=[-8], padding=2>",
    "(i32, ptr<i32, ptr_attr=7>) -> (tile<4x-1xi32>)",
    "f8e5m3fnu",
    "token",
]
KINDS_ROWS = {
    **NO_ROWS,
    "types": [{**kind, "text": text} for kind, text in zip(KINDS, KINDS_TEXTS)],
    "attributes": [
        {"kind": "Unknown", "fields": []},
        {"kind": "DICompileUnit", "fields": [1]},
        {"kind": "DIFile", "fields": [0, 1]},
        {"kind": "DILexicalBlock", "fields": [1, 2, 3, 4]},
        {"kind": "DILoc", "fields": [1, 0, 5, 6]},
        {"kind": "DISubprogram", "fields": [1, 7, 0, 1, 2, 8]},
        {"kind": "CallSite", "fields": [1, 2]},
    ],
}
KINDS_ROWS_TEXT = f"""
types (11)
{"".join(f"  [{row}] {text}" + chr(10) for row, text in enumerate(KINDS_TEXTS))}
debug attributes (7)
  [1] Unknown
  [2] DICompileUnit(file=di[1])
  [3] DIFile(name=<no string 0>, dir=<no string 1>)
  [4] DILexicalBlock(scope=di[1], file=di[2], line=3, column=4)
  [5] DILoc(scope=di[1], file=<no string 0>, line=5, column=6)
  [6] DISubprogram(file=di[1], line=7, name=<no string 0>, linkage=<no string 1>, cu=di[2], scope_line=8)
  [7] CallSite(callee=di[1], caller=di[2])
"""
