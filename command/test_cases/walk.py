"""A second walk over the sections of a file, to compare the command's with."""

from images import HEADER, MAGIC, NAMES

SHORT, OVERLONG, PADDING = 2, 3, 5
REFUSAL_NAMES = {SHORT: "short", OVERLONG: "overlong", PADDING: "padding"}


class Broken(Exception):
    """Where the walk is refused, and with which number."""

    def __init__(self, at, refusal):
        super().__init__(at, refusal)
        self.at, self.refusal = at, refusal


def varint(data, at):
    value = 0
    for i in range(10):
        if at + i >= len(data):
            raise Broken(at, SHORT)
        byte = data[at + i]
        value += (byte % 128) << (7 * i)
        if byte < 128:
            return value % 2**64, at + i + 1
    raise Broken(at, OVERLONG)


def padded(data, at, alignment):
    size = -at % alignment if alignment > 1 else 0
    there = data[at : at + size]
    if there.strip(b"\xcb"):
        raise Broken(at, PADDING)
    if len(there) < size:
        raise Broken(at, SHORT)
    return at + size


def section(data, at, begun):
    """The place behind the section that begins at `at`; what was read of it is left in `begun`."""
    head = data[at]
    begun["id"] = head % 128
    begun["name"] = NAMES[head % 128] if head % 128 < len(NAMES) else None
    length, at = varint(data, at + 1)
    begun["alignment"] = None
    if head >= 128:
        begun["alignment"], at = varint(data, at)
        at = padded(data, at, begun["alignment"])
    begun["offset"], begun["length"] = at, length
    if length > len(data) - at:
        raise Broken(at, SHORT)
    return at + length


def walked(data):
    """The sections of a file, and where the walk ended or how it was refused."""
    sections, begun, at = [], {}, HEADER
    try:
        while True:
            begun = {}
            if at >= len(data):
                raise Broken(at, SHORT)
            if data[at] % 128 == 0:
                return sections, at, None
            at = section(data, at, begun)
            sections.append(begun)
    except Broken as broken:
        said = {"offset": broken.at, "refusal": broken.refusal, "refusal_name": REFUSAL_NAMES[broken.refusal]}
        return sections, None, {**said, "id": begun.get("id"), "length": begun.get("length")}


def container(data):
    """What an object says of header and walk of any file."""
    shown = {"size": len(data), "first_bytes": data[:HEADER].hex()}
    if len(data) < HEADER or data[: len(MAGIC)] != MAGIC:
        return {**shown, "version": None, "sections": [], "end": None, "broken": None}
    shown["version"] = {"major": data[8], "minor": data[9], "tag": data[10] + 256 * data[11]}
    sections, end, broken = walked(data)
    last = {} if broken else {one["id"]: one for one in sections if one["name"]}
    sections = [{**one, "counts": last.get(one["id"]) is one} for one in sections]
    return {**shown, "sections": sections, "end": end, "broken": broken}
