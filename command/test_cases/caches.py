"""A second cache, to compare the command's with: a list of slots, and the bytes of its two stores."""

CACHE_SLOTS, SESSION_SLOTS = 16, 64
ROW = 24


def row(mark, instance, length):
    return b"".join(word.to_bytes(8, "little") for word in (mark, instance, length))


def owners(rows, slots=SESSION_SLOTS):
    """The owner table with these rows, by their slots. All others are free."""
    return b"".join(row(*rows.get(slot, (0, 0, 0))) for slot in range(slots))


def buffer(files, size, slots=SESSION_SLOTS):
    """The buffer with these files, by their slots, each of which has so many bytes."""
    return b"".join(files.get(slot, b"").ljust(size, b"\0") for slot in range(slots))


class Model:
    """Who holds which slot. A slot is as large as the largest file."""

    def __init__(self):
        self.held = {}

    def put(self, instance, file):
        """The slot, or nothing if all are taken by others."""
        slots = [slot for slot, (owner, _) in self.held.items() if owner == instance]
        slots += [slot for slot in range(SESSION_SLOTS) if slot not in self.held]
        if slots:
            self.held[slots[0]] = instance, file
        return slots[0] if slots else None

    def stores(self, size):
        """The owner table and the buffer."""
        rows = {slot: (1, instance, len(file)) for slot, (instance, file) in self.held.items()}
        return owners(rows), buffer({slot: file for slot, (_, file) in self.held.items()}, size)
