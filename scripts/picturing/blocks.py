"""The block of a message, as far as a picture needs it: document 01, "A message is one block"."""

import dataclasses

BYTES = 512
RECORDS = 6
ENTRIES = 8


@dataclasses.dataclass(eq=False)
class Block:
    sender: int
    slot: int
    # For each writeset its ticket and its items with their values.
    records: list
    # Where it was sent: the line and the place; None for bytes that no line of the list sent.
    line: int | None = None
    place: int | None = None

    def words(self):
        """Slot and size."""
        return f"slot {self.slot}" + ("" if self.records else ", empty")


def number(data, start, length, signed=False):
    return int.from_bytes(data[start : start + length], "little", signed=signed)


def record(data, start):
    writes = min(data[start + 4], ENTRIES)
    entries = [start + 8 + 8 * entry for entry in range(writes)]
    return number(data, start, 4), {data[entry]: number(data, entry + 4, 4, signed=True) for entry in entries}


def read(data):
    """The block of these bytes, which some replica has made or accepted; None where there are not so many."""
    if len(data) != BYTES:
        return None
    count = min(data[3], RECORDS)
    return Block(data[1], number(data, 4, 4), [record(data, 16 + 72 * j) for j in range(count)])
