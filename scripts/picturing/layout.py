"""Where things stand in a picture: columns of calls, rows of columns, lanes of a row, and texts that do not overlap."""

import bisect
import dataclasses

WIDTH = 900
LEFT = 92
RIGHT = 16
# What is shown behind the last column of a row: how things stand after it.
AFTER = 22
# The fewest columns that a row is laid out for.
FEWEST = 22
TEXT = 12
SMALL = 11
LINE = 14

# Widths of characters in parts of the font's size, on the wide side of the sans-serif fonts in use.
NARROW = {**dict.fromkeys("ijl.,:;'|!", 0.29), **dict.fromkeys("frt()[]/- ", 0.37)}
WIDE = {**dict.fromkeys("mwMW", 0.9), **dict.fromkeys("ABCDEFGHKNOPQRSTUVXYZ", 0.72)}


def text_width(text, size):
    return size * sum(NARROW.get(c) or WIDE.get(c) or 0.59 for c in text)


def wrapped(text, size, width):
    """The text in lines of at most this width."""
    lines = [""]
    for word in text.split():
        longer = f"{lines[-1]} {word}".strip()
        if lines[-1] and text_width(longer, size) > width:
            lines.append(word)
        else:
            lines[-1] = longer
    return lines


class Window:
    """The calls that are drawn, a column to each, in rows of so many columns."""

    def __init__(self, calls, columns):
        self.calls = calls
        self.lines = [call.line for call in calls]
        self.total = len(calls)
        self.columns = min(columns, self.total)
        self.pitch = (WIDTH - LEFT - RIGHT - AFTER) / max(self.columns, min(columns, FEWEST))
        self.rows = -(-self.total // self.columns)

    def column(self, line):
        """The column of a line: -1 where it is before the first, the number of columns where it is behind the last or none."""
        if line is None:
            return self.total
        found = bisect.bisect_left(self.lines, line)
        if found < self.total and self.lines[found] == line:
            return found
        return -1 if found == 0 else self.total

    def has(self, line):
        return 0 <= self.column(line) < self.total

    def behind(self, line):
        """The first column behind a line."""
        return bisect.bisect_right(self.lines, line)

    def row(self, column):
        return column // self.columns

    def inside(self, row):
        """The columns of a row."""
        return range(row * self.columns, min((row + 1) * self.columns, self.total))

    def x(self, column):
        return LEFT + (column % self.columns + 0.5) * self.pitch

    def right(self, row):
        """The right edge of a row's columns."""
        return LEFT + len(self.inside(row)) * self.pitch + AFTER

    def part(self, row, first, last):
        """The part of a row between two columns, from where to where; None where there is none."""
        inside = self.inside(row)
        if first >= inside.stop or last < inside.start or first >= last:
            return None
        return self.x(first) if first in inside else LEFT, self.x(last) if last in inside else self.right(row)


@dataclasses.dataclass
class Label:
    """A text that belongs to a mark, of a line maybe."""

    x: float
    text: str
    kind: str
    row: int = 0
    left: float = 0
    line: int | None = None


def pack(labels, size, limit):
    """Gives each label a line below the marks, so that none overlaps another; how many lines there are."""
    ends = []
    for label in sorted(labels, key=lambda label: label.x):
        if not label.text:
            continue
        width = text_width(label.text, size)
        label.left = max(LEFT, min(label.x - 4, limit - width))
        free = (row for row, end in enumerate(ends) if end + 7 <= label.left)
        label.row = next(free, len(ends))
        if label.row == len(ends):
            ends.append(0)
        ends[label.row] = label.left + width
    return len(ends)


@dataclasses.dataclass
class Note:
    """A comment of the list: the place of its rule, the line before which it stands, its text."""

    x: float
    line: int
    text: str
    lines: list = dataclasses.field(default_factory=list)
    width: float = 0
    top: int = 0


# A note beside its rule is at most so wide, and has at least so much room.
NOTE, NARROWEST = 290, 110


def pack_notes(notes, size, limit):
    """Gives each note lines of its own to the right of its rule, which goes down to the columns; how many lines there
    are, and 0 where there is no room for that."""
    placed = []
    for note in notes:
        room = min(NOTE, limit - note.x - 4)
        if room < NARROWEST:
            return 0
        note.lines = wrapped(note.text, size, room)
        note.width = 12 + max(text_width(line, size) for line in note.lines)
        # The rule of this note crosses no other note, and it stands to the right of the others' rules.
        note.top = max((other.top + len(other.lines) for other in placed if note.x < other.x + other.width), default=0)
        placed.append(note)
    return max((note.top + len(note.lines) for note in notes), default=0)


@dataclasses.dataclass
class Lane:
    """A place in a row: where its parts stand."""

    place: int
    bars: int
    tracks: int
    labels: list
    label_rows: int
    top: float = 0

    @property
    def bar(self):
        """The height of a transaction's bar."""
        return 16 if self.bars <= 2 else 8

    def bar_top(self, track):
        return self.base - 9 - (track + 1) * (self.bar + 2)

    @property
    def base(self):
        return self.top + 7 + self.bars * (self.bar + 2) + 9

    def track(self, number):
        return self.base + 10 + 6 * number

    def label_line(self, row):
        """The base line of a label's text."""
        return self.base + 6 * self.tracks + 16 + LINE * row

    @property
    def bottom(self):
        return self.base + 6 * self.tracks + 10 + LINE * self.label_rows + 4
