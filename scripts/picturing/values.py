"""The values of an item at each place over the columns, and where the copies differ."""

import dataclasses


@dataclasses.dataclass
class Strip:
    """An item's value at a place: (column, value) for each change, the first maybe at -1, before the columns."""

    place: int
    changes: list

    def at(self, column):
        held = None
        for changed, value in self.changes:
            if changed > column:
                break
            held = value
        return held

    def parts(self, total):
        """(first column, column behind the last, value)"""
        ends = [column for column, _ in self.changes[1:]] + [total]
        return [(column, end, value) for (column, value), end in zip(self.changes, ends) if column < end]


def strip(history, window, place, item):
    changes = []
    for line, changed, value in history.values[place]:
        column = window.column(line)
        if column == window.total:
            break
        if changed not in (None, item):
            continue
        if changes and changes[-1][0] == column:
            changes.pop()
        if not changes or changes[-1][1] != value:
            changes.append((column, value))
    return Strip(place, changes)


def differing(strips, window):
    """The parts of the columns in which the copies differ: (first column, column behind the last)."""
    parts = []
    held = {}
    changes = sorted((column, one.place, value) for one in strips for column, value in one.changes)
    ends = [column for column, _, _ in changes[1:]] + [window.total]
    for (column, place, value), end in zip(changes, ends):
        held[place] = value
        if end <= column or len(set(held.values())) < 2:
            continue
        if parts and parts[-1][1] == column:
            parts[-1] = (parts[-1][0], end)
        else:
            parts.append((column, end))
    return parts


def most_changed(history, window, places, count):
    """The items that change most often in the columns, in rising order."""
    changes = {}
    for place in places:
        for line, item, _ in history.values[place]:
            if item is not None and window.has(line):
                changes[item] = changes.get(item, 0) + 1
    return sorted(sorted(changes, key=lambda item: (-changes[item], item))[:count])
