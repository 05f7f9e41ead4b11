"""What is said of bad input, and what the refusal numbers stand for."""

# Document 01, "Answers when a call is turned away", in few words; 7, 23 and 25 to 31 as of document 02.
REFUSALS = {
    1: "length",
    2: "out of range",
    3: "not open",
    4: "asked or sent",
    5: "6 are open",
    6: "tickets spent",
    7: "class to come",
    8: "item is held",
    9: "stale, aborted",
    10: "a ninth item",
    11: "another's slot",
    12: "sent already",
    13: "slots spent",
    14: "bad check",
    15: "bad form",
    16: "another size",
    17: "slot is past",
    18: "too far ahead",
    19: "not what it sent",
    20: "waits already",
    21: "nothing waits",
    23: "half applied",
    25: "only reads",
    26: "not kept",
    27: "no call",
    28: "does not fit",
    29: "slot is out",
    30: "nobody is up",
    31: "not in window",
}

# The numbers that can refuse a call, by its letter: docs/SPECIFICATION.md, S2.1. V and J are no calls at a replica, and
# nothing refuses them. 26 and 27 are of weeks alone.
REFUSED_BY = {
    **dict.fromkeys("MAZY", {1, 2}),
    "B": {1, 5, 6},
    "R": {1, 2, 3, 4},
    "W": {1, 2, 3, 4, 7, 8, 9, 10, 25},
    **dict.fromkeys("CX", {1, 3, 4}),
    "Q": {1},
    "P": {1, 2, 23},
    **dict.fromkeys("OU", {1, 2, 28}),
    "S": {1, 11, 12, 13, 25, 29},
    **dict.fromkeys("DFH", {1, 14, 15, 16, 17, 18, 19, 20, 29}),
    "K": {1, 21},
    "G": {1, 14, 15, 16, 17, 18, 19, 20, 25, 29, 30, 31},
    **dict.fromkeys("VJ", set()),
}

STALE = 9
SLOT_OUT = 29
NOBODY_UP = 30
NOT_IN_WINDOW = 31


class Bad(Exception):
    """Input that cannot be drawn; its text is one line."""


def at(line, text):
    """Bad input at a line of the list, counted from 1."""
    return Bad(f"line {line} {text}")


def plural(count, word):
    return f"{count} {word}" if count == 1 else f"{count} {word}s"
