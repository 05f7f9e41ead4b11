"""A list of calls of the program replay, with its answers: the format is at the head of host/model/src/replay.rs."""

import re

from . import blocks, giving
from .history import ITEMS, Call, History
from .words import NOBODY_UP, NOT_IN_WINDOW, REFUSED_BY, STALE, at

PLACES = 8
NUMBER = re.compile(r"0|[1-9][0-9]*")
SIGNED = re.compile(r"0|-?[1-9][0-9]*")
HEX = re.compile(r"(?:[0-9a-f]{2})*")

# For each letter what stands behind the place: u an unsigned number, v a value, x bytes; and what an accepted
# call answers behind its 0, * for more numbers.
FORMS = {
    "M": ("uuv", ""),
    "A": ("uv", ""),
    "B": ("", "u"),
    "R": ("uu", "v"),
    "W": ("uuv", ""),
    "C": ("u", "u"),
    "X": ("u", ""),
    "Q": ("", "u" * 8),
    "S": ("", "x"),
    "D": ("u", ""),
    "F": ("uu", ""),
    "H": ("x", ""),
    "K": ("", "uuuu*"),
    "V": ("", "v" * ITEMS),
    "Z": ("uv", "ux"),
    "Y": ("uuvx", "ux"),
    "J": ("u", "x"),
    "P": ("x", ""),
    "O": ("uu", ""),
    "U": ("uu", ""),
    "G": ("u*", "uu*"),
}


def field(text, kind):
    """A number or bytes; None where the text is not such."""
    if kind == "x":
        return bytes.fromhex(text) if HEX.fullmatch(text) else None
    low, high = (-(2**31), 2**31) if kind == "v" else (0, 2**32)
    if not (SIGNED if kind == "v" else NUMBER).fullmatch(text) or len(text) > 11:
        return None
    return int(text) if low <= int(text) < high else None


def fields(texts, form):
    """What stands in the fields; None where they are not of the form."""
    if form.endswith("*"):
        form = form[:-1] + "u" * (len(texts) - len(form) + 1)
    if len(texts) != len(form):
        return None
    found = [field(text, kind) for text, kind in zip(texts, form)]
    return None if None in found else found


def refusal(line, text, numbers):
    """The number of a refused call's answer, which is one of these."""
    number = field(text, "u")
    if number not in numbers:
        raise at(line, f"is answered {shown(text)}, which is no answer to it")
    return number


def shown(text):
    return f"{text[:20]}.." if len(text) > 22 else text or "by an empty line"


class Lists:
    """Plays the lines of a list."""

    def __init__(self):
        self.history = History()
        self.sent = []

    def play(self, number, line, answer):
        history = self.history
        if line.startswith("#") and answer == "?":
            history.notes.append((number, line[1:].strip()))
            return
        parts = line.split(" ")
        form = FORMS.get(parts[0])
        place = field(parts[1], "u") if len(parts) > 1 else None
        given = fields(parts[2:], form[0]) if form and place is not None and place < PLACES else None
        if answer == "?":
            call = Call(number, None, line, answer)
            history.unknown.append(number)
        elif given is None:
            raise at(number, "is no call of the format, and is not answered by ?")
        else:
            call = Call(number, place, line, answer)
            self.answered(call, parts[0], given, answer.split(" "), form[1])
        history.calls.append(call)

    def answered(self, call, letter, given, answer, form):
        if letter not in "MAY" and call.place not in self.history.places:
            raise at(call.line, "is at a place where nothing is made, and is not answered by ?")
        if letter == "G":
            return self.call_g(call, given, answer)
        if answer[0] != "0":
            return self.refused(call, letter, given, refusal(call.line, " ".join(answer), REFUSED_BY[letter]))
        got = fields(answer[1:], form)
        if got is None:
            raise at(call.line, f"is answered {shown(' '.join(answer))}, which is no answer to it")
        getattr(self, f"call_{letter.lower()}")(call, given, got)

    def refused(self, call, letter, given, number):
        history = self.history
        if letter in "DFH":
            data = self.delivered(call, letter, given)
            return history.deliver_refused(call, self.named(letter, given) or self.block(data), number)
        if letter == "W" and number == STALE:
            return history.stale(call, given[0])
        return history.refuse(call, number)

    def delivered(self, call, letter, given):
        """The bytes that a line delivers."""
        if letter == "H":
            return given[0]
        if given[0] >= len(self.sent):
            raise at(call.line, f"delivers block {given[0]}, which was not sent before it, and is not answered by ?")
        data = bytearray(self.sent[given[0]][0])
        if letter == "F":
            if given[1] >= 8 * blocks.BYTES:
                raise at(call.line, "changes a bit that a block does not have, and is not answered by ?")
            data[given[1] // 8] ^= 1 << given[1] % 8
        return bytes(data)

    def block(self, data):
        """The block sent with these bytes, the last of them."""
        return next((block for sent, block in reversed(self.sent) if sent == data), None)

    def named(self, letter, given):
        """The block that a line names: of two sends of the same bytes, the right one."""
        return self.sent[given[0]][1] if letter in "DF" else None

    # The accepted calls.

    def call_m(self, call, given, got):
        n, own, value = given
        self.history.make(call, n, own, value)

    def call_a(self, call, given, got):
        n, value = given
        self.history.make(call, n, None, value)

    def call_b(self, call, given, got):
        self.history.begin(call, got[0])

    def call_r(self, call, given, got):
        self.history.read(call, given[0], got[0])

    def call_w(self, call, given, got):
        self.history.write(call, *given)

    def call_c(self, call, given, got):
        self.history.ask(call, given[0], got[0] == 1)

    def call_x(self, call, given, got):
        self.history.withdraw(call, given[0])

    def call_s(self, call, given, got):
        block = blocks.read(got[0])
        if block is None:
            raise at(call.line, "sends, and is not answered by a block")
        self.sent.append((got[0], block))
        self.history.send(call, block)

    def call_d(self, call, given, got, letter="D"):
        data = self.delivered(call, letter, given)
        # A damaged block that is accepted is another than the one it names.
        block = (self.named(letter, given) if letter == "D" else self.block(data)) or blocks.read(data)
        if block is None:
            raise at(call.line, f"delivers {len(data)} bytes, and is accepted")
        self.history.deliver(call, block)

    def call_f(self, call, given, got):
        self.call_d(call, given, got, "F")

    def call_h(self, call, given, got):
        self.call_d(call, given, got, "H")

    def call_k(self, call, given, got):
        sender, ticket, moved, count, *aborted = got
        if len(aborted) != count:
            raise at(call.line, f"is said to abort {count}, and {len(aborted)} are named")
        self.history.work(call, sender, ticket, moved == 1, aborted)

    def call_z(self, call, given, got):
        place = self.history.places[call.place]
        journal = place.journal[: given[0] // blocks.BYTES]
        self.restart(call, (place.n, place.own, given[1]), journal, got[0], place.notices)

    def call_y(self, call, given, got):
        n, own, value, data = given
        parts = [data[at : at + blocks.BYTES] for at in range(0, len(data) - blocks.BYTES + 1, blocks.BYTES)]
        self.restart(call, (n, own, value), [self.block(part) or blocks.read(part) for part in parts], got[0])

    def restart(self, call, lent, journal, count, notices=()):
        if count > len(journal):
            raise at(call.line, f"is said to commit {count} blocks, and the journal has {len(journal)}")
        self.history.restart(call, *lent, journal[:count], notices)

    def look(self, call, given, got):
        self.history.look(call)

    call_q = call_j = call_p = look

    def call_o(self, call, given, got):
        self.history.notice(call, given[0], True, given[1])

    def call_u(self, call, given, got):
        self.history.notice(call, given[0], False, given[1])

    def call_g(self, call, turns, answer):
        """A giving, which names giver and tickets also where a deliver ended it."""
        number = refusal(call.line, answer[0], REFUSED_BY["G"] | {0})
        form = {NOBODY_UP: "", NOT_IN_WINDOW: "u"}.get(number, "uu*")
        got = fields(answer[1:], form)
        if got is None or (len(got) > 1 and len(got) != 2 + got[1]):
            raise at(call.line, f"is answered {shown(' '.join(answer))}, which is no answer to it")
        if len(turns) != self.history.places[call.place].n or (got and not (got[0] < len(turns) and got[0] in self.history.places)):
            raise at(call.line, "tells turns of others than its group has, and is not answered by ?")
        if number in (NOBODY_UP, NOT_IN_WINDOW):
            return self.history.refuse(call, number)
        return giving.give(self.history, call, got[0], turns[got[0]], number, got[2:])

    def call_v(self, call, given, got):
        self.history.look(call, got)


def read(calls, answers):
    """The history of a list; there is an answer for each line."""
    lists = Lists()
    for number, (line, answer) in enumerate(zip(calls, answers), 1):
        lists.play(number, line, answer)
    return lists.history
