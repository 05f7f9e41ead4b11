"""A week of designers (document 02, Req 09) with what it prints: numbers alone, so that what a send holds and what a
work does is put together from the calls before it."""

import re

from .blocks import Block
from .history import Call, History
from .lists import field, refusal, shown
from .words import REFUSED_BY, SLOT_OUT, STALE, Bad, at

FIRST = re.compile(r"N ([234])")
# What stands behind the place.
FORMS = {"B": "", "W": "uuv", "C": "u", "S": "", "D": "u", "K": ""}
KEPT = 16
NOT_KEPT, NO_CALL = 26, 27


def is_week(calls):
    return bool(calls) and FIRST.fullmatch(calls[0]) is not None


class Week:
    def __init__(self, n):
        self.n = n
        self.history = History()
        self.sent = []
        for place in range(n):
            self.history.make(Call(1, place, "", ""), n, place, 0)

    def play(self, number, line, answer):
        given = self.given(line)
        call = Call(number, given and given[1], line, answer)
        if (given is None) != (answer == str(NO_CALL)):
            raise at(number, f"is answered {shown(answer)}, and is {'no call' if given is None else 'a call'}")
        self.history.calls.append(call)
        if given is None:
            return self.history.refuse(call, NO_CALL)
        letter, _, *given = given
        # A week has no notices.
        numbers = REFUSED_BY[letter] - {SLOT_OUT} | ({NOT_KEPT} if letter == "D" else set())
        said = 0 if answer == "0" else refusal(number, answer, numbers)
        if said:
            return self.refused(call, letter, given, said)
        return getattr(self, f"call_{letter.lower()}")(call, *given)

    def given(self, line):
        """Letter, place and what is behind them; None where the line is no call."""
        letter, *rest = line.split(" ")
        form = FORMS.get(letter)
        if form is None or len(rest) != 1 + len(form):
            return None
        found = [field(text, kind) for text, kind in zip(rest, "u" + form)]
        return None if None in found or found[0] >= self.n else [letter, *found]

    def kept(self, slot):
        return next((block for block in reversed(self.sent[-KEPT:]) if block.slot == slot), None)

    def refused(self, call, letter, given, number):
        if letter == "D":
            if (self.kept(given[0]) is None) != (number == NOT_KEPT):
                raise at(call.line, f"is answered {number}, and block {given[0]} is {'not ' * (number != NOT_KEPT)}kept")
            return self.history.deliver_refused(call, self.kept(given[0]), number)
        if letter == "W" and number == STALE:
            return self.history.stale(call, given[0])
        return self.history.refuse(call, number)

    def call_b(self, call):
        self.history.begin(call, self.history.places[call.place].tickets + 1)

    def call_w(self, call, ticket, item, value):
        self.history.write(call, ticket, item, value)

    def call_c(self, call, ticket):
        transaction = self.history.places[call.place].open.get(ticket)
        self.history.ask(call, ticket, transaction is not None and not transaction.writes)

    def call_s(self, call):
        place = self.history.places[call.place]
        records = [(ticket, dict(place.open[ticket].writes)) for ticket in place.asked]
        block = Block(call.place, place.turn, records)
        self.sent.append(block)
        self.history.send(call, block)

    def call_d(self, call, slot):
        block = self.kept(slot)
        if block is None:
            raise at(call.line, f"is accepted, and block {slot} is not kept")
        self.history.deliver(call, block)

    def call_k(self, call):
        place = self.history.places[call.place]
        found = [delivery for delivery in place.waiting if delivery.block.slot == place.turn]
        if not found:
            raise at(call.line, f"is accepted, and no block waits there for turn {place.turn}")
        block, done = found[0].block, found[0].done
        ticket, writes = block.records[done] if block.records else (0, {})
        moved = done + 1 >= len(block.records)
        aborted = [] if block.sender == place.own else self.hit(place, writes)
        self.history.work(call, block.sender, ticket, moved, aborted)

    def hit(self, place, writes):
        """The open transactions, active or asked, that have written one of these items."""
        return sorted(ticket for ticket, one in place.open.items() if one.sent is None and one.writes.keys() & writes)


def read(calls, answers):
    """The history of a week; each line behind the first has an answer, and each replica a line behind them."""
    n = int(FIRST.fullmatch(calls[0])[1])
    week = Week(n)
    for number, (line, answer) in enumerate(zip(calls[1:], answers), 2):
        week.play(number, line, answer)
    for own, said in enumerate(answers[len(calls) - 1 :]):
        place = week.history.places[own]
        due = f"{own} {place.turn} {place.commits} {len(place.open)}"
        if said != due:
            raise Bad(f"the answers end with {said}, and the calls before them with {due}")
    return week.history
