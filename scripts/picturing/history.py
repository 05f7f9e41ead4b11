"""What happened in a list of calls: the events that a picture shows, put together call by call."""

import dataclasses

from .blocks import Block
from .words import STALE, at

ITEMS = 128


@dataclasses.dataclass
class Call:
    """A line that takes time: a call, or a line that is none."""

    line: int
    place: int | None
    text: str
    answer: str


@dataclasses.dataclass
class Delivery:
    """Bytes that came to a place, and what became of them there."""

    line: int
    place: int
    block: Block | None
    refused: int | None = None
    # Delivered before the turn had come to it.
    early: bool = False
    done: int = 0
    # The lines of the works that took a step with it, and that at which it left its place.
    worked: list = dataclasses.field(default_factory=list)
    left: int | None = None
    track: int = 0


@dataclasses.dataclass
class Step:
    """A work that was accepted."""

    line: int
    place: int
    block: Block
    ticket: int
    # Another slot than the turn's: what no replica of this engine does.
    out_of_turn: bool


@dataclasses.dataclass
class Transaction:
    place: int
    # The own number there; None at a station.
    own: int | None
    ticket: int
    began: int
    asked: int | None = None
    sent: int | None = None
    ended: int | None = None
    # committed, read-only, aborted, stale, withdrawn, lost
    ending: str | None = None
    writes: dict = dataclasses.field(default_factory=dict)
    # The lines of the calls made under it.
    calls: list = dataclasses.field(default_factory=list)
    track: int = 0


@dataclasses.dataclass
class Place:
    """A replica or a station (own is None) as the answers show it."""

    n: int
    own: int | None
    turn: int = 0
    commits: int = 0
    tickets: int = 0
    values: list = dataclasses.field(default_factory=list)
    open: dict = dataclasses.field(default_factory=dict)
    asked: list = dataclasses.field(default_factory=list)
    waiting: list = dataclasses.field(default_factory=list)
    journal: list = dataclasses.field(default_factory=list)
    # The notices taken, in order: replica, whether it is out, slot.
    notices: list = dataclasses.field(default_factory=list)

    def is_out(self, slot):
        """Whether a slot is out: the last notice about its owner at or below it says so."""
        said = [out for about, out, at in self.notices if about == slot % self.n and at <= slot]
        return bool(said) and said[-1]


def free_track(used):
    """The lowest number that is not used."""
    return next(track for track in range(len(used) + 1) if track not in used)


class History:
    def __init__(self):
        self.calls = []
        self.notes = []
        self.places = {}
        # For each place (line, own number or None) of every make and restart.
        self.owns = {}
        self.makes = []
        self.restarts = []
        self.sends = []
        self.deliveries = []
        self.steps = []
        self.transactions = []
        # Of a work that aborts: its line, the transaction.
        self.aborts = []
        self.refusals = []
        self.reads = []
        # Notices taken: line, place, text; and slots passed as out: line, place, sender, slot.
        self.notices = []
        self.passed_out = []
        # Givings that gave something: line, place, giver, first and last slot.
        self.givings = []
        # Lines that are no calls, and calls that only look.
        self.unknown = []
        self.looks = []
        # For each place: (line, None, value) sets all items, (line, item, value) one.
        self.values = {}

    def refuse(self, call, number):
        self.refusals.append((call.line, call.place, number))

    # The calls that make a place.

    def make(self, call, n, own, value):
        self._put(call, n, own, value)
        self.makes.append((call.line, call.place))

    def restart(self, call, n, own, value, blocks, notices=()):
        """From a journal of which these blocks are committed, and the notices taken before."""
        place = self._put(call, n, own, value)
        place.notices = list(notices)
        place.turn = len(blocks)
        place.journal = list(blocks)
        for block in blocks:
            for ticket, writes in block.records:
                place.commits += 1
                self._set(call, writes)
                if block.sender == own:
                    place.tickets = max(place.tickets, ticket)
        self.restarts.append((call.line, call.place, len(blocks)))

    def _put(self, call, n, own, value):
        before = self.places.get(call.place)
        if before:
            for transaction in list(before.open.values()):
                self._end(call, transaction, "lost")
            for delivery in before.waiting:
                delivery.left = call.line
        place = self.places[call.place] = Place(n, own, values=[value] * ITEMS)
        self.owns.setdefault(call.place, []).append((call.line, own))
        self.values.setdefault(call.place, []).append((call.line, None, value))
        return place

    def _set(self, call, writes):
        for item, value in writes.items():
            if item < ITEMS and self.places[call.place].values[item] != value:
                self.places[call.place].values[item] = value
                self.values[call.place].append((call.line, item, value))

    def look(self, call, values=()):
        """A call that changes nothing; where it shows the values, these hold."""
        self.looks.append((call.line, call.place))
        self._set(call, dict(enumerate(values)))

    # The calls of a client.

    def begin(self, call, ticket):
        place = self.places[call.place]
        track = free_track([transaction.track for transaction in place.open.values()])
        transaction = Transaction(call.place, place.own, ticket, call.line, track=track)
        place.tickets = ticket
        place.open[ticket] = transaction
        transaction.calls.append(call.line)
        self.transactions.append(transaction)

    def _open(self, call, ticket):
        transaction = self.places[call.place].open.get(ticket)
        if transaction is None:
            raise at(call.line, f"is accepted, and ticket {ticket} is not open there")
        transaction.calls.append(call.line)
        return transaction

    def read(self, call, ticket, value):
        self._open(call, ticket)
        self.reads.append((call.line, call.place, value))

    def write(self, call, ticket, item, value):
        self._open(call, ticket).writes[item] = value

    def stale(self, call, ticket):
        """A write refused by 9, which ends its transaction."""
        self._end(call, self._open(call, ticket), "stale")
        self.refuse(call, STALE)

    def ask(self, call, ticket, read_only):
        transaction = self._open(call, ticket)
        if read_only:
            self._end(call, transaction, "read-only")
        else:
            transaction.asked = call.line
            self.places[call.place].asked.append(ticket)

    def withdraw(self, call, ticket):
        self._end(call, self._open(call, ticket), "withdrawn")

    def _end(self, call, transaction, ending):
        place = self.places[call.place]
        transaction.ended, transaction.ending = call.line, ending
        del place.open[transaction.ticket]
        if transaction.ticket in place.asked:
            place.asked.remove(transaction.ticket)

    # The calls that move the turn, and those that say whose slots it passes.

    def notice(self, call, about, out, slot):
        self.places[call.place].notices.append((about, out, slot))
        self.notices.append((call.line, call.place, f"out {about} from {slot}" if out else f"back {about} at {slot}"))

    def _pass_out(self, call, place, sender, said):
        """A work on an out slot, which needs no block. Its next is journaled, also an own one."""
        if said != (place.turn % place.n, 0, True, []):
            raise at(call.line, f"works on slot {place.turn}, which is out there, and does more than pass it")
        self.passed_out.append((call.line, call.place, sender, place.turn))
        place.journal.append(Block(sender, place.turn, []))
        place.turn += 1

    def send(self, call, block):
        place = self.places[call.place]
        block.line, block.place = call.line, call.place
        for ticket, _ in block.records:
            if ticket in place.open:
                place.open[ticket].sent = call.line
            if ticket in place.asked:
                place.asked.remove(ticket)
        place.journal.append(block)
        self.sends.append(block)

    def deliver(self, call, block):
        place = self.places[call.place]
        delivery = Delivery(call.line, call.place, block)
        delivery.early = block.slot > place.turn
        delivery.track = free_track([other.track for other in place.waiting])
        place.waiting.append(delivery)
        self.deliveries.append(delivery)

    def deliver_refused(self, call, block, number):
        self.deliveries.append(Delivery(call.line, call.place, block, number))
        self.refuse(call, number)

    def work(self, call, sender, ticket, moved, aborted):
        place = self.places[call.place]
        if place.is_out(place.turn):
            return self._pass_out(call, place, sender, (sender, ticket, moved, aborted))
        delivery = self._worked(call, place, sender, ticket)
        block = delivery.block
        self.steps.append(Step(call.line, call.place, block, ticket, block.slot != place.turn))
        delivery.worked.append(call.line)
        if ticket:
            self.commit(call, place, sender, ticket, block.records[delivery.done][1])
            delivery.done += 1
        for hit in aborted:
            self.abort(call, place, hit)
        if moved:
            delivery.left = call.line
            place.waiting.remove(delivery)
            place.turn += 1
            if sender != place.own:
                place.journal.append(block)

    def commit(self, call, place, sender, ticket, writes):
        place.commits += 1
        self._set(call, writes)
        if sender == place.own and ticket in place.open:
            self._end(call, place.open[ticket], "committed")

    def abort(self, call, place, ticket):
        transaction = place.open.get(ticket)
        if transaction is None:
            raise at(call.line, f"aborts ticket {ticket}, which is not open there")
        self._end(call, transaction, "aborted")
        self.aborts.append((call.line, transaction))

    def _worked(self, call, place, sender, ticket):
        """The delivery that a work's answer speaks of: that of the turn, else the first that came."""

        def fits(delivery):
            block = delivery.block
            left = block.records[delivery.done :]
            return block.sender == sender and (left[0][0] if left else 0) == ticket

        found = [delivery for delivery in place.waiting if fits(delivery)]
        found.sort(key=lambda delivery: delivery.block.slot != place.turn)
        if not found:
            what = f"ticket {ticket}" if ticket else "an empty block"
            raise at(call.line, f"works on {what} of replica {sender}, which was not delivered there")
        return found[0]
