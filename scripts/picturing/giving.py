"""A giving: the slots that one who comes back is given from another's window, all at one line of the list."""

from .blocks import Block
from .words import at

# The numbers of a deliver that a right window leads to.
WRONG_GROUP = 16
NOT_SENT = 19


def give(history, call, giver, to, number, aborted):
    """From replica `giver`, whose turn was told to be `to`; where it is ended by a deliver, with its number."""
    place, other = history.places[call.place], history.places[giver]
    first = place.turn
    while place.turn < to and not _refused(place, other, number):
        _take(history, call, place, other)
    if number and place.turn >= to:
        raise at(call.line, f"is ended by {number}, and all that it is about is given")
    if place.turn > first:
        history.givings.append((call.line, call.place, giver, first, place.turn - 1))
    elif not number:
        history.look(call)
    if number:
        history.refuse(call, number)
    for ticket in aborted:
        history.abort(call, place, ticket)


def _waiting(place):
    """The delivery that waits for the turn."""
    return next((delivery for delivery in place.waiting if delivery.block.slot == place.turn), None)


def _given(place, other):
    """The window's block for the turn; None where none is delivered."""
    if place.is_out(place.turn) or _waiting(place):
        return None
    return other.journal[place.turn] if place.turn < len(other.journal) else Block(place.turn % place.n, place.turn, [])


def _refused(place, other, number):
    """Whether the deliver for the turn is the one that is refused so."""
    block = _given(place, other)
    if not number or block is None:
        return False
    if number == NOT_SENT:
        sent = place.journal[place.turn] if place.turn < len(place.journal) else None
        return block.sender == place.own and (sent is None or sent.records != block.records)
    return number != WRONG_GROUP or other.n != place.n


def _take(history, call, place, other):
    """Takes the turn over one slot."""
    delivery, block, done = _waiting(place), _given(place, other), 0
    if place.is_out(place.turn):
        delivery, block = None, Block(place.turn % place.n, place.turn, [])
        place.journal.append(block)
    elif delivery:
        block, done = delivery.block, delivery.done
        delivery.worked.append(call.line)
        delivery.left = call.line
        place.waiting.remove(delivery)
    for ticket, writes in block.records[done:]:
        history.commit(call, place, block.sender, ticket, writes)
    if len(place.journal) == place.turn:
        place.journal.append(block)
    place.turn += 1
