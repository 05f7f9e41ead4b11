#!/usr/bin/env python3
"""A WRONG replica, for a picture of what goes wrong: it processes the block that arrived first, not that of its turn.

    scripts/picturing/processes_on_arrival.py <CALLS >ANSWERS

It answers lists of replay's lines M, B, R, W, C, S, D and K, and refuses nothing but a work where nothing waits.
Document 01 names it first of its misdrawn replicas; no part of the engine uses it.
"""

import sys


class WrongReplica:
    def __init__(self, n, own, value):
        self.n, self.own, self.start = n, own, value
        self.values, self.open, self.asked = {}, {}, []
        self.tickets = self.turn = 0
        # The records of what arrived, in the order of arrival: that is the fault.
        self.arrived = []

    def send(self):
        records = [(ticket, self.open[ticket]) for ticket in self.asked]
        self.asked = []
        return block(self.own, self.n, self.turn, records), (self.own, records)

    def work(self):
        if not self.arrived:
            return "21"
        sender, records = self.arrived[0]
        ticket, writes = records[0] if records else (0, {})
        self.values.update(writes)
        moved = len(records) < 2
        self.arrived[:1] = [] if moved else [(sender, records[1:])]
        self.turn += moved
        return f"0 {sender} {ticket} {int(moved)} 0"


def block(sender, n, slot, records):
    """Document 01's 512 bytes, with the check of document 02's Req 04."""
    data = bytearray([2 if records else 1, sender, n, len(records), *slot.to_bytes(4, "little")]).ljust(504, b"\0")
    for j, (ticket, writes) in enumerate(records):
        start = 16 + 72 * j
        data[start : start + 5] = [*ticket.to_bytes(4, "little"), len(writes)]
        for e, (item, value) in enumerate(sorted(writes.items())):
            entry = [item, 0, 0, 0, *value.to_bytes(4, "little", signed=True)]
            data[start + 8 + 8 * e : start + 16 + 8 * e] = entry
    words = [int.from_bytes(data[at : at + 2], "little") for at in range(0, 504, 2)]
    sums = sum(words), sum((252 - i) * word for i, word in enumerate(words))
    return bytes(data) + b"".join(number.to_bytes(4, "little") for number in sums)


def answers(lines):
    replicas, sent = {}, []
    for line in lines:
        letter, *rest = line.split(" ")
        if letter not in set("MBRWCSDK"):
            yield "?"
            continue
        k, *given = map(int, rest)
        if letter == "M":
            replicas[k] = WrongReplica(*given)
        replica, said = replicas[k], "0"
        if letter == "B":
            replica.tickets += 1
            replica.open[replica.tickets] = {}
            said = f"0 {replica.tickets}"
        elif letter == "R":
            said = f"0 {replica.values.get(given[1], replica.start)}"
        elif letter == "W":
            replica.open[given[0]][given[1]] = given[2]
        elif letter == "C":
            replica.asked.append(given[0])
            said = "0 0"
        elif letter == "S":
            data, message = replica.send()
            sent.append(message)
            said = f"0 {data.hex()}"
        elif letter == "D":
            replica.arrived.append(sent[given[0]])
        elif letter == "K":
            said = replica.work()
        yield said


if __name__ == "__main__":
    for answer in answers(sys.stdin.read().splitlines()):
        print(answer)
