"""The lanes of a picture: for each place what is called there, in rows of columns."""

from . import svg
from .layout import LEFT, SMALL, Label, Lane, pack
from .words import REFUSALS, plural

# From this width of a column on, deliveries have a text too.
ROOMY = 24


def colour(sender):
    return svg.COLOURS[sender % len(svg.COLOURS)]


def short(text):
    """Without most of the digits of a block."""
    return " ".join(f"{part[:8]}.." if len(part) > 24 else part for part in text.split(" ")[:12])


def slots(first, last):
    return f"slot {first}" if first == last else f"slots {first} to {last}"


class Lanes:
    """The part of a history that is drawn in lanes."""

    def __init__(self, history, window, places, named):
        self.history, self.window, self.places, self.named = history, window, places, named
        self.transactions = [one for one in history.transactions if self.overlaps(one.place, one.began, one.ended)]
        self.deliveries = [one for one in history.deliveries if self.overlaps(one.place, one.line, self.leaves(one))]
        self.calls = {call.line: call for call in window.calls}
        self.lanes = {}
        # What the legend explains.
        self.kinds = set()
        self.gather()

    def leaves(self, delivery):
        return delivery.line if delivery.refused else delivery.left

    def overlaps(self, place, first, last):
        column = self.window.column
        return place in self.places and column(first) < self.window.total and column(last) >= 0

    def here(self, line, place):
        return place in self.places and self.window.has(line)

    def row_of(self, line):
        return self.window.row(self.window.column(line))

    def rows_of(self, first, last):
        """The rows between two lines."""
        column, total = self.window.column, self.window.total
        return range(self.window.row(max(column(first), 0)), self.window.row(min(column(last), total - 1)) + 1)

    def own(self, place, row):
        """The own number of a place at the end of a row; before it is made, that of its first make."""
        owns = self.history.owns[place]
        stop = self.window.inside(row).stop
        return next((own for line, own in reversed(owns) if self.window.column(line) < stop), owns[0][1])

    def ink(self, place, row):
        own = self.own(place, row)
        return svg.STATION if own is None else colour(own)

    def name(self, place, row):
        own = self.own(place, row)
        if own is None:
            return f"station {place}"
        return f"replica {own}" if own == place else f"{place}: replica {own}"

    # Where lanes stand.

    def gather(self):
        """What each lane has room for, by row and place: bars, tracks, labels."""
        self.bars_in, self.tracks_in, self.labels_in = {}, {}, {}
        for one in self.transactions:
            for row in self.rows_of(one.began, one.ended):
                self.bars_in.setdefault((row, one.place), [0]).append(one.track + 1)
        for one in self.deliveries:
            for row in self.rows_of(one.line, one.left) if not one.refused else ():
                self.tracks_in.setdefault((row, one.place), [0]).append(one.track + 1)
        for line, place, text, kind in self.labels():
            if self.here(line, place):
                label = Label(self.window.x(self.window.column(line)), text, kind)
                self.labels_in.setdefault((self.row_of(line), place), []).append(label)

    def lay_out(self, row):
        """The lanes of a row, their tops not yet set."""
        lanes = []
        for place in self.places:
            at = row, place
            labels = self.labels_in.get(at, [])
            lines = pack(labels, SMALL, self.window.right(row) + 10)
            lane = Lane(place, max(self.bars_in.get(at, [0])), max(self.tracks_in.get(at, [0])), labels, lines)
            self.lanes[at] = lane
            lanes.append(lane)
        return lanes

    def labels(self):
        """The texts below the lanes: line, place, text and kind."""
        history, roomy = self.history, self.window.pitch >= ROOMY
        for block in history.sends:
            yield block.line, block.place, block.words(), ""
        for one in self.deliveries if roomy else ():
            if one.block and not one.refused and one.block.place != one.place:
                yield one.line, one.place, one.block.words() + (", early" if one.early else ""), ""
        for line, place, value in history.reads if roomy else ():
            yield line, place, f"reads {value}", ""
        for step in history.steps:
            if step.out_of_turn:
                yield step.line, step.place, f"slot {step.block.slot} out of turn", "wrong"
        for line, place, number in history.refusals:
            yield line, place, f"{number} {REFUSALS[number]}", "wrong"
        for line, place, text in history.notices:
            yield line, place, text, ""
        for line, place, giver, first, last in history.givings:
            yield line, place, f"given {slots(first, last)}", ""
        for line, one in history.aborts:
            yield line, one.place, f"ticket {one.ticket} aborted", "wrong"
        for line, place, count in history.restarts:
            yield line, place, f"restart, {plural(count, 'block')}", ""

    # What is drawn.

    def point(self, line, place):
        column = self.window.column(line)
        return self.window.x(column), self.lanes[self.window.row(column), place].base

    def grounds(self, row):
        """Names and base lines of a row, under all else."""
        drawn = []
        for place in self.places:
            lane = self.lanes[row, place]
            drawn.append(svg.text(12, lane.base + 4, self.name(place, row), class_="strong"))
            drawn.append(svg.box(LEFT - 9, lane.base - 6, 4, 12, self.ink(place, row)))
            first = self.window.column(self.history.values[place][0][0])
            part = self.window.part(row, first, self.window.total)
            if part:
                drawn.append(svg.line(part[0], lane.base, part[1], lane.base, "#b0b0b0", 1.0))
        return drawn

    def mark(self, kind, line, place, sign, said):
        """A mark on a lane's base line."""
        if not self.here(line, place):
            return ""
        call = self.calls[line]
        title = f"line {line}: {short(call.text)}: {said} ({short(call.answer)})"
        self.kinds.add(kind)
        x, y = self.point(line, place)
        return svg.group(f"mark {kind}", title, sign(x, y), data_line=line, data_place=place)

    def marks(self):
        """What was called, on the base lines."""
        history, drawn = self.history, []

        def of(sender, sign):
            return lambda x, y: sign(x, y, colour(sender))

        drawn += [self.mark("look", line, place, svg.look_sign, "looks") for line, place in history.looks]
        drawn += [self.mark("make", line, place, svg.make_sign, "made") for line, place in history.makes]
        for line, place, count in history.restarts:
            drawn.append(self.mark("restart", line, place, svg.restart_sign, f"restarted from {plural(count, 'block')}"))
        for block in history.sends:
            sign = of(block.sender, svg.send_sign)
            drawn.append(self.mark("send", block.line, block.place, sign, f"sends {block.words()}"))
        for one in self.deliveries:
            if not one.refused:
                said = f"keeps {one.block.words()}" + (" before its turn" if one.early else "")
                drawn.append(self.mark("deliver", one.line, one.place, of(one.block.sender, svg.deliver_sign), said))
        for step in history.steps:
            kind, sign, what = "pass", svg.pass_sign, "passes over an empty block"
            if step.ticket:
                kind, sign, what = "commit", svg.commit_sign, f"commits ticket {step.ticket}"
            said = f"{what} of replica {step.block.sender}"
            drawn.append(self.mark(kind, step.line, step.place, of(step.block.sender, sign), said))
        for line, place, text in history.notices:
            drawn.append(self.mark("notice", line, place, svg.notice_sign, f"takes the notice {text}"))
        for line, place, sender, slot in history.passed_out:
            drawn.append(self.mark("out", line, place, of(sender, svg.out_sign), f"passes slot {slot}, which is out"))
        for line, place, giver, first, last in history.givings:
            said = f"is given {slots(first, last)} by replica {giver}"
            drawn.append(self.mark("give", line, place, of(giver, svg.give_sign), said))
        for line, place, number in history.refusals:
            drawn.append(self.mark("refusal", line, place, svg.refusal_sign, REFUSALS[number]))
        return [one for one in drawn if one]

    def texts(self, row):
        """The labels of a row, with a rule up to their marks."""
        drawn = []
        for place in self.places:
            lane = self.lanes[row, place]
            for label in lane.labels:
                y = lane.label_line(label.row)
                drawn.append(svg.line(label.x, lane.base + 6, label.x, y - 8, "#d0d0d0", 1.0))
            for label in lane.labels:
                kind = f"small halo {label.kind}".strip()
                drawn.append(svg.text(label.left, lane.label_line(label.row), label.text, class_=kind))
        return drawn
