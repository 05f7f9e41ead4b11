"""A whole picture: title, rows of lanes and values, legend."""

from . import bars, lines, svg, values
from .lanes import ROOMY, Lanes
from .layout import LEFT, LINE, RIGHT, SMALL, TEXT, WIDTH, Label, Note, pack, pack_notes, text_width, wrapped
from .words import REFUSALS, plural

# The height of a strip of values, and of the one that says where they differ.
STRIP = 18

LEGEND = [
    ("make", "made", lambda x, y: svg.make_sign(x, y)),
    ("restart", "restarted from its journal", lambda x, y: svg.restart_sign(x, y)),
    ("send", "sends a block", lambda x, y: svg.send_sign(x, y, svg.INK)),
    ("deliver", "a block comes, and waits", lambda x, y: svg.deliver_sign(x, y, svg.INK)),
    ("commit", "commits a writeset", lambda x, y: svg.commit_sign(x, y, svg.INK)),
    ("pass", "passes over an empty block", lambda x, y: svg.pass_sign(x, y, svg.INK)),
    ("notice", "takes a notice", lambda x, y: svg.notice_sign(x, y)),
    ("out", "passes a slot that is out", lambda x, y: svg.out_sign(x, y, svg.INK)),
    ("give", "is given what it missed", lambda x, y: svg.give_sign(x, y, svg.INK)),
    ("refusal", "refused: number and words", lambda x, y: svg.refusal_sign(x, y)),
    ("active", "transaction, active", lambda x, y: bar_sample(x, y, "#ffffff", 1)),
    ("asked", "asked", lambda x, y: bar_sample(x, y, svg.INK, 0.22)),
    ("sent", "sent", lambda x, y: bar_sample(x, y, svg.INK, 0.5)),
    ("aborted", "aborted by another's writeset", lambda x, y: svg.aborted_sign(x, y)),
    ("stale", "ended by its own stale write", lambda x, y: svg.stale_sign(x, y)),
    ("withdrawn", "withdrawn, read-only or lost", lambda x, y: svg.end_sign(x, y - 6, y + 6, svg.INK)),
    ("look", "looks", lambda x, y: svg.look_sign(x, y)),
    ("unknown", "no call", lambda x, y: svg.text(x - 3, y + 4, "?")),
    ("differ", "copies differ", lambda x, y: svg.box(x - 8, y - 5, 16, 10, svg.DIFFER)),
    ("still", "and still at the end", lambda x, y: svg.box(x - 8, y - 5, 16, 10, svg.REFUSED)),
]


def bar_sample(x, y, fill, strength):
    shown = svg.box(x - 9, y - 5, 18, 10, fill, fill_opacity=strength)
    return shown + svg.box(x - 9, y - 5, 18, 10, "none", stroke=svg.INK, stroke_width=1)


class Picture:
    def __init__(self, history, window, first, places, items, names, title):
        self.first = first
        self.history, self.window, self.names, self.title = history, window, names, title
        self.lanes = Lanes(history, window, places, self.short_name)
        self.items = items
        self.strips = {item: [values.strip(history, window, place, item) for place in places] for item in items}
        self.differing = {item: values.differing(strips, window) for item, strips in self.strips.items()}
        self.drawn = []

    def short_name(self, item):
        return self.names.get(item, f"item {item}")

    def name(self, item):
        return f"{self.names[item]} (item {item})" if item in self.names else f"item {item}"

    def text(self):
        """The SVG file."""
        y = 12.0
        if self.title:
            for line in wrapped(self.title, 16, WIDTH - 24):
                y += 15
                self.drawn.append(svg.text(12, y, line, class_="title"))
            y += 5
        for row in range(self.window.rows):
            y = self.row(row, y)
        self.drawn += lines.draw(self.lanes) + bars.draw(self.lanes) + self.lanes.marks()
        for row in range(self.window.rows):
            self.drawn += self.lanes.texts(row)
        height = self.legend(y)
        return self.file(height)

    def file(self, height):
        size = f'width="{WIDTH}" height="{svg.number(height)}" viewBox="0 0 {WIDTH} {svg.number(height)}"'
        ground = svg.box(0.5, 0.5, WIDTH - 1, height - 1, "#ffffff", stroke="#cccccc", rx=6)
        head = f'<svg xmlns="http://www.w3.org/2000/svg" {size} role="img">'
        title = svg.element("title", svg.escape(svg.clean(self.title or "A list of calls")))
        return "\n".join([head, title, f"<style>{svg.STYLE}</style>", ground, *self.drawn, "</svg>", ""])

    # A row: notes, numbers of lines, lanes, values.

    def row(self, row, y):
        y = self.row_notes(row, y)
        lanes = self.lanes.lay_out(row)
        axis, odd = y, self.odd(row)
        y += 4 + (16 + LINE * pack(odd, SMALL, WIDTH - RIGHT) if odd else 0)
        for lane in lanes:
            lane.top = y
            y = lane.bottom
        self.axis(row, axis, y, odd)
        self.drawn += self.lanes.grounds(row)
        for item in self.items:
            y = self.item(row, item, y + 8)
        return y + 12

    def row_notes(self, row, y):
        """The comments of a row: each at its column where there is room for it, else with the number of its line."""
        window, found = self.window, {}
        for line, text in self.history.notes:
            column = window.behind(line)
            if column in window.inside(row) and line >= self.first and not text.startswith("shown:"):
                found.setdefault(column, []).append(text)
        notes = []
        for column, texts in sorted(found.items()):
            x = LEFT + (column % window.columns) * window.pitch
            notes.append(Note(x, window.lines[column], " ".join(texts)))
        roomy = window.pitch >= ROOMY and pack_notes(notes, TEXT, WIDTH - RIGHT)
        y = self.notes_beside(notes, y) if roomy else self.notes_above(notes, y)
        return y + 18

    def notes_beside(self, notes, y):
        bottom = y + LINE * max(note.top + len(note.lines) for note in notes)
        for note in notes:
            self.drawn.append(svg.line(note.x, y + 4 + LINE * note.top, note.x, bottom + 16, "#b0b0b0", 1.0))
            for number, line in enumerate(note.lines, note.top + 1):
                self.drawn.append(svg.text(note.x + 4, y + LINE * number, line))
        return bottom

    def notes_above(self, notes, y):
        for note in notes:
            self.drawn.append(svg.text(LEFT - 8, y + LINE, f"line {note.line}", class_="small pale", text_anchor="end"))
            for line in wrapped(note.text, TEXT, WIDTH - LEFT - RIGHT):
                y += LINE
                self.drawn.append(svg.text(LEFT, y, line))
        for note in notes:
            self.drawn.append(svg.polygon([(note.x - 3.5, y + 21), (note.x + 3.5, y + 21), (note.x, y + 27)], svg.INK))
        return y + 2

    def odd(self, row):
        """The lines of a row that are no calls, as labels: those that are refused as such with their words."""
        unknown = dict.fromkeys(self.history.unknown)
        unknown |= {line: number for line, place, number in self.history.refusals if place is None}
        labels = []
        for column in self.window.inside(row):
            line, x = self.window.lines[column], self.window.x(column)
            if line in unknown:
                number = unknown[line]
                labels.append(Label(x, f"{number} {REFUSALS[number]}" if number else "", "wrong", line=line))
        return labels

    def axis(self, row, top, bottom, odd):
        """Numbers of lines, rules through the lanes, and the lines that are no calls."""
        window = self.window
        self.drawn.append(svg.text(12, top, "line of the list", class_="small pale"))
        step = 5 if window.pitch >= 20 else 10
        for column in window.inside(row)[::step]:
            x = window.x(column)
            self.drawn.append(svg.line(x, top + 4, x, bottom, "#ededed", 1.0))
            self.drawn.append(svg.text(x, top, str(window.lines[column]), class_="small pale", text_anchor="middle"))
        for label in odd:
            kind = "refusal" if label.text else "unknown"
            self.lanes.kinds.add(kind)
            sign = svg.refusal_sign(label.x, top + 12) if label.text else svg.text(label.x - 3, top + 16, "?", class_="pale")
            title = f"line {label.line}: {label.text or 'no call'}"
            self.drawn.append(svg.group(f"mark {kind}", title, sign, data_line=label.line))
            if label.text:
                y = top + 15 + LINE * (label.row + 1)
                self.drawn.append(svg.text(label.left, y, label.text, class_="small halo wrong"))

    # The values of an item.

    def item(self, row, item, y):
        window, strips = self.window, self.strips[item]
        y += 12
        self.drawn.append(svg.text(12, y, self.name(item), class_="strong"))
        if row == 0 and len(strips) > 1:
            self.drawn.append(svg.text(18 + 1.2 * text_width(self.name(item), TEXT), y, self.verdict(item)))
        y += 5
        tints = {}
        for strip in strips:
            for _, _, value in strip.parts(window.total):
                tints.setdefault(value, svg.TINTS[len(tints) % len(svg.TINTS)])
        for strip in strips:
            self.drawn.append(svg.text(12, y + 12.5, self.lanes.name(strip.place, row)))
            for first, last, value in strip.parts(window.total):
                part = window.part(row, first, last)
                if part:
                    shown = self.value(part, y, value, tints[value], first in window.inside(row))
                    marked = {"data_item": item, "data_place": strip.place, "data_value": value}
                    self.drawn.append(svg.group("value", "", shown, **marked))
            y += STRIP
        return self.differ(row, item, y) if len(strips) > 1 else y

    def value(self, part, y, value, tint, changed):
        left, right = part
        drawn = svg.box(left, y, right - left, STRIP - 2, tint)
        if changed:
            drawn += svg.line(left, y, left, y + STRIP - 2, svg.INK, 1.6)
        if text_width(str(value), TEXT) + 6 <= right - left:
            drawn += svg.text(left + 4, y + 12.5, str(value))
        return drawn

    def differ(self, row, item, y):
        self.drawn.append(svg.text(12, y + 11, "differ", class_="small pale"))
        for first, last in self.differing[item]:
            part = self.window.part(row, first, last)
            if not part:
                continue
            still = last == self.window.total
            said = f"for {plural(last - max(first, 0), 'call')}" + (", and still at the end" if still else "")
            self.lanes.kinds |= {"differ", "still"} if still else {"differ"}
            shown = svg.box(part[0], y, part[1] - part[0], 14, svg.REFUSED if still else svg.DIFFER)
            for text in (said, str(last - max(first, 0))):
                if text_width(text, SMALL) + 6 <= part[1] - part[0]:
                    shown += svg.text(part[0] + 4, y + 11, text, class_="small" + " bright" * still)
                    break
            self.drawn.append(svg.group("differ", f"the copies differ {said}", shown, data_item=item))
        return y + 15

    def verdict(self, item):
        """How long the copies differ in all, and what they are at the end."""
        parts = self.differing[item]
        held = [strip.at(self.window.total - 1) for strip in self.strips[item]]
        calls = sum(last - max(first, 0) for first, last in parts)
        if not parts:
            return "the copies never differ"
        if parts[-1][1] < self.window.total:
            return f"the copies differ during {calls} of {plural(self.window.total, 'call')}, and are equal at the end"
        shown = ", ".join("-" if value is None else str(value) for value in held)
        return f"the copies differ during {calls} of {plural(self.window.total, 'call')}, and at the end: {shown}"

    def legend(self, y):
        kinds = self.lanes.kinds
        if kinds & {"read-only", "lost"}:
            kinds = kinds | {"withdrawn"}
        x, y = 22.0, y + 6
        self.drawn.append(svg.line(12, y - 12, WIDTH - 12, y - 12, "#cccccc", 1.0))
        for kind, words, sign in LEGEND:
            if kind not in kinds:
                continue
            width = 24 + text_width(words, SMALL) + 12
            if x + width > WIDTH - 8:
                x, y = 22.0, y + 20
            self.drawn.append(svg.group("legend", "", sign(x, y), svg.text(x + 14, y + 4, words, class_="small")))
            x += width
        return y + 16
