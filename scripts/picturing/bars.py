"""The transactions: bars from the begin to the end, by stage, with stems down to the calls."""

from . import svg
from .lanes import colour
from .layout import SMALL, text_width


def draw(lanes):
    """Stems, bars over them, and how they ended."""
    stems, bars, ends = [], [], []
    for one in lanes.transactions:
        for line in sorted({*one.calls, one.ended, one.sent} - {None}):
            if lanes.window.has(line):
                x, base = lanes.point(line, one.place)
                stems.append(svg.line(x, base, x, middle(lanes, one, line), "#b0b0b0", 1.0))
        bars += [bar(lanes, one, row) for row in lanes.rows_of(one.began, one.ended)]
        if one.ending not in (None, "committed") and lanes.window.has(one.ended):
            ends.append(ending(lanes, one))
    return stems + [one for one in bars if one] + ends


def ink(transaction):
    return svg.STATION if transaction.own is None else colour(transaction.own)


def owner(transaction):
    return f"station {transaction.place}" if transaction.own is None else f"replica {transaction.own}"


def middle(lanes, transaction, line):
    """The height of its bar in the row of a line."""
    lane = lanes.lanes[lanes.row_of(line), transaction.place]
    return lane.bar_top(transaction.track) + lane.bar / 2


def bar(lanes, one, row):
    lane, whole, drawn = lanes.lanes[row, one.place], [], ""
    top = lane.bar_top(one.track)
    began, asked, sent, ended = [lanes.window.column(line) for line in (one.began, one.asked, one.sent, one.ended)]
    stages = [(began, asked, "#ffffff", 1), (asked, sent, ink(one), 0.22), (sent, ended, ink(one), 0.5)]
    for first, last, fill, strength in stages:
        part = lanes.window.part(row, first, min(last, ended))
        if part:
            drawn += svg.box(part[0], top, part[1] - part[0], lane.bar, fill, fill_opacity=strength)
            whole += part
    if not whole:
        return ""
    left, right = min(whole), max(whole)
    drawn += svg.box(left, top, right - left, lane.bar, "none", stroke=ink(one), stroke_width=1)
    said = words(lanes, one, right - left - 8) if lane.bar > SMALL else ""
    if said:
        drawn += svg.text(left + 4, top + lane.bar - 3.5, said, class_="small")
    lanes.kinds |= {"active"} | ({"asked"} if one.asked else set()) | ({"sent"} if one.sent else set())
    title = f"ticket {one.ticket} of {owner(one)}, {one.ending or 'open'}"
    return svg.group("transaction", title, drawn, data_ticket=one.ticket, data_place=one.place)


def words(lanes, one, width):
    """Ticket and writes, as much as there is room for."""
    ticket = f"ticket {one.ticket}"
    writes = ", ".join(f"{lanes.named(item)} = {value}" for item, value in sorted(one.writes.items()))
    texts = [f"{ticket}: {writes}", f"{one.ticket}: {writes}"] if writes else []
    return next((text for text in [*texts, ticket, str(one.ticket)] if text_width(text, SMALL) <= width), "")


def ending(lanes, one):
    x, y = lanes.point(one.ended, one.place)[0], middle(lanes, one, one.ended)
    half = lanes.lanes[lanes.row_of(one.ended), one.place].bar / 2 + 2
    signs = {"aborted": svg.aborted_sign, "stale": svg.stale_sign}
    sign = signs[one.ending](x, y) if one.ending in signs else svg.end_sign(x, y - half, y + half, ink(one))
    lanes.kinds.add(one.ending)
    title = f"line {one.ended}: ticket {one.ticket} of {owner(one)}, {one.ending}"
    marked = {"data_line": one.ended, "data_place": one.place, "data_ticket": one.ticket}
    return svg.group(f"mark {one.ending}", title, sign, **marked)
