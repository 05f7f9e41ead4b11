"""The lines of the blocks: from the send to the delivery, and on to the step that takes the block."""

from . import svg
from .lanes import colour
from .layout import LEFT


def draw(lanes):
    drawn = []
    for one in lanes.deliveries:
        points = arrival(lanes, one)
        dash, ink, kind = "2 3", svg.PALE, "block refused"
        if one.block:
            ink = colour(one.block.sender)
        if not one.refused:
            points += [None, *wait(lanes, one)]
            dash, kind = svg.DASHES[one.block.sender % len(svg.DASHES)] or None, "block"
        drawn.append(svg.path(points, ink, 1.4, class_=kind, stroke_dasharray=dash, **told(one)))
    return drawn


def told(delivery):
    """From which line of the list to which: so that a line can be looked up, and tested."""
    sent = delivery.block.line if delivery.block else None
    step = delivery.worked[-1] if delivery.worked else None
    return {"data_send": sent, "data_delivery": delivery.line, "data_step": step, "data_place": delivery.place}


def arrival(lanes, delivery):
    """From the send, or the edge, to the delivery."""
    window, block = lanes.window, delivery.block
    if not window.has(delivery.line):
        return []
    x, y = lanes.point(delivery.line, delivery.place)
    row = lanes.row_of(delivery.line)
    if block is None or block.place not in lanes.places:
        return [(x - min(window.pitch, 14), y - 13), (x, y)]
    if window.has(block.line) and lanes.row_of(block.line) == row:
        return [lanes.point(block.line, block.place), (x, y)]
    return [(LEFT, lanes.lanes[row, block.place].base), (x, y)]


def wait(lanes, delivery):
    """From the delivery to the last step with it, row by row: down to a track of its own, and up at each step."""
    window = lanes.window
    turn = min(0.35 * window.pitch, 8)
    first, last = window.column(delivery.line), window.column(delivery.left)
    worked = [window.column(line) for line in delivery.worked]
    points = []
    for row in lanes.rows_of(delivery.line, delivery.left):
        lane = lanes.lanes[row, delivery.place]
        low, inside = lane.track(delivery.track), window.inside(row)
        starts = [(window.x(first), lane.base), (window.x(first) + turn, low)]
        points += [None, *(starts if first in inside else [(LEFT, low)])]
        for column in worked:
            if column in inside:
                x = window.x(column)
                points += [(x - turn, low), (x, lane.base)]
                points += [(x + turn, low)] if column != last else []
        if last not in inside:
            points.append((window.right(row), low))
        elif last not in worked:
            points.append((window.x(last) - turn, low))
    return points
