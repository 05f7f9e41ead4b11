"""The elements of a picture as text: colours, signs, styles."""

from xml.sax.saxutils import escape, quoteattr

# By sender; told apart also by those who do not see red or green. The lines of the last three are dashed.
COLOURS = ["#0072b2", "#c77c00", "#008f68", "#a6478b", "#4a9fd8", "#5f5f5f"]
DASHES = ["", "", "", "7 2", "7 2", "7 2"]
STATION = "#5f5f5f"
REFUSED = "#c23b00"
DIFFER = "#eeb422"
INK = "#222222"
PALE = "#8a8a8a"
# For the values of an item, in the order in which they come up.
TINTS = ["#dde9f4", "#fbe2bd", "#cdeadd", "#ecd6e6", "#f2eeb0", "#e4e4e4", "#cfe7f7", "#f6d2c2"]

STYLE = """
text { font-family: Arial, Helvetica, 'Liberation Sans', sans-serif; font-size: 12px; fill: #222222; }
.halo { paint-order: stroke; stroke: #ffffff; stroke-width: 3px; stroke-linejoin: round; }
.small { font-size: 11px; }
.pale { fill: #6a6a6a; }
.strong { font-weight: bold; }
.title { font-size: 15px; font-weight: bold; }
.wrong { fill: #a83200; }
.bright { fill: #ffffff; }
"""


def clean(text):
    """Without characters that no XML has."""
    return "".join(c if c >= " " and c not in "\x7f\ufffe\uffff" and not "\ud800" <= c <= "\udfff" else "?" for c in text)


def number(value):
    """At most one digit behind the point."""
    return f"{value:.1f}".removesuffix(".0")


def element(name, content="", **attributes):
    """An element; `class_` is the attribute class, and data_line is data-line."""
    text = ""
    for key, value in attributes.items():
        if value is None:
            continue
        shown = number(value) if isinstance(value, float) else str(value)
        text += f" {key.rstrip('_').replace('_', '-')}={quoteattr(shown)}"
    return f"<{name}{text}>{content}</{name}>" if content else f"<{name}{text}/>"


def text(x, y, said, **attributes):
    return element("text", escape(clean(said)), x=float(x), y=float(y), **attributes)


def line(x1, y1, x2, y2, stroke, width=1.0, **attributes):
    ends = {"x1": float(x1), "y1": float(y1), "x2": float(x2), "y2": float(y2)}
    return element("line", **ends, stroke=stroke, stroke_width=width, **attributes)


def box(x, y, width, height, fill, **attributes):
    return element("rect", x=float(x), y=float(y), width=float(width), height=float(height), fill=fill, **attributes)


def path(points, stroke, width, **attributes):
    """Lines through points; a None starts anew."""
    text, start = "", True
    for point in points:
        if point is None:
            start = True
            continue
        text += f"{'M' if start else 'L'}{number(point[0])} {number(point[1])}"
        start = False
    return element("path", d=text, fill="none", stroke=stroke, stroke_width=width, stroke_linejoin="round", **attributes)


def polygon(points, fill, **attributes):
    shown = " ".join(f"{number(x)},{number(y)}" for x, y in points)
    return element("polygon", points=shown, fill=fill, **attributes)


def group(kind, title, *content, **attributes):
    """A mark: what it is, what is said where a pointer rests on it, and its signs."""
    said = element("title", escape(clean(title))) if title else ""
    return element("g", said + "".join(content), class_=kind, **attributes)


# The signs, each around a point.


def send_sign(x, y, colour):
    return polygon([(x - 4.5, y - 5.5), (x + 5.5, y), (x - 4.5, y + 5.5)], colour)


def deliver_sign(x, y, colour):
    return element("circle", cx=float(x), cy=float(y), r=3.4, fill="#ffffff", stroke=colour, stroke_width=1.8)


def commit_sign(x, y, colour):
    return element("circle", cx=float(x), cy=float(y), r=4.8, fill=colour)


def pass_sign(x, y, colour):
    return box(x - 3.2, y - 3.2, 6.4, 6.4, "#ffffff", stroke=colour, stroke_width=1.6)


def out_sign(x, y, colour):
    """As a block that is passed over, but there is none."""
    return box(x - 3.2, y - 3.2, 6.4, 6.4, "#ffffff", stroke=colour, stroke_width=1.6, stroke_dasharray="2 1.6")


def notice_sign(x, y):
    """A flag."""
    return line(x - 3, y - 7, x - 3, y + 5, INK, 1.4) + polygon([(x - 3, y - 7), (x + 5, y - 4.2), (x - 3, y - 1.4)], INK)


def give_sign(x, y, colour):
    """Two arrows, one behind the other."""
    return polygon([(x - 6, y - 5), (x, y), (x - 6, y + 5)], colour) + polygon([(x, y - 5), (x + 6, y), (x, y + 5)], colour)


def refusal_sign(x, y):
    return polygon([(x, y - 6), (x + 6, y), (x, y + 6), (x - 6, y)], REFUSED) + line(x - 2.6, y, x + 2.6, y, "#ffffff", 1.8)


def aborted_sign(x, y):
    """A cross."""
    return path([(x - 4, y - 4), (x + 4, y + 4), None, (x - 4, y + 4), (x + 4, y - 4)], REFUSED, 2.4)


def stale_sign(x, y):
    """A ring with a bar through it."""
    ring = element("circle", cx=float(x), cy=float(y), r=4.2, fill="#ffffff", stroke=REFUSED, stroke_width=1.8)
    return ring + line(x - 3, y + 3, x + 3, y - 3, REFUSED, 1.8)


def end_sign(x, top, bottom, colour):
    """Withdrawn, read-only or lost."""
    return line(x, top, x, bottom, colour, 2.2)


def restart_sign(x, y):
    """A flash."""
    points = [(x + 2, y - 8), (x - 4.5, y + 1), (x - 0.5, y + 1), (x - 2, y + 8), (x + 4.5, y - 1.5), (x + 0.5, y - 1.5)]
    return polygon(points, INK)


def make_sign(x, y):
    return line(x, y - 6, x, y + 6, INK, 2.4)


def look_sign(x, y):
    return element("circle", cx=float(x), cy=float(y), r=1.8, fill=PALE)
