"""What all pictures share: SVG, a line of text, an axis, and what can't be drawn."""

from html import escape

FONT = "font-family='DejaVu Sans, Verdana, Arial, sans-serif'"
DARK = "#1f5f8b"
NUMBER = "(0|[1-9][0-9]*)"
MOST = 200_000  # lines in one picture


class Wrong(Exception):
    """What can't be drawn, and why."""


def numbers(first, last):
    """The numbers of one packet or several, in words."""
    return f"packet {first}" if first == last else f"packets {first} to {last}"


def words(x, y, text, size=12, anchor="start", fill="#000000", weight="normal"):
    """A line of text."""
    return f"<text x='{x:g}' y='{y:g}' font-size='{size}' text-anchor='{anchor}' fill='{fill}' font-weight='{weight}'>{escape(text)}</text>"


def picture(width, height, title, parts):
    """The whole SVG, with its title above."""
    size = f"width='{width:g}' height='{height:g}'"
    head = f"<svg xmlns='http://www.w3.org/2000/svg' {size} viewBox='0 0 {width:g} {height:g}' role='img' {FONT}>"
    above = words(14, 22, title, 14, weight="bold")
    return "\n".join([head, f"<title>{escape(title)}</title>", f"<rect {size} fill='#ffffff'/>", above, *parts, "</svg>", ""])


def ticks(count):
    """The places at which an axis of so many packets has a number."""
    whole = 10 ** (len(str(count)) - 1)
    return range(0, count, max(1, whole // (1 if count >= 4 * whole else 5)))
