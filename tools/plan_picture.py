"""A picture in SVG, row under row, with the colours and patterns of a plan's picture."""
from xml.sax.saxutils import escape

WIDTH, LEFT, RIGHT = 1200, 196, 1174
# The colours of Okabe and Ito, which the colour-blind tell apart.
HUES = ["#0072B2", "#E69F00", "#009E73", "#CC79A7", "#56B4E9", "#D55E00", "#F0E442"]
DASHES = ["", "9 4", "2 3", "9 4 2 4", "5 5"]
INK, PALE, GREYS = "#222222", "#6b6b6b", ["#dddddd", "#c2c2c2"]
HATCH = ('<defs><pattern id="hole" width="6" height="6" patternUnits="userSpaceOnUse" patternTransform="rotate(45)"><rect width="6" height="6" fill="#ffffff"/>'
         '<line x1="0" y1="0" x2="0" y2="6" stroke="#555555" stroke-width="2.2"/></pattern></defs>')
# How wide a letter is, as a part of the size of its font.
LETTER = 0.58


def hue(rank):
    """The colour of a rank. From rank 7 on the colours come again."""
    return HUES[rank % len(HUES)]


def dash(aggregator):
    return DASHES[aggregator % len(DASHES)]


def letter(aggregator):
    """The letters of an aggregator: A to Z, then AA, AB and so on."""
    front, last = divmod(aggregator, 26)
    return (letter(front - 1) if front else "") + chr(ord("A") + last)


def count(number, noun):
    return f"{number} {noun}" if number == 1 else f"{number} {noun}s"


def width_of(text, size=12):
    return len(text) * size * LETTER


class Picture:
    """What was drawn so far. `y` is the upper edge of the row that is being drawn."""

    def __init__(self):
        self.y, self.parts = 8, []

    def row(self, height):
        self.y += height

    def text(self, x, dy, text, size=12, anchor="start", colour=INK, bold=False):
        weight = ' font-weight="bold"' if bold else ""
        self.parts.append(f'<text x="{x:.1f}" y="{self.y + dy:.1f}" font-size="{size}" text-anchor="{anchor}" fill="{colour}"{weight}>{escape(text)}</text>')

    def box(self, left, right, dy, height, fill, title="", stroke="none", opacity=1.0):
        pale = f' fill-opacity="{opacity:.2f}"' if opacity < 1 else ""
        inner = f"<title>{escape(title)}</title>" if title else ""
        self.parts.append(f'<rect x="{left:.2f}" y="{self.y + dy:.1f}" width="{max(0.8, right - left):.2f}" height="{height:.1f}" fill="{fill}"{pale} '
                          f'stroke="{stroke}">{inner}</rect>')

    def line(self, x0, dy0, x1, dy1, colour=INK, width=1.0, dashes=""):
        dashed = f' stroke-dasharray="{dashes}"' if dashes else ""
        self.parts.append(f'<line x1="{x0:.1f}" y1="{self.y + dy0:.1f}" x2="{x1:.1f}" y2="{self.y + dy1:.1f}" stroke="{colour}" stroke-width="{width}"{dashed}/>')

    def zigzag(self, x, dy, height):
        """A break of the axis."""
        points = " ".join(f"{x + (3 if k % 2 else -3):.1f},{self.y + dy + height * k / 4:.1f}" for k in range(5))
        self.parts.append(f'<polyline points="{points}" fill="none" stroke="{INK}" stroke-width="1.2"/>')

    def svg(self):
        """The whole picture."""
        head = f'<svg xmlns="http://www.w3.org/2000/svg" viewBox="0 0 {WIDTH} {self.y + 8:.0f}" width="{WIDTH}" height="{self.y + 8:.0f}" font-family="sans-serif">'
        return "\n".join([head, HATCH, f'<rect width="{WIDTH}" height="{self.y + 8:.0f}" fill="white"/>', *self.parts, "</svg>", ""])


class Labels:
    """Texts side by side, of which those that would cover another are left out."""

    def __init__(self):
        self.taken = []

    def has_room(self, left, right):
        """Takes the room, where nothing stands in it."""
        if any(left < b and a < right for a, b in self.taken):
            return False
        self.taken.append((left, right))
        return True

    def put(self, picture, x, dy, text, size=11, anchor="middle", colour=INK):
        width = width_of(text, size)
        left = x - {"start": 0, "middle": width / 2, "end": width}[anchor]
        if self.has_room(left - 3, left + width + 3):
            picture.text(x, dy, text, size, anchor, colour)
            return True
        return False
