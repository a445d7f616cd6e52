"""The axis of a picture: the places of a file, from left to right. The header is folded into a box of its own, and where far places are touched
the axis is broken: each part has its own scale, and its numbers tell it."""

from plan_document import phases_of, windows_of

HEADER_WIDTH, BREAK_WIDTH, LEAST_WIDTH = 54, 22, 90
MOST_PARTS = 8


def merged(extents):
    """Extents in order, those that meet joined."""
    found = []
    for lo, hi in sorted(extents):
        if found and lo <= found[-1][1]:
            found[-1][1] = max(hi, found[-1][1])
        elif lo < hi:
            found.append([lo, hi])
    return [tuple(it) for it in found]


def touched(plans):
    """The extents behind the header that device calls and windows of the plans touch."""
    header = max(plan["dataset"]["header"] for plan in plans)
    found = []
    for plan in plans:
        calls = plan["opening"] + plan["close"] + [call for step in plan["steps"] for call in step["device"]]
        found += [(it["place"], it["place"] + it["length"]) for it in calls if "place" in it]
        found += [(window["from"], window["to"]) for step in plan["steps"] for _, phase in phases_of(step) for window in windows_of(phase)]
    found = merged((max(lo, header), hi) for lo, hi in found if hi > header)
    return found or [(header, max(header + 1, *(plan["dataset"]["length"] for plan in plans)))]


def parts_of(extents):
    """The extents with small gaps closed, so that few parts are left."""
    total = sum(hi - lo for lo, hi in extents)
    gaps = sorted((after[0] - before[1] for before, after in zip(extents, extents[1:])), reverse=True)
    least = max([total // 3, *gaps[MOST_PARTS - 1:MOST_PARTS]])
    parts = [extents[0]]
    for lo, hi in extents[1:]:
        if lo - parts[-1][1] > least:
            parts.append((lo, hi))
        else:
            parts[-1] = (parts[-1][0], hi)
    return parts


def widened(parts, borders):
    """The parts made longer to borders that lie near their ends."""
    found = []
    for number, (lo, hi) in enumerate(parts):
        near = max(16, (hi - lo) // 8)
        low = parts[number - 1][1] if number else 0
        high = parts[number + 1][0] if number + 1 < len(parts) else hi + near + 1
        found.append((min([lo, *(it for it in borders if max(low, lo - near) < it < lo)]), max([hi, *(it for it in borders if hi < it < min(high, hi + near))])))
    return found


def nice_step(least):
    """The least of 1, 2, 5, 10, 20, 50 .. that is at least so much."""
    power = 1
    while True:
        for digit in (1, 2, 5):
            if digit * power >= least:
                return digit * power
        power *= 10


class Part:
    """A range of places without a gap, and where it is drawn."""

    def __init__(self, lo, hi, left, width):
        self.lo, self.hi, self.left, self.width = lo, hi, left, width
        self.right = left + width

    def x(self, place):
        return self.left + (place - self.lo) / (self.hi - self.lo) * self.width

    def ticks(self):
        """The places that have a number: the ends, and round ones between them."""
        room = 7 * len(str(self.hi)) + 16
        step = nice_step(max(1, -(-room * (self.hi - self.lo) // max(1, int(self.width)))))
        inner = range(-(-self.lo // step) * step, self.hi + 1, step)
        return [self.lo, *(it for it in inner if self.x(it) - self.left >= room and self.right - self.x(it) >= room), self.hi]


class Axis:
    """Where a place of the file is drawn, between two edges of the picture."""

    def __init__(self, plans, left, right):
        self.header = max(plan["dataset"]["header"] for plan in plans)
        self.left, self.right = left, right
        borders = {edge for plan in plans for it in plan["dataset"]["variables"] if not it["record"] for edge in (it["begin"], it["begin"] + it["size"])}
        parts = widened(parts_of(touched(plans)), {it for it in borders if it >= self.header})
        self.lay_out(parts)

    def lay_out(self, parts):
        """Gives each part a least width, and shares what is left by length."""
        room = self.right - self.left - HEADER_WIDTH - BREAK_WIDTH * len(parts)
        least = min(LEAST_WIDTH, room / len(parts))
        shared, total = room - least * len(parts), sum(hi - lo for lo, hi in parts)
        self.parts, left = [], self.left + HEADER_WIDTH
        for lo, hi in parts:
            width = least + shared * (hi - lo) / total
            self.parts.append(Part(lo, hi, left + BREAK_WIDTH, width))
            left += BREAK_WIDTH + width

    def spans(self, lo, hi):
        """Where the places from lo up to hi are drawn: (left, right) in each part that has some of them."""
        for part in self.parts:
            if lo < part.hi and part.lo < hi:
                yield part.x(max(lo, part.lo)), part.x(min(hi, part.hi))

    def header_span(self):
        return self.left, self.left + HEADER_WIDTH

    def breaks(self):
        """The middle of each gap of the axis: behind the header, where it doesn't end at the first part, and before each later part."""
        edges = [self.header, *(part.hi for part in self.parts)]
        return [part.left - BREAK_WIDTH / 2 for edge, part in zip(edges, self.parts) if edge < part.lo]

    def is_shown(self, place):
        return any(part.lo <= place <= part.hi for part in self.parts)
