"""Regions of a variable: their words, their parts of bounded size, and the elements that they hold."""
import re
from math import prod

LIST = re.compile(r"\[([\d,]*)\]")
LISTS = {"var1": ["start"], "var": [], "vara": ["start", "count"], "vars": ["start", "count", "stride"],
         "varm": ["start", "count", "stride", "imap"]}


def pieces(count, most):
    """A box cut into boxes of at most so many elements, in order: their offsets in it, and their counts."""
    if prod(count) <= most or not count:
        yield [0] * len(count), list(count)
        return
    inner = prod(count[1:])
    rows = max(1, most // inner)
    for row in range(0, count[0], rows):
        own = min(rows, count[0] - row)
        if inner <= most:
            yield [row] + [0] * (len(count) - 1), [own] + list(count[1:])
        else:
            yield from (([row] + offset, [1] + part) for offset, part in pieces(count[1:], most))


def place_in(offset, count):
    """The place of an element of a box in its row-major order."""
    place = 0
    for own, length in zip(offset, count):
        place = place * length + own
    return place


def reach(count, imap):
    """How many values of memory an index map spans."""
    return 0 if 0 in count else 1 + sum((n - 1) * step for n, step in zip(count, imap))


def default_map(count):
    """The index map of values in row-major order."""
    return [prod(count[d + 1:]) for d in range(len(count))]


def moved(start, offset, stride):
    return [s + o * (stride[d] if stride else 1) for d, (s, o) in enumerate(zip(start, offset))]


def lists_of(text):
    return [[int(n) for n in found.split(",")] if found else [] for found in LIST.findall(text)]


def boxes_of(form, text, shape, records):
    """The boxes of a region, each as start, count and stride; `records` stands for the length of the record dimension. Where there is no
    form the text is the number of a record, which is filled."""
    lists, ones = lists_of(text), [1] * len(shape)
    if form is None:
        return [([int(text)] + [0] * (len(shape) - 1), [1] + shape[1:], ones)]
    if form == "var":
        return [([0] * len(shape), [n or records for n in shape], ones)]
    if form == "varn":
        return [(start, count, ones) for start, count in zip(lists[::2], lists[1::2])]
    return [(lists[0], lists[1] if len(lists) > 1 else ones, lists[2] if len(lists) > 2 else ones)]


def runs(box, shape):
    """The runs of neighbours in a box: the row-major place of the first element in the variable, and how many they are."""
    start, count, stride = box
    if 0 in count:
        return
    sizes, tail, run = [prod(shape[d + 1:]) for d in range(len(shape))], len(shape), 1
    while tail > 0 and (stride[tail - 1] == 1 or count[tail - 1] == 1) and run == (sizes[tail - 1] if tail else 1):
        tail -= 1
        run *= count[tail]
    base = sum(s * size for s, size in zip(start, sizes))
    outer = prod(count[:tail])
    for number in range(outer):
        place, rest = base, number
        for d in range(tail - 1, -1, -1):
            rest, own = divmod(rest, count[d])
            place += own * stride[d] * sizes[d]
        yield place, run


def records_of(form, text, shape):
    """How many records a variable has at least when the region was put; 0 for a region without an element."""
    if form == "var" or not shape or shape[0] != 0:
        return 0
    return max((start[0] + (count[0] - 1) * stride[0] + 1 for start, count, stride in boxes_of(form, text, shape, 0) if 0 not in count),
               default=0)


class Coverage:
    """Which elements of a variable calls hold: a mark for each element up to a limit. The shape has 0 for the record dimension."""
    MOST = 1 << 28

    def __init__(self, shape, records):
        self.shape, self.records = shape, records
        self.count = prod(n or records for n in shape)
        self.marks = bytearray(self.count) if self.count <= self.MOST else None

    def runs(self, line):
        for box in boxes_of(line.form, line.region, self.shape, self.records):
            yield from runs(box, self.shape)

    def add(self, line):
        for place, run in self.runs(line) if self.marks is not None else ():
            end = min(place + run, self.count)
            if end > place:
                self.marks[place:end] = b"\1" * (end - place)

    def holds(self, place):
        """Whether a call holds the element; None where that isn't known."""
        return None if self.marks is None else place < self.count and self.marks[place] == 1

    def meets(self, line):
        """Whether a call shares an element with those that were added."""
        return self.marks is not None and any(self.marks.find(1, place, place + run) >= 0 for place, run in self.runs(line))

    def free(self):
        """How many elements no call holds; None where that isn't known."""
        return None if self.marks is None else self.marks.count(0)
