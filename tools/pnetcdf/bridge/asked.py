"""What a call asks for, as a script says it: the words of its region, cut where one line has no room for it."""
from math import prod

from . import regions, words
from .definitions import NoWord

MOST_ELEMENTS, MOST_PARTS = 1 << 20, 1024


def size(number):
    if number < 0:
        raise NoWord("a negative number")
    return number


def sizes_of(numbers):
    if numbers and min(numbers) < 0:
        raise NoWord("a negative number")
    return numbers


def lists(given, form, dims):
    return [list_of(given, name, dims) for name in regions.LISTS[form]]


def list_of(given, name, dims):
    sizes = given.get(name)
    if sizes is None and name == "stride":
        sizes = [1] * dims
    if sizes is None and name == "imap":
        sizes = regions.default_map(given.get("count") or [])
    if sizes is None and dims > 0:
        raise NoWord("no %s" % name)
    return sizes_of(sizes or [])


def boxes(given, dims):
    """The boxes of a varn call; a call of none takes part with an empty one."""
    starts, counts = given.get("starts"), given.get("counts") or [None] * given["parts"]
    if given["parts"] < 1:
        return [([0] * dims, [0] * dims)]
    if starts is None or None in starts[:given["parts"]]:
        raise NoWord("no start")
    return [(sizes_of(start), sizes_of([1] * dims if count is None else count)) for start, count in zip(starts, counts)]


def region(given, form):
    """The words of a region; of a variable that isn't there empty lists."""
    dims = given.get("dims")
    if dims is None:
        return " ".join("[]" for _ in regions.LISTS.get(form, [])) if form != "varn" else "1 [] []"
    if form == "varn":
        return words_of_boxes(boxes(given, dims))
    return " ".join(words.list_word(sizes) for sizes in lists(given, form, dims))


def words_of_boxes(own):
    return " ".join([str(len(own))] + [words.list_word(sizes) for box in own for sizes in box])


def reached(given):
    """How many values of memory the call reaches."""
    elements = max(0, given.get("elements", 0))
    return regions.reach(given["count"], given["imap"]) if elements and given.get("imap") and given.get("count") else elements


def in_one_line(given, form):
    """Whether one line has room for the region and its values."""
    if form == "varn":
        return given.get("elements", 0) <= MOST_ELEMENTS and given["parts"] <= MOST_PARTS
    return given.get("elements", 0) <= MOST_ELEMENTS and (not given.get("imap") or reached(given) <= MOST_ELEMENTS)


def split(given, form, shape):
    """The parts of a region that each have a line of their own: form, words, and the place and number of their values. None where one
    line holds all, or there is no such variable. The shape has 0 for the record dimension."""
    if given.get("dims") is None or in_one_line(given, form):
        return None
    if form == "varn":
        return list(groups(boxes(given, given["dims"])))
    return list(split_box(form, *whole_box(given, form, shape)))


def whole_box(given, form, shape):
    if form == "var":
        inner = prod(n for n in shape if n)
        return [0] * len(shape), [n or given["elements"] // inner for n in shape], None, None
    start, count, stride, imap = (lists(given, form, len(shape)) + [None, None])[:4]
    return start, count, stride, imap


def split_box(form, start, count, stride, imap):
    for offset, part in regions.pieces(count, MOST_ELEMENTS):
        own = [regions.moved(start, offset, stride), part] + [more for more in (stride, imap) if more]
        first = sum(o * step for o, step in zip(offset, imap)) if imap else regions.place_in(offset, count)
        length = regions.reach(part, imap) if imap else prod(part)
        yield "vara" if form == "var" else form, " ".join(map(words.list_word, own)), first, length


def groups(own):
    """Boxes in groups of at most so many boxes and values; a box with more is cut."""
    cut = [(regions.moved(start, offset, None), part) for start, count in own for offset, part in regions.pieces(count, MOST_ELEMENTS)]
    group, held, first = [], 0, 0
    for start, count in cut + [(None, [MOST_ELEMENTS + 1])]:
        if len(group) == MOST_PARTS or held + prod(count) > MOST_ELEMENTS:
            yield "varn", words_of_boxes(group), first, held
            group, first, held = [], first + held, 0
        group.append((start, count))
        held += prod(count)
