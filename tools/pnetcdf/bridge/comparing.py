"""Where two datasets differ: their dimensions, attributes and variables, and the elements of these, block by block."""
import operator
import os
from dataclasses import dataclass, field

from . import words
from .classic import read_header, unravel

BLOCK = 1 << 20
MOST_KEPT = 100000      # how many elements of a variable are kept one by one; the others are counted


@dataclass
class Difference:
    """An element that differs: its place in the variable, its index, and its value in either dataset."""
    place: int
    index: tuple
    first: str
    second: str


@dataclass
class Differing:
    """A variable whose elements differ."""
    name: str
    count: int = 0
    kept: list = field(default_factory=list)


@dataclass
class Comparison:
    """How two datasets are alike: `same` byte by byte, but for `zeros` at the end, in all but their `layout`, or not: `differs`."""
    state: str
    headers: list = field(default_factory=list)     # lines
    variables: list = field(default_factory=list)   # those whose elements differ


def shown(name):
    return name.decode("utf-8", "replace")


def same_bytes(first, second):
    """Whether two files are the same byte by byte, with zeros behind the end of the shorter one."""
    first.seek(0)
    second.seek(0)
    while True:
        a, b = first.read(BLOCK), second.read(BLOCK)
        length = max(len(a), len(b))
        if a.ljust(length, b"\0") != b.ljust(length, b"\0"):
            return False
        if length == 0:
            return True


def value_of(raw, kind):
    """An element's value in words."""
    if kind in (words.FLOAT, words.DOUBLE):
        return "%.9g" % words.number_of(kind, int.from_bytes(raw, "big"))
    if kind == words.CHAR:
        return words.quoted(raw)
    return str(int.from_bytes(raw, "big", signed=words.FORMATS[kind].islower()))


# ---- headers

def attribute_value(own):
    kind, raw = own
    size = words.SIZES[kind]
    if kind == words.CHAR:
        return "char " + words.quoted(raw)
    return " ".join([words.TYPES[kind]] + [value_of(raw[k:k + size], kind) for k in range(0, len(raw), size)])


def tell_names(what, first, second):
    """Names that only one of two has."""
    for name in first:
        if name not in second:
            yield "%s %s stands in the program's file alone" % (what, shown(name))
    for name in second:
        if name not in first:
            yield "%s %s stands in the proved file alone" % (what, shown(name))


def tell_attributes(owner, first, second):
    yield from tell_names("the attribute", {owner + n: 0 for n in first}, {owner + n: 0 for n in second})
    for name in first:
        if name in second and first[name] != second[name]:
            yield "the attribute %s is %s, and %s in the proved file" % (
                shown(owner + name), attribute_value(first[name]), attribute_value(second[name]))


def shape_word(header, var):
    return "%s(%s)" % (words.TYPES[var.kind], ", ".join(shown(header.dims[d][0]) for d in var.dims))


def tell_headers(first, second, attributes=True):
    """In what two headers differ, in lines; where the variables lie doesn't count, and attributes only where they are asked for."""
    if first.version != second.version:
        yield "it is CDF-%d, and CDF-%d in the proved run" % (first.version, second.version)
    yield from tell_names("the dimension", dict(first.dims), dict(second.dims))
    lengths = dict(second.dims)
    for name, length in first.dims:
        if lengths.get(name, length) != length:
            yield "the dimension %s has length %s, and %s in the proved file" % (
                shown(name), *(n or "unlimited" for n in (length, lengths[name])))
    if attributes:
        yield from tell_attributes(b":", first.attributes, second.attributes)
    others = {v.name: v for v in second.vars}
    yield from tell_names("the variable", {v.name: 0 for v in first.vars}, others)
    for var in first.vars:
        other = others.get(var.name)
        if other is None:
            continue
        if shape_word(first, var) != shape_word(second, other):
            yield "the variable %s is %s, and %s in the proved file" % (shown(var.name), shape_word(first, var), shape_word(second, other))
        if attributes:
            yield from tell_attributes(var.name + b":", var.attributes, other.attributes)
    if first.records != second.records:
        yield "%d records, and %d in the proved file" % (first.records, second.records)


# ---- elements

def blocks(header, var, records):
    """The runs of bytes of a variable: the place of the first element in it, and where the run begins in the file."""
    if not header.is_record(var):
        return [(0, var.begin)]
    size, inner = header.record_size(), header.slab(var) // words.SIZES[var.kind]
    return ((r * inner, var.begin + r * size) for r in range(records))


def padded_read(file, at, length):
    """Bytes of a file; those past its end are zeros."""
    file.seek(at)
    return file.read(length).ljust(length, b"\0")


def places_that_differ(a, b, size):
    """Which elements of two runs of bytes differ."""
    if size == 1:
        return [k for k, differs in enumerate(map(operator.ne, a, b)) if differs]
    first, second = (memoryview(x).cast({2: "H", 4: "I", 8: "Q"}[size]) for x in (a, b))
    return [k for k, differs in enumerate(map(operator.ne, first, second)) if differs]


def compare_run(found, kind, place, a, b):
    size = words.SIZES[kind]
    places = places_that_differ(a, b, size)
    found.count += len(places)
    for k in places[:max(0, MOST_KEPT - len(found.kept))]:
        found.kept.append((place + k, a[k * size:(k + 1) * size], b[k * size:(k + 1) * size]))


def compare_variable(first, header, second, other_header, var, other):
    """The elements of a variable that two files give different values."""
    found, size, slab = Differing(shown(var.name)), words.SIZES[var.kind], header.slab(var)
    records = min(header.records, other_header.records)
    for (place, at), (_, to) in zip(blocks(header, var, records), blocks(other_header, other, records)):
        for offset in range(0, slab, BLOCK):
            length = min(BLOCK, slab - offset)
            a, b = padded_read(first, at + offset, length), padded_read(second, to + offset, length)
            if a != b:
                compare_run(found, var.kind, place + offset // size, a, b)
    inner = header.shape(var)
    shape = [max(records, 1)] + inner if header.is_record(var) else inner
    found.kept = [Difference(p, unravel(p, shape), value_of(a, var.kind), value_of(b, var.kind)) for p, a, b in found.kept]
    return found


def compare(first_path, second_path, attributes=True):
    """Two datasets: their headers, with or without attributes, and the elements of the variables of both."""
    with open(first_path, "rb", buffering=BLOCK) as first, open(second_path, "rb", buffering=BLOCK) as second:
        if same_bytes(first, second):
            return Comparison("same" if os.path.getsize(first_path) == os.path.getsize(second_path) else "zeros")
        first.seek(0)
        second.seek(0)
        header, other = read_header(first), read_header(second)
        others = {v.name: v for v in other.vars}
        pairs = [(v, others[v.name]) for v in header.vars if v.name in others]
        found = [compare_variable(first, header, second, other, v, o) for v, o in pairs
                 if header.shape(v) == other.shape(o) and v.kind == o.kind and header.is_record(v) == other.is_record(o)]
        told, found = list(tell_headers(header, other, attributes)), [v for v in found if v.count]
        return Comparison("differs" if told or found else "layout", told, found)
