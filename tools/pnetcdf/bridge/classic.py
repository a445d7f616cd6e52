"""Headers and layouts of datasets of the netCDF classic format."""
from dataclasses import dataclass, field
from math import prod

from . import words


class HeaderFault(Exception):
    """A file that has no header of the classic format."""


@dataclass
class Variable:
    name: bytes
    dims: list
    kind: int
    begin: int = 0
    attributes: dict = field(default_factory=dict)      # by name: the type, and the bytes of the values


@dataclass
class Header:
    version: int
    records: int = 0
    dims: list = field(default_factory=list)    # pairs of name and length, 0 for the record dimension
    vars: list = field(default_factory=list)
    attributes: dict = field(default_factory=dict)

    def is_record(self, var):
        return bool(var.dims) and self.dims[var.dims[0]][1] == 0

    def shape(self, var):
        """The lengths of a variable's dimensions, without the record dimension."""
        return [self.dims[d][1] for d in var.dims[1 if self.is_record(var) else 0:]]

    def slab(self, var):
        """The bytes of a fixed variable, or of a record of one."""
        return words.SIZES[var.kind] * prod(self.shape(var))

    def record_size(self):
        """The bytes of a record; a variable that is alone in it is not padded."""
        slabs = [self.slab(v) for v in self.vars if self.is_record(v)]
        return slabs[0] if len(slabs) == 1 else sum(padded(s) for s in slabs)

    def find(self, at):
        """The variable and the index of the element that holds a byte of the file, None for a byte of none."""
        for var in self.vars:
            offset, record = at - var.begin, ()
            if offset >= 0 and self.is_record(var):
                record = (offset // self.record_size(),)
                offset %= self.record_size()
            if 0 <= offset < self.slab(var):
                return var, record + unravel(offset // words.SIZES[var.kind], self.shape(var))
        return None


def padded(size, to=4):
    return -(-size // to) * to


def unravel(place, shape):
    """The index of an element by its place in row-major order."""
    index = []
    for length in reversed(shape):
        place, rest = divmod(place, length)
        index.append(rest)
    return tuple(reversed(index))


class Reader:
    """The fields of a header one after another, from an open file."""

    def __init__(self, file):
        self.file = file
        magic = file.read(4)
        if magic[:3] != b"CDF" or magic[3:4] not in (b"\1", b"\2", b"\5"):
            raise HeaderFault("is no netCDF file of the classic format")
        self.version = magic[3]
        self.wide = 8 if self.version == 5 else 4

    def bytes(self, count):
        taken = self.file.read(count)
        if len(taken) < count:
            raise HeaderFault("ends in its header")
        return taken

    def number(self, size):
        return int.from_bytes(self.bytes(size), "big")

    def size(self):
        return self.number(self.wide)

    def kind(self):
        kind = self.number(4)
        if kind not in words.SIZES:
            raise HeaderFault("has a type in its header that there isn't")
        return kind

    def name(self):
        length = self.size()
        return self.bytes(padded(length))[:length]

    def entries(self, read):
        self.number(4)
        return [read() for _ in range(self.size())]

    def dimension(self):
        return self.name(), self.size()

    def attribute(self):
        name, kind = self.name(), self.kind()
        length = self.size() * words.SIZES[kind]
        return name, (kind, self.bytes(padded(length))[:length])

    def variable(self):
        name, dims = self.name(), [self.size() for _ in range(self.size())]
        attributes, kind = dict(self.entries(self.attribute)), self.kind()
        self.size()
        return Variable(name, dims, kind, self.number(4 if self.version == 1 else 8), attributes)


def read_header(file):
    reader = Reader(file)
    header = Header(reader.version, reader.size())
    header.dims = reader.entries(reader.dimension)
    header.attributes = dict(reader.entries(reader.attribute))
    header.vars = reader.entries(reader.variable)
    if any(d >= len(header.dims) for var in header.vars for d in var.dims):
        raise HeaderFault("has a variable over a dimension that there isn't")
    return header


def attribute_bytes(kind, values):
    """The values of an attribute as a file has them; of floats and doubles their patterns."""
    if kind == words.CHAR:
        return bytes(values)
    signed = kind in words.FORMATS and words.FORMATS[kind].islower()
    return b"".join(v.to_bytes(words.SIZES[kind], "big", signed=signed) for v in values)


def list_length(version, attributes):
    """What the attributes of one owner take in a header, without their list's tag and count."""
    wide = 8 if version == 5 else 4
    return sum(2 * wide + padded(len(name)) + 4 + padded(len(values)) for name, (_, values) in attributes.items())


def header_length(header):
    wide = 8 if header.version == 5 else 4
    length = 4 + wide + 3 * (4 + wide) + list_length(header.version, header.attributes)
    length += sum(2 * wide + padded(len(name)) for name, _ in header.dims)
    for var in header.vars:
        length += 4 * wide + wide * len(var.dims) + padded(len(var.name)) + list_length(header.version, var.attributes)
        length += 12 if header.version == 1 else 16
    return length


def begins(header, length, header_align, var_align):
    """Where the variables of a new dataset lie, in order of definition."""
    at, first_record, placed = padded(padded(length, header_align), var_align), True, {}
    ordered = sorted(header.vars, key=header.is_record)
    for var in ordered:
        if not header.is_record(var) or first_record:
            at = padded(at, var_align)
        first_record = first_record and not header.is_record(var)
        placed[var.name] = at
        at += padded(header.slab(var))
    return [placed[v.name] for v in header.vars]
