"""A reader of the netCDF classic format (CDF-1, CDF-2 and CDF-5), after its specification: the values of each variable."""
import math
import struct

TYPES = {1: "b", 2: "c", 3: "h", 4: "i", 5: "f", 6: "d", 7: "B", 8: "H", 9: "I", 10: "q", 11: "Q"}


class Reader:
    def __init__(self, data):
        self.data, self.at = data, 4
        assert data[:3] == b"CDF"
        self.version = data[3]

    def take(self, form):
        values = struct.unpack_from(">" + form, self.data, self.at)
        self.at += struct.calcsize(">" + form)
        return values

    def number(self):
        return self.take("q" if self.version == 5 else "i")[0]

    def padded(self, size):
        found = self.data[self.at:self.at + size]
        self.at += -(-size // 4) * 4
        return found

    def name(self):
        return self.padded(self.number()).decode()

    def several(self, one):
        self.take("i")
        return [one() for _ in range(self.number())]

    def attribute(self):
        name, kind, count = self.name(), TYPES[self.take("i")[0]], self.number()
        data = self.padded(count * struct.calcsize(kind))
        return name, data if kind == "c" else list(struct.unpack(f">{count}{kind}", data))

    def variable(self):
        name, dims = self.name(), [self.number() for _ in range(self.number())]
        attributes, kind, _ = dict(self.several(self.attribute)), TYPES[self.take("i")[0]], self.number()
        return name, dims, attributes, kind, self.take("i" if self.version == 1 else "q")[0]


class Dataset:
    """dims: lengths by name. attributes and variables[name].attributes; values(name): all values, a text as bytes."""

    def __init__(self, path):
        with open(path, "rb") as file:
            self.data = file.read()
        read = Reader(self.data)
        self.records = read.number()
        dims = read.several(lambda: (read.name(), read.number()))
        self.dims = {name: length or self.records for name, length in dims}
        self.attributes = dict(read.several(read.attribute))
        self.vars = {name: (own, attributes, kind, begin) for name, own, attributes, kind, begin in read.several(read.variable)}
        self.lengths = [length for _, length in dims]

    def is_record(self, name):
        own = self.vars[name][0]
        return bool(own) and self.lengths[own[0]] == 0

    def size(self, name):
        own, _, kind, _ = self.vars[name]
        return math.prod(self.lengths[dim] for dim in own[self.is_record(name):]) * struct.calcsize(kind)

    def values(self, name):
        _, _, kind, begin = self.vars[name]
        size, records = self.size(name), [it for it in self.vars if self.is_record(it)]
        apart = size if len(records) == 1 else sum(-(-self.size(it) // 4) * 4 for it in records)
        places = [begin + r * apart for r in range(self.records)] if self.is_record(name) else [begin]
        data = b"".join(self.data[at:at + size] for at in places)
        return data if kind == "c" else list(struct.unpack(f">{len(data) // struct.calcsize(kind)}{kind}", data))
