"""Files in the netCDF classic format, made at random, and where their variables lie by the formulas of the format specification.

Nothing here is taken from the library: the bytes follow the grammar of "The format in detail", sizes and places "Computing file offsets".
"""
import struct
from dataclasses import dataclass, field

SIZES = {1: 1, 2: 1, 3: 2, 4: 4, 5: 4, 6: 8, 7: 1, 8: 2, 9: 4, 10: 8, 11: 8}
DIMENSION, VARIABLE, ATTRIBUTE = 10, 11, 12


@dataclass
class Variable:
    name: bytes
    ids: list
    attrs: list  # of (name, type, values as bytes)
    kind: int
    begin: int = 0


@dataclass
class File:
    version: int
    records: int
    dims: list  # of (name, length); length 0 is the record dimension
    attrs: list
    vars: list = field(default_factory=list)

    def lengths(self, var):
        return [self.dims[i][1] for i in var.ids]

    def is_record(self, var):
        return bool(var.ids) and self.dims[var.ids[0]][1] == 0

    def slab(self, var):
        """Bytes of a fixed variable, or of one record, without padding."""
        bytes_ = SIZES[var.kind]
        for length in self.lengths(var)[self.is_record(var):]:
            bytes_ *= length
        return bytes_

    def vsize(self, var):
        return padded(self.slab(var))

    def record_size(self):
        record_vars = [var for var in self.vars if self.is_record(var)]
        if len(record_vars) == 1:
            return self.slab(record_vars[0])
        return sum(self.vsize(var) for var in record_vars)

    def place(self, var, index):
        """The first byte of the element."""
        lengths, record = self.lengths(var), 0
        if self.is_record(var):
            record, index, lengths = index[0], index[1:], lengths[1:]
        number = 0
        for i, length in zip(index, lengths):
            number = number * length + i
        return var.begin + record * self.record_size() + number * SIZES[var.kind]

    def end(self, records):
        """The length of the file with so many records, with the padding of the last one."""
        lone = sum(map(self.is_record, self.vars)) == 1
        ends = [len(self.encoded())]
        for var in self.vars:
            if not self.is_record(var):
                ends.append(var.begin + self.vsize(var))
            elif records:
                ends.append(var.begin + (records - 1) * self.record_size() + (self.slab(var) if lone else self.vsize(var)))
        return max(ends)

    def lay_out(self, gap):
        """Gives the variables begins: fixed ones first, then those of records, with gaps of a multiple of 4 before them."""
        at = len(self.encoded())
        for var in self.vars:
            if not self.is_record(var):
                var.begin = at + gap()
                at = var.begin + self.vsize(var)
        at += gap()
        for var in self.vars:
            if self.is_record(var):
                var.begin = at
                at += self.vsize(var)

    # ---- bytes

    def count(self, n):
        return struct.pack(">Q" if self.version == 5 else ">I", n)

    def name(self, text):
        return self.count(len(text)) + filled(text)

    def entries(self, tag, entries):
        if not entries:
            return struct.pack(">I", 0) + self.count(0)
        return struct.pack(">I", tag) + self.count(len(entries)) + b"".join(entries)

    def attributes(self, attrs):
        return self.entries(ATTRIBUTE, [self.name(n) + struct.pack(">I", t) + self.count(len(b) // SIZES[t]) + filled(b) for n, t, b in attrs])

    def variable(self, var):
        begin = struct.pack(">I" if self.version == 1 else ">Q", var.begin)
        ids = self.count(len(var.ids)) + b"".join(map(self.count, var.ids))
        vsize = min(self.vsize(var), 2**32 - 1 if self.version != 5 else 2**64 - 1)
        return self.name(var.name) + ids + self.attributes(var.attrs) + struct.pack(">I", var.kind) + self.count(vsize) + begin

    def encoded(self):
        return (b"CDF" + bytes([self.version]) + self.count(self.records)
                + self.entries(DIMENSION, [self.name(name) + self.count(length) for name, length in self.dims])
                + self.attributes(self.attrs)
                + self.entries(VARIABLE, [self.variable(var) for var in self.vars]))


def padded(n):
    return (n + 3) // 4 * 4


def filled(text):
    return text + bytes(padded(len(text)) - len(text))


# ---- at random

def random_name(rng, used):
    while True:
        name = bytes(rng.choice(b"abcdefghijklmnopqrstuvwxyz_") for _ in range(rng.randint(1, 9)))
        if name not in used:
            used.add(name)
            return name


def random_attrs(rng, version):
    used = set()
    attrs = []
    for _ in range(rng.randint(0, 2)):
        kind = rng.randint(1, 11 if version == 5 else 6)
        attrs.append((random_name(rng, used), kind, rng.randbytes(SIZES[kind] * rng.randint(0, 5))))
    return attrs


def random_file(rng):
    version = rng.choice((1, 2, 5))
    used = set()
    dims = [(random_name(rng, used), rng.randint(1, 6)) for _ in range(rng.randint(0, 4))]
    if rng.random() < 0.7:
        dims.insert(rng.randint(0, len(dims)), (random_name(rng, used), 0))
    fixed = [i for i, dim in enumerate(dims) if dim[1]]
    record = [i for i, dim in enumerate(dims) if not dim[1]]
    file = File(version, rng.randint(0, 4) if record else 0, dims, random_attrs(rng, version))
    used = set()
    for _ in range(rng.randint(0, 5)):
        ids = [rng.choice(fixed) for _ in range(rng.randint(0, 3))] if fixed else []
        if record and rng.random() < 0.5:
            ids.insert(0, record[0])
        file.vars.append(Variable(random_name(rng, used), ids, random_attrs(rng, version), rng.randint(1, 11 if version == 5 else 6)))
    file.lay_out(lambda: 4 * rng.choice((0, 0, 0, 1, 5)))
    return file
