#!/usr/bin/env python3
"""The parts of the headers of random files by number and by name, and the files' sizes, against what the headers were made of.

  random_parts.py LIBRARY COUNT [SEED]     LIBRARY: libnc_classic.so
"""
import ctypes as c, random, sys

from files import SIZES, random_file
from library import EBADDIM, ENOTATT, ENOTVAR, GLOBAL, OK, TOO_LARGE, Att, Dim, Sizes, Var, loaded

UNTOUCHED = 0xAA


class Parts:
    """A header's parts as the library answers them, or its code."""

    def __init__(self, lib, header):
        self.lib, self.header = lib, header

    def ask(self, name, *arguments):
        return getattr(self.lib, f"ncv_{name}")(self.header, len(self.header), *arguments)

    def number(self, name, *arguments):
        number = c.c_uint64(77)
        code = self.ask(name, *arguments, c.byref(number))
        assert code == OK or number.value == 77
        return code or number.value

    def dim(self, number, room):
        dim, name = Dim(), array(room)
        code = self.ask("inq_dim", number, name, room, c.byref(dim))
        return code or (taken(name, room, dim.name_len), dim.length)

    def var(self, number, room):
        var, name, ids = Var(), array(room), (c.c_uint32 * (room + 1))()
        code = self.ask("inq_var", number, name, room, ids, room, c.byref(var))
        return code or (taken(name, room, var.name_len), ids[:min(room, var.dims)], var.dims, var.attrs, var.type, var.is_record, var.begin, var.slab, var.vsize)

    def att(self, owner, number, room):
        att, name, values = Att(), array(room), array(room)
        code = self.ask("inq_att", owner, number, name, room, values, room, c.byref(att))
        return code or (taken(name, room, att.name_len), att.type, att.count, taken(values, room, att.values_len))

    def sizes(self, records):
        sizes = Sizes()
        return self.ask("inq_sizes", records, c.byref(sizes)) or (sizes.record_size, sizes.end)


def array(room):
    return c.create_string_buffer(bytes([UNTOUCHED]) * (room + 1), room + 1)


def taken(array, room, length):
    """What was copied, and how long the whole of it is; what is behind it stayed as it was."""
    count = min(room, length)
    assert array.raw[count:] == bytes([UNTOUCHED]) * (room + 1 - count)
    return array.raw[:count], length


def first_named(parts, name):
    return [part[0] if isinstance(part, tuple) else part.name for part in parts].index(name)


def check_atts(rng, parts, owner, attrs):
    for number, (name, kind, values) in enumerate(attrs):
        room = rng.randint(0, 12)
        count = len(values) // SIZES[kind]
        assert parts.att(owner, number, room) == ((name[:room], len(name)), kind, count, (values[:room], len(values)))
        assert parts.number("inq_attid", owner, name, len(name)) == first_named(attrs, name)
    assert parts.att(owner, len(attrs), 4) == ENOTATT and parts.number("inq_attid", owner, b"?", 1) == ENOTATT


def check(rng, lib, file):
    parts = Parts(lib, file.encoded())
    for number, (name, length) in enumerate(file.dims):
        room = rng.randint(0, 12)
        assert parts.dim(number, room) == ((name[:room], len(name)), length)
        assert parts.number("inq_dimid", name, len(name)) == first_named(file.dims, name)
    assert parts.dim(len(file.dims), 4) == EBADDIM and parts.number("inq_dimid", b"?", 1) == EBADDIM
    for number, var in enumerate(file.vars):
        room = rng.randint(0, 12)
        shape = (len(var.ids), len(var.attrs), var.kind, file.is_record(var), var.begin, file.slab(var), file.vsize(var))
        assert parts.var(number, room) == ((var.name[:room], len(var.name)), var.ids[:room], *shape)
        assert parts.number("inq_varid", var.name, len(var.name)) == first_named(file.vars, var.name)
        check_atts(rng, parts, number, var.attrs)
    assert parts.var(len(file.vars), 4) == ENOTVAR and parts.number("inq_varid", b"?", 1) == ENOTVAR
    assert parts.att(len(file.vars), 0, 4) == ENOTVAR
    check_atts(rng, parts, GLOBAL, file.attrs)
    records = rng.choice((0, 1, 2, 77))
    assert parts.sizes(records) == (file.record_size(), file.end(records))
    assert parts.sizes(2**62 if file.version == 5 else 2**31) == TOO_LARGE


def main(path, count, seed=1):
    lib, rng = loaded(path), random.Random(int(seed))
    for _ in range(int(count)):
        check(rng, lib, random_file(rng))
    print(f"{count} headers: each dimension, variable and attribute by number and by name, and the sizes, as they were made")


main(*sys.argv[1:])
