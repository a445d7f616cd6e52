#!/usr/bin/env python3
"""Headers that the library makes of random definitions, against their bytes by the format's grammar and begins by its formulas.

  random_making.py LIBRARY COUNT [SEED] [FOLDER]     LIBRARY: libnc_classic.so; FOLDER: takes those of the first 100 files that ncvalidator takes, with zeros for values
"""
import ctypes as c, random, sys
from pathlib import Path

from files import random_file
from library import GLOBAL, OK, TOO_LARGE, loaded

ARGUMENT, ROOM, ENAMEINUSE, EBADTYPE, EBADDIM = 4, 6, -42, -45, -46
WHOLE, DIM, ATT, VAR = 0, 1, 2, 3
NAME = [("name", c.c_char_p), ("name_len", c.c_size_t)]


class AttDef(c.Structure):
    _fields_ = [*NAME, ("values", c.c_char_p), ("values_len", c.c_size_t), ("type", c.c_uint32)]


class DimDef(c.Structure):
    _fields_ = [*NAME, ("length", c.c_uint64)]


class VarDef(c.Structure):
    _fields_ = [*NAME, ("ids", c.POINTER(c.c_uint32)), ("dims", c.c_size_t), ("atts", c.POINTER(AttDef)), ("att_count", c.c_size_t), ("type", c.c_uint32)]


class HeaderDef(c.Structure):
    _fields_ = [("dims", c.POINTER(DimDef)), ("dim_count", c.c_size_t), ("atts", c.POINTER(AttDef)), ("att_count", c.c_size_t),
                ("vars", c.POINTER(VarDef)), ("var_count", c.c_size_t),
                ("records", c.c_uint64), ("header_align", c.c_uint64), ("var_align", c.c_uint64), ("version", c.c_uint32)]


class Refused(c.Structure):
    _fields_ = [("part", c.c_uint32), ("number", c.c_uint64), ("owner", c.c_uint64)]


def items(kind, entries):
    """An array for C, with room for one more, so that none is no null pointer."""
    return (kind * (len(entries) + 1))(*entries)


def att_defs(attrs):
    return items(AttDef, [AttDef(name, len(name), values, len(values), kind) for name, kind, values in attrs])


def header_def(file, header_align, var_align):
    dims = items(DimDef, [DimDef(name, len(name), length) for name, length in file.dims])
    vars_ = items(VarDef, [VarDef(v.name, len(v.name), items(c.c_uint32, v.ids), len(v.ids), att_defs(v.attrs), len(v.attrs), v.kind) for v in file.vars])
    return HeaderDef(dims, len(file.dims), att_defs(file.attrs), len(file.attrs), vars_, len(file.vars), file.records, header_align, var_align, file.version)


def make(lib, definition, room):
    """The code, the bytes and how many are told, and what is refused."""
    into, length, refused = c.create_string_buffer(b"\xaa" * (room + 1), room + 1), c.c_uint64(77), Refused(88, 88, 88)
    code = lib.ncv_header_make(c.byref(definition), into, room, c.byref(length), c.byref(refused))
    return code, into.raw, length.value, (refused.part, refused.number, refused.owner)


def up(n, unit):
    return -(-n // unit) * unit


def lay_out(file, header_align, var_align):
    at = up(len(file.encoded()), header_align)
    for var in file.vars:
        if not file.is_record(var):
            var.begin = up(at, var_align)
            at = var.begin + file.vsize(var)
    at = up(at, var_align)
    for var in file.vars:
        if file.is_record(var):
            var.begin = at
            at += file.vsize(var)


def check_made(lib, file, aligns):
    lay_out(file, *aligns)
    wanted = file.encoded()
    definition = header_def(file, *aligns)
    for room in (len(wanted), len(wanted) + 5):
        code, made, length, refused = make(lib, definition, room)
        assert (code, length, refused) == (OK, len(wanted), (88, 88, 88)) and made == wanted + b"\xaa" * (room + 1 - len(wanted))
    code, made, length, refused = make(lib, definition, len(wanted) - 1)
    assert (code, length, refused) == (ROOM, len(wanted), (WHOLE, 0, 0)) and made == b"\xaa" * len(wanted)
    return wanted


def set_fields(struct, **fields):
    """What pointers lead to is kept by the caller."""
    for name, value in fields.items():
        setattr(struct, name, value)


def check_refused(lib, file, aligns, rng):
    """One definition is spoiled: it is told, and nothing is written."""
    spoiled, far = [], items(c.c_uint32, [len(file.dims)])
    if file.vars:
        number = rng.randrange(len(file.vars))
        var = file.vars[number]
        spoiled.append((EBADDIM, (VAR, number, 0), lambda d: set_fields(d.vars[number], ids=far, dims=1)))
        spoiled.append((EBADTYPE, (VAR, number, 0), lambda d: set_fields(d.vars[number], type=rng.choice((0, 12)))))
        if var.attrs:
            spoiled.append((EBADTYPE, (ATT, 0, number), lambda d: set_fields(d.vars[number].atts[0], type=12)))
    if file.attrs:
        spoiled.append((EBADTYPE, (ATT, 0, GLOBAL), lambda d: set_fields(d.atts[0], type=0)))
    if len(file.dims) > 1 and file.dims[-1][1]:
        last, first = len(file.dims) - 1, file.dims[0][0]
        spoiled.append((ENAMEINUSE, (DIM, last, 0), lambda d: set_fields(d.dims[last], name=first, name_len=len(first))))
    spoiled.append((ARGUMENT, (WHOLE, 0, 0), lambda d: set_fields(d, version=rng.choice((0, 3, 257)))))
    spoiled.append((TOO_LARGE, (WHOLE, 0, 0), lambda d: set_fields(d, records=2**62)))
    code, part, spoil = rng.choice(spoiled)
    definition = header_def(file, *aligns)
    spoil(definition)
    assert make(lib, definition, 4096) == (code, b"\xaa" * 4097, 77, part)


def main(path, count, seed=1, folder=None):
    lib, rng = loaded(path), random.Random(int(seed))
    lib.ncv_header_make.argtypes = [c.POINTER(HeaderDef), c.c_char_p, c.c_size_t, c.POINTER(c.c_uint64), c.POINTER(Refused)]
    lib.ncv_header_make.restype = c.c_int32
    for number in range(int(count)):
        file = random_file(rng)
        aligns = rng.choice((1, 4, 7, 512, 2**20)), rng.choice((1, 4, 10, 512))
        header = check_made(lib, file, aligns)
        check_refused(lib, file, aligns, rng)
        # ncvalidator takes begins at multiples of 4, and no records without a record variable
        lone_count = file.records > 0 and not any(map(file.is_record, file.vars))
        if folder and number < 100 and aligns[0] in (4, 512) and aligns[1] in (4, 512) and not lone_count:
            Path(folder, f"{number}.nc").write_bytes(header + bytes(file.end(file.records) - len(header)))
    print(f"{count} headers made: their bytes, and what of them is refused")


main(*sys.argv[1:])
