"""The library for C by ctypes: its structs and functions as nc_classic.h declares them."""
from __future__ import annotations

import ctypes as c
import ctypes.util
import os
from typing import Any

OK, MEMORY, HEADER, TOO_LARGE, ARGUMENT, ROOM = 0, 1, 2, 3, 4, 6
EINVAL, EINVALCOORDS, EMAXDIMS, ENAMEINUSE, ENOTATT, EMAXATTS, EBADTYPE, EBADDIM, EUNLIMPOS, EMAXVARS, ENOTVAR = -36, -40, -41, -42, -43, -44, -45, -46, -47, -48, -49
EMAXNAME, EUNLIMIT, EEDGE, ESTRIDE, EBADNAME, ERANGE, EVARSIZE, EDIMSIZE, ESTRICTCDF2 = -53, -54, -57, -58, -59, -60, -62, -63, -232
GLOBAL = 2**64 - 1
HEADER_BYTES = 2**20
MOST_DIMS = 32  # of a variable

Numbers = c.POINTER(c.c_uint64)
BYTES: list[Any] = [c.c_char_p, c.c_size_t]


class Fault(c.Structure):
    _fields_ = [("kind", c.c_uint32), ("place", c.c_uint64), ("other", c.c_uint64)]


class Counts(c.Structure):
    _fields_ = [("version", c.c_uint32)] + [(name, c.c_uint64) for name in ("length", "records", "dims", "attrs", "vars")]


class Dim(c.Structure):
    _fields_ = [("length", c.c_uint64), ("name_len", c.c_uint64)]


class Var(c.Structure):
    _fields_ = [*((name, c.c_uint64) for name in ("begin", "slab", "vsize", "dims", "attrs", "name_len")), ("type", c.c_uint32), ("is_record", c.c_bool)]


class Att(c.Structure):
    _fields_ = [*((name, c.c_uint64) for name in ("count", "values_len", "name_len")), ("type", c.c_uint32)]


class Sizes(c.Structure):
    _fields_ = [("record_size", c.c_uint64), ("end", c.c_uint64)]


class Needs(c.Structure):
    _fields_ = [("bytes", c.c_uint64), ("records", c.c_uint64)]


class Extent(c.Structure):
    _fields_ = [("at", c.c_uint64), ("len", c.c_uint64)]


class Region(c.Structure):
    kept: Any  # the arrays that its pointers lead to
    _fields_ = [("var", c.c_uint64), ("start", Numbers), ("starts", c.c_size_t), ("count", Numbers), ("counts", c.c_size_t),
                ("stride", Numbers), ("strides", c.c_size_t), ("imap", Numbers), ("imaps", c.c_size_t)]


class DimDef(c.Structure):
    _fields_ = [("name", c.c_char_p), ("name_len", c.c_size_t), ("length", c.c_uint64)]


class AttDef(c.Structure):
    _fields_ = [("name", c.c_char_p), ("name_len", c.c_size_t), ("values", c.c_char_p), ("values_len", c.c_size_t), ("type", c.c_uint32)]


class VarDef(c.Structure):
    _fields_ = [("name", c.c_char_p), ("name_len", c.c_size_t), ("ids", c.POINTER(c.c_uint32)), ("dims", c.c_size_t),
                ("atts", c.POINTER(AttDef)), ("att_count", c.c_size_t), ("type", c.c_uint32)]


class HeaderDef(c.Structure):
    _fields_ = [("dims", c.POINTER(DimDef)), ("dim_count", c.c_size_t), ("atts", c.POINTER(AttDef)), ("att_count", c.c_size_t),
                ("vars", c.POINTER(VarDef)), ("var_count", c.c_size_t), ("records", c.c_uint64), ("header_align", c.c_uint64), ("var_align", c.c_uint64),
                ("version", c.c_uint32)]


class Refused(c.Structure):
    _fields_ = [("part", c.c_uint32), ("number", c.c_uint64), ("owner", c.c_uint64)]


class Window(c.Structure):
    _fields_ = [("at", c.c_uint64), ("len", c.c_uint64), ("aggregator", c.c_uint32), ("full", c.c_bool)]


class Step(c.Structure):
    _fields_ = [("lo", c.c_uint64), ("hi", c.c_uint64), ("windows", c.c_uint64)]


# What each function of a header takes behind the header's bytes.
FUNCTIONS: dict[str, list[Any]] = {
    "header_check": [c.POINTER(Counts), c.POINTER(Fault)],
    "inq_dim": [c.c_uint64, *BYTES, c.POINTER(Dim)],
    "inq_dimid": [*BYTES, Numbers],
    "inq_var": [c.c_uint64, *BYTES, c.POINTER(c.c_uint32), c.c_size_t, c.POINTER(Var)],
    "inq_varid": [*BYTES, Numbers],
    "inq_att": [c.c_uint64, c.c_uint64, *BYTES, *BYTES, c.POINTER(Att)],
    "inq_attid": [c.c_uint64, *BYTES, Numbers],
    "inq_sizes": [c.c_uint64, c.POINTER(Sizes)],
    "region_check": [c.POINTER(Region), c.c_uint64, c.c_bool, c.POINTER(Needs)],
    "extents": [c.POINTER(Region), c.c_uint64, c.c_bool, c.c_uint64, c.POINTER(Extent), c.c_size_t, Numbers],
}

# What each other function takes. An array is any pointer: of the callers in this package each has items of the type that nc_classic.h says.
OTHERS: dict[str, list[Any]] = {
    "header_make": [c.POINTER(HeaderDef), *BYTES, Numbers, c.POINTER(Refused)],
    "windows": [c.POINTER(Extent), c.c_size_t, c.c_uint32, c.c_uint64, c.c_uint64, c.c_uint64, c.POINTER(Window), c.c_size_t, c.POINTER(Step)],
    **{f"pack_{kind}": [c.c_uint32, c.c_void_p, c.c_size_t, *BYTES, Numbers] for kind in ("int64", "uint64")},
    **{f"unpack_{kind}": [c.c_uint32, *BYTES, c.c_void_p, c.c_size_t, Numbers] for kind in ("int64", "uint64")},
    **{f"pack_{kind}": [c.c_void_p, c.c_size_t, *BYTES] for kind in ("float", "double")},
    **{f"unpack_{kind}": [*BYTES, c.c_void_p, c.c_size_t] for kind in ("float", "double")},
}


def path_of_library() -> str:
    """The shared object: what NC_CLASSIC_LIBRARY names, or else the installed one."""
    return os.environ.get("NC_CLASSIC_LIBRARY") or ctypes.util.find_library("nc_classic") or "libnc_classic.so.0"


def loaded(path: str) -> c.CDLL:
    """The library, its functions declared. OSError: it is not there, or lacks one of them."""
    library = c.CDLL(path)
    for name, arguments in {**{name: [*BYTES, *rest] for name, rest in FUNCTIONS.items()}, **OTHERS}.items():
        try:
            function = getattr(library, f"ncv_{name}")
        except AttributeError:
            raise OSError(f"{path} has no function ncv_{name}") from None
        function.argtypes, function.restype = arguments, c.c_int32
    library.ncv_version.argtypes, library.ncv_version.restype = [], c.c_char_p
    return library


_library: list[c.CDLL] = []


def library() -> c.CDLL:
    """The library, loaded at its first use."""
    if not _library:
        _library.append(loaded(path_of_library()))
    return _library[0]


def array(numbers: list[int]) -> Any:
    """The numbers for C. One more stands behind them, so that the pointer is never null."""
    return (c.c_uint64 * (len(numbers) + 1))(*numbers, 0)
