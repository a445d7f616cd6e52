"""The library's functions by ctypes, as plainly as they are declared in nc_classic.h."""
import ctypes as c

OK, MEMORY, HEADER, TOO_LARGE, ARGUMENT, SHARED = 0, 1, 2, 3, 4, 5
EINVALCOORDS, ENOTATT, EBADDIM, ENOTVAR, EEDGE, ESTRIDE = -40, -43, -46, -49, -57, -58
EBADTYPE, ECHAR, ERANGE = -45, -56, -60
GLOBAL = 2**64 - 1


class Fault(c.Structure):
    _fields_ = [("kind", c.c_uint32), ("place", c.c_uint64), ("other", c.c_uint64)]


class Counts(c.Structure):
    _fields_ = [("version", c.c_uint32)] + [(name, c.c_uint64) for name in ("length", "records", "dims", "attrs", "vars")]


class Dim(c.Structure):
    _fields_ = [("length", c.c_uint64), ("name_len", c.c_uint64)]


class Var(c.Structure):
    _fields_ = [(name, c.c_uint64) for name in ("begin", "slab", "vsize", "dims", "attrs", "name_len")] + [("type", c.c_uint32), ("is_record", c.c_bool)]


class Att(c.Structure):
    _fields_ = [(name, c.c_uint64) for name in ("count", "values_len", "name_len")] + [("type", c.c_uint32)]


class Sizes(c.Structure):
    _fields_ = [("record_size", c.c_uint64), ("end", c.c_uint64)]


class Needs(c.Structure):
    _fields_ = [("bytes", c.c_uint64), ("records", c.c_uint64)]


class Held(c.Structure):
    _fields_ = [("at", c.c_uint64), ("len", c.c_uint64), ("rank", c.c_uint32), ("request", c.c_uint32)]


class Pair(c.Structure):
    _fields_ = [("at", c.c_uint64)] + [(name, c.c_uint32) for name in ("rank1", "request1", "rank2", "request2")]


class Extent(c.Structure):
    _fields_ = [("at", c.c_uint64), ("len", c.c_uint64)]


class Window(c.Structure):
    _fields_ = [("at", c.c_uint64), ("len", c.c_uint64), ("aggregator", c.c_uint32), ("full", c.c_bool)]


class Step(c.Structure):
    _fields_ = [("lo", c.c_uint64), ("hi", c.c_uint64), ("windows", c.c_uint64)]


Numbers = c.POINTER(c.c_uint64)


class Region(c.Structure):
    _fields_ = [("var", c.c_uint64), ("start", Numbers), ("starts", c.c_size_t), ("count", Numbers), ("counts", c.c_size_t),
                ("stride", Numbers), ("strides", c.c_size_t), ("imap", Numbers), ("imaps", c.c_size_t)]


BYTES = [c.c_char_p, c.c_size_t]

FUNCTIONS = {
    "header_check": [c.POINTER(Counts), c.POINTER(Fault)],
    "inq_dim": [c.c_uint64, *BYTES, c.POINTER(Dim)],
    "inq_dimid": [*BYTES, Numbers],
    "inq_var": [c.c_uint64, *BYTES, c.POINTER(c.c_uint32), c.c_size_t, c.POINTER(Var)],
    "inq_varid": [*BYTES, Numbers],
    "inq_att": [c.c_uint64, c.c_uint64, *BYTES, *BYTES, c.POINTER(Att)],
    "inq_attid": [c.c_uint64, *BYTES, Numbers],
    "inq_sizes": [c.c_uint64, c.POINTER(Sizes)],
    "region_check": [c.POINTER(Region), c.c_uint64, c.c_bool, c.POINTER(Needs)],
    "extents": [c.POINTER(Region), c.c_uint64, c.c_bool, c.c_uint64, c.POINTER(Extent), c.c_size_t, Numbers],
}


def loaded(path):
    """The library, of which each function of FUNCTIONS takes the header's bytes before the arguments that stand there."""
    lib = c.CDLL(path)
    lib.ncv_first_shared.argtypes, lib.ncv_first_shared.restype = [c.POINTER(Held), c.c_size_t, c.POINTER(Pair)], c.c_int32
    lib.ncv_domain.argtypes, lib.ncv_domain.restype = [c.c_uint64, c.c_uint64, c.c_uint32, c.c_uint64, c.c_uint32, c.POINTER(Extent)], c.c_int32
    lib.ncv_windows.argtypes = [c.POINTER(Extent), c.c_size_t, c.c_uint32, c.c_uint64, c.c_uint64, c.c_uint64, c.POINTER(Window), c.c_size_t, c.POINTER(Step)]
    lib.ncv_windows.restype = c.c_int32
    for name, word in (("int64", c.c_int64), ("uint64", c.c_uint64)):
        pack, unpack = getattr(lib, f"ncv_pack_{name}"), getattr(lib, f"ncv_unpack_{name}")
        pack.argtypes, pack.restype = [c.c_uint32, c.POINTER(word), c.c_size_t, c.POINTER(c.c_uint8), c.c_size_t, Numbers], c.c_int32
        unpack.argtypes, unpack.restype = [c.c_uint32, c.c_char_p, c.c_size_t, c.POINTER(word), c.c_size_t, Numbers], c.c_int32
    for name, arguments in FUNCTIONS.items():
        function = getattr(lib, f"ncv_{name}")
        function.argtypes, function.restype = [*BYTES, *arguments], c.c_int32
    return lib


def array(numbers):
    """The numbers for C; one more stands behind them, so that none is no null pointer."""
    return (c.c_uint64 * (len(numbers) + 1))(*numbers, 0)


def region_of(var, start, count, stride, imap=()):
    lists = [array(numbers) for numbers in (start, count, stride, imap)]
    fields = []
    for numbers, given in zip(lists, (start, count, stride, imap)):
        fields += [c.cast(numbers, Numbers), len(given)]
    region = Region(var, *fields)
    region.kept = lists
    return region


def extents(lib, header, region, records, put, room, first=0):
    """The code, and where it is OK the extents from number `first` on, as many as there is room for, and how many there are in all."""
    into, total = (Extent * (room + 1))(), c.c_uint64()
    code = lib.ncv_extents(header, len(header), c.byref(region), records, put, first, into, room, c.byref(total))
    if code != OK:
        return code, None, None
    return code, [(e.at, e.len) for e in into[:max(0, min(room, total.value - first))]], total.value


def windows(lib, asked, aggregators, unit, buffer, room, first=0):
    """The code, and where it is OK the step as (lo, hi, how many windows) and its windows from number `first` on."""
    extents, into, step = (Extent * (len(asked) + 1))(*asked), (Window * (room + 1))(), Step()
    code = lib.ncv_windows(extents, len(asked), aggregators, unit, buffer, first, into, room, c.byref(step))
    if code != OK:
        return code, None, None
    found = into[:max(0, min(room, step.windows - first))]
    return code, (step.lo, step.hi, step.windows), [(w.aggregator, w.at, w.len, w.full) for w in found]
