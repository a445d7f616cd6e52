"""The header of a file in the netCDF classic format: what it holds, and where the file's values lie."""
from __future__ import annotations

import ctypes as c
import functools
import os
from dataclasses import dataclass
from typing import Any, NamedTuple, Optional, Sequence, Union

from . import library as lib
from .faults import HeaderError, RegionError, refused
from .types import TYPES
from .values import unpack

Value = Union[str, int, float, "tuple[int, ...]", "tuple[float, ...]"]

# How many extents are asked for at once.
ROOM = 4096


class Extent(NamedTuple):
    """Bytes of a file that follow one another: the first, and how many."""
    at: int
    len: int


class Needs(NamedTuple):
    """What a region needs: the bytes of its elements, and the record count of a file that has it."""
    bytes: int
    records: int


class Place(NamedTuple):
    """Where a variable lies: its first byte, and its bytes, or those of one record. Record k begins `step` times k bytes later."""
    name: str
    begin: int
    size: int
    is_record: bool
    step: int


class Layout(NamedTuple):
    """Where all variables lie, in the header's order, the bytes of a record, and the length of the file."""
    header: int
    places: tuple[Place, ...]
    record_size: int
    end: int


@dataclass(frozen=True)
class Dimension:
    """A dimension. That of the records has the record count as its length."""
    name: str
    length: int
    is_record: bool


@dataclass(frozen=True)
class Attribute:
    """An attribute: its values as they stand in the file, and decoded."""
    name: str
    type: str
    data: bytes

    @property
    def value(self) -> Value:
        """Text for chars; a number, or a tuple of numbers where there is not one."""
        values = unpack(self.type, self.data)
        return values[0] if isinstance(values, tuple) and len(values) == 1 else values


@dataclass(frozen=True)
class Variable:
    """A variable of a header. begin, slab and vsize are bytes, as nc_classic.h has them."""
    header: "Header"
    number: int
    name: str
    type: str
    dimensions: tuple[Dimension, ...]
    attributes: tuple[Attribute, ...]
    begin: int
    slab: int
    vsize: int
    is_record: bool

    @property
    def shape(self) -> tuple[int, ...]:
        return tuple(dimension.length for dimension in self.dimensions)

    def extents(self, start: Optional[Sequence[int]] = None, count: Optional[Sequence[int]] = None, stride: Optional[Sequence[int]] = None,
                *, records: Optional[int] = None, put: bool = False) -> list[Extent]:
        """Where the elements of a region lie, in row-major order. What is left out is the whole variable by steps of 1.

        records: how many records the file has, if not as many as the header says; put: the region is to be written, and may lie behind
        them. RegionError: the region is refused; ValueError: the record count is below 0, or has more than 64 bits.
        """
        return self.header.extents(self.number, *self._region(start, count, stride), records=records, put=put)

    def needs(self, start: Optional[Sequence[int]] = None, count: Optional[Sequence[int]] = None, stride: Optional[Sequence[int]] = None,
              *, records: Optional[int] = None, put: bool = False) -> Needs:
        """How many bytes a region has, and how many records it needs; the arguments and errors are those of extents."""
        return self.header.needs(self.number, *self._region(start, count, stride), records=records, put=put)

    def _region(self, start: Optional[Sequence[int]], count: Optional[Sequence[int]], stride: Optional[Sequence[int]]) -> tuple[Sequence[int], ...]:
        start = [0] * len(self.shape) if start is None else start
        count = [max(0, length - first) for length, first in zip(self.shape, start)] if count is None else count
        return start, count, [1] * len(start) if stride is None else stride


class Header:
    """The sound header that bytes begin with. HeaderError: they begin with none.

    A part is asked of the library when it is first wanted, and each call of the library reads the header anew: `header["t"]` costs a few
    readings, and `header.variables` one or two for each variable and attribute.
    """

    def __init__(self, data: bytes) -> None:
        self.data = bytes(data[:lib.HEADER_BYTES])
        counts, fault = lib.Counts(), lib.Fault()
        code = lib.library().ncv_header_check(self.data, len(self.data), c.byref(counts), c.byref(fault))
        if code == lib.HEADER:
            raise HeaderError(fault)
        if code != lib.OK:
            raise refused(code)
        self.version, self.length, self.records = int(counts.version), int(counts.length), int(counts.records)
        self._counts = counts
        self._dimensions: dict[int, Dimension] = {}
        self._variables: dict[int, Variable] = {}

    @classmethod
    def read(cls, path: Union[str, "os.PathLike[str]"]) -> "Header":
        """The header of a file. OSError: the file can't be read."""
        with open(path, "rb") as file:
            return cls(file.read(lib.HEADER_BYTES))

    def encode(self) -> bytes:
        """The bytes of the header, without what stood behind them."""
        return self.data[:self.length]

    @property
    def dimensions(self) -> tuple[Dimension, ...]:
        return tuple(self._dimension(number) for number in range(self._counts.dims))

    @property
    def variables(self) -> tuple[Variable, ...]:
        return tuple(self._variable(number) for number in range(self._counts.vars))

    @functools.cached_property
    def attributes(self) -> tuple[Attribute, ...]:
        """Those of the dataset."""
        return self._attributes(lib.GLOBAL, self._counts.attrs)

    def __getitem__(self, name: str) -> Variable:
        """The first variable of this name. KeyError: there is none."""
        number = self._number_of(name)
        if number is None:
            raise KeyError(name)
        return self._variable(number)

    def __contains__(self, name: object) -> bool:
        return isinstance(name, str) and self._number_of(name) is not None

    def layout(self, records: Optional[int] = None) -> Layout:
        """Where the variables lie in a file of so many records; without a number, of those that the header has.

        RegionError: the file would be too large, or have too many records; ValueError: the number is below 0, or has more than 64 bits.
        """
        sizes = lib.Sizes()
        self._ask("inq_sizes", self._known(records), c.byref(sizes))
        step = int(sizes.record_size)
        places = tuple(Place(it.name, it.begin, it.slab, it.is_record, step if it.is_record else 0) for it in self.variables)
        return Layout(self.length, places, step, int(sizes.end))

    def extents(self, number: int, start: Sequence[int], count: Sequence[int], stride: Sequence[int], imap: Sequence[int] = (),
                *, records: Optional[int] = None, put: bool = False) -> list[Extent]:
        """The extents of a region of the variable of this number; see Variable.extents."""
        region, into, total = _region_of(number, start, count, stride, imap), (lib.Extent * ROOM)(), c.c_uint64()
        known, found = self._known(records), list[Extent]()
        while True:
            self._ask("extents", c.byref(region), known, put, len(found), into, ROOM, c.byref(total))
            found += [Extent(extent.at, extent.len) for extent in into[:min(ROOM, total.value - len(found))]]
            if len(found) >= total.value:
                return found

    def needs(self, number: int, start: Sequence[int], count: Sequence[int], stride: Sequence[int], imap: Sequence[int] = (),
              *, records: Optional[int] = None, put: bool = False) -> Needs:
        """What a region of the variable of this number needs; see Variable.needs."""
        needs = lib.Needs()
        self._ask("region_check", c.byref(_region_of(number, start, count, stride, imap)), self._known(records), put, c.byref(needs))
        return Needs(int(needs.bytes), int(needs.records))

    # ---- the parts, as the library tells them

    def _known(self, records: Optional[int]) -> int:
        """The record count that the library is to go by. ctypes would cut a greater one to 64 bits."""
        if records is None:
            return self.records
        if not 0 <= records < 2**64:
            raise ValueError("the record count is below 0, or has more than 64 bits")
        return records

    def _ask(self, name: str, *arguments: Any, or_none: int = lib.OK) -> int:
        """The code of a call, which is OK or the one that the caller takes; any other is raised."""
        code = int(getattr(lib.library(), f"ncv_{name}")(self.data, len(self.data), *arguments))
        if code not in (lib.OK, or_none):
            raise refused(code)
        return code

    def _number_of(self, name: str) -> Optional[int]:
        key, number = name.encode("utf-8"), c.c_uint64()
        code = self._ask("inq_varid", key, len(key), c.byref(number), or_none=lib.ENOTVAR)
        return number.value if code == lib.OK else None

    def _dimension(self, number: int) -> Dimension:
        if number not in self._dimensions:
            dim, name = lib.Dim(), Room()
            while name.is_short(dim.name_len):
                self._ask("inq_dim", number, *name.grown(dim.name_len), c.byref(dim))
            self._dimensions[number] = Dimension(name.text(), int(dim.length) or self.records, dim.length == 0)
        return self._dimensions[number]

    def _attributes(self, owner: int, count: int) -> tuple[Attribute, ...]:
        return tuple(self._attribute(owner, number) for number in range(count))

    def _attribute(self, owner: int, number: int) -> Attribute:
        att, name, values = lib.Att(), Room(), Room()
        while name.is_short(att.name_len) or values.is_short(att.values_len):
            self._ask("inq_att", owner, number, *name.grown(att.name_len), *values.grown(att.values_len), c.byref(att))
        return Attribute(name.text(), TYPES[att.type][0], values.taken())

    def _variable(self, number: int) -> Variable:
        if number not in self._variables:
            var, name, ids = lib.Var(), Room(), (c.c_uint32 * lib.MOST_DIMS)()
            while name.is_short(var.name_len):
                self._ask("inq_var", number, *name.grown(var.name_len), ids, lib.MOST_DIMS, c.byref(var))
            dimensions = tuple(self._dimension(i) for i in ids[:var.dims])
            self._variables[number] = Variable(self, number, name.text(), TYPES[var.type][0], dimensions, self._attributes(number, var.attrs),
                                               int(var.begin), int(var.slab), int(var.vsize), bool(var.is_record))
        return self._variables[number]


class Room:
    """An array into which the library copies bytes, which has room for most; where it has not, it is made larger and the library asked again."""

    def __init__(self) -> None:
        self.array: Any = None
        self.length = 0

    def is_short(self, length: int) -> bool:
        """Whether the array has no room for so many bytes, or was not filled yet."""
        self.length = length
        return self.array is None or len(self.array) < length

    def grown(self, length: int) -> tuple[Any, int]:
        """The array, with room for so many bytes, and its length."""
        self.array = c.create_string_buffer(max(256, length))
        return self.array, len(self.array)

    def taken(self) -> bytes:
        return bytes(self.array.raw[:self.length])

    def text(self) -> str:
        return self.taken().decode("utf-8", "replace")


def _region_of(number: int, *lists: Sequence[int]) -> lib.Region:
    """A region for C. RegionError: a number is below 0 or needs more than 64 bits."""
    if not 0 <= number < 2**64:
        raise RegionError(lib.ENOTVAR)
    if not all(0 <= item < 2**64 for items in lists for item in items):
        raise RegionError(lib.EINVALCOORDS)
    arrays = [lib.array(list(items)) for items in lists]
    fields = [field for items, numbers in zip(arrays, lists) for field in (c.cast(items, lib.Numbers), len(numbers))]
    region = lib.Region(number, *fields)
    region.kept = arrays
    return region
