"""A header that is made of definitions."""
from __future__ import annotations

import ctypes as c
from dataclasses import dataclass, field
from typing import Any, Iterable, Mapping, Optional, Sequence, SupportsIndex, Union

from . import library as lib
from .faults import DefinitionError
from .types import number_of
from .values import Number, pack

Values = Union[str, Number, Iterable[Number]]

ROOM = 2**16               # bytes of a header that are asked for at first
NO_DIMENSION = 2**32 - 1   # no dimension has this number


@dataclass(frozen=True)
class NewAttribute:
    """An attribute: its values as they stand in the file."""
    name: str
    type: str
    data: bytes


@dataclass(frozen=True)
class NewVariable:
    name: str
    type: str
    dimensions: tuple[str, ...]
    attributes: tuple[NewAttribute, ...]


@dataclass
class NewHeader:
    """Definitions, from which a header is made.

        h = NewHeader(version=2)
        h.dimension("time", None)
        h.dimension("x", 4)
        h.variable("t", "float", ["time", "x"], {"units": "K"})
        h.encode()

    Nothing is refused before `encode`, which tells the first definition that is.
    """
    version: int = 5
    _dimensions: list[tuple[str, int]] = field(default_factory=list)
    _attributes: list[NewAttribute] = field(default_factory=list)
    _variables: list[NewVariable] = field(default_factory=list)

    def dimension(self, name: str, length: Optional[int]) -> None:
        """Defines a dimension; that of the records has the length None."""
        self._dimensions.append((name, 0 if length is None else length))

    def attribute(self, name: str, values: Values, type: Optional[str] = None) -> None:
        """Defines an attribute of the dataset: a text, a number or numbers. Without a type whole numbers are ints, and others doubles."""
        self._attributes.append(_attribute(name, values, type))

    def variable(self, name: str, type: str, dimensions: Sequence[str] = (), attributes: Optional[Mapping[str, Values]] = None) -> None:
        """Defines a variable over dimensions, the slowest first, with its attributes."""
        number_of(type)
        own = tuple(_attribute(key, values, None) for key, values in (attributes or {}).items())
        self._variables.append(NewVariable(name, type, tuple(dimensions), own))

    def encode(self, *, records: int = 0, header_align: int = 4, var_align: int = 4) -> bytes:
        """The bytes of the header of a file of so many records. The first variable begins at a multiple of `header_align`, and each at one of `var_align`; variables
        within a record follow one another at multiples of 4.

        DefinitionError: a definition is refused, or the whole; ValueError: another number is outside its limits.
        """
        definition = self._for_c(records, header_align, var_align)
        length, told, room = c.c_uint64(), lib.Refused(), ROOM
        while True:
            into = c.create_string_buffer(room)
            code = int(lib.library().ncv_header_make(c.byref(definition), into, room, c.byref(length), c.byref(told)))
            if code != lib.ROOM:
                break
            room = length.value
        if code == lib.OK:
            return into.raw[:length.value]
        if code == lib.MEMORY:
            raise MemoryError
        if code == lib.ARGUMENT:
            raise ValueError("the version, or an alignment, is outside its limits")
        raise DefinitionError(code, told)

    # ---- the definitions for C

    def _for_c(self, *numbers: int) -> lib.HeaderDef:
        if not all(0 <= number < 2**64 for number in (*numbers, *(length for _, length in self._dimensions))) or not 0 <= self.version < 2**32:
            raise ValueError("a number is below 0, or has more than 64 bits")
        dims = [lib.DimDef(*_bytes(name), length) for name, length in self._dimensions]
        variables = [self._variable_for_c(variable) for variable in self._variables]
        return lib.HeaderDef(*_array(lib.DimDef, dims), *_attributes_for_c(self._attributes), *_array(lib.VarDef, variables), *numbers, self.version)

    def _variable_for_c(self, variable: NewVariable) -> lib.VarDef:
        numbers = {name: number for number, (name, _) in reversed(list(enumerate(self._dimensions)))}
        ids = [numbers.get(name, NO_DIMENSION) for name in variable.dimensions]
        return lib.VarDef(*_bytes(variable.name), *_array(c.c_uint32, ids), *_attributes_for_c(variable.attributes), number_of(variable.type))


def _attribute(name: str, values: Values, type: Optional[str]) -> NewAttribute:
    if isinstance(values, str):
        return NewAttribute(name, "char", pack(type or "char", values))
    numbers: list[Any] = list(values) if isinstance(values, Iterable) else [values]
    type = type or ("int" if all(isinstance(number, SupportsIndex) for number in numbers) else "double")
    return NewAttribute(name, type, pack(type, numbers))


def _bytes(text: Union[str, bytes]) -> tuple[bytes, int]:
    data = text.encode("utf-8") if isinstance(text, str) else text
    return data, len(data)


def _array(item: Any, items: Sequence[Any]) -> tuple[Any, int]:
    """The items for C, and how many they are. One more stands behind them, so that the pointer is never null."""
    return (item * (len(items) + 1))(*items), len(items)


def _attributes_for_c(attributes: Sequence[NewAttribute]) -> tuple[Any, int]:
    return _array(lib.AttDef, [lib.AttDef(*_bytes(it.name), *_bytes(it.data), number_of(it.type)) for it in attributes])
