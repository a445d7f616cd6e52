"""Values as the bytes that stand for them in a file, and back."""
from __future__ import annotations

import ctypes as c
import operator
from typing import Any, Iterable, Union

from . import library as lib
from .faults import RangeError, refused
from .types import SIZES, number_of

Number = Union[int, float]
FLOATS: dict[str, Any] = {"float": c.c_float, "double": c.c_double}
INTS: dict[str, Any] = {"int64": c.c_int64, "uint64": c.c_uint64}


def pack(type: str, values: Union[str, Iterable[Number]]) -> bytes:
    """The bytes of values of a type, a name of CDL such as "short". Those of char are a text, of which the bytes of UTF-8 are taken.

    RangeError: one is outside the type's range, and none is packed. A float that no value of its type is goes to the nearest one. TypeError: a float is given for
    a type of whole numbers.
    """
    number_of(type)
    if isinstance(values, str) or type == "char":
        return _text(type, values)
    if type in FLOATS:
        return _packed(type, FLOATS[type], list(map(float, values)), type)
    whole = [_whole(value) for value in values]
    if all(-2**63 <= value < 2**63 for value in whole):
        return _packed("int64", c.c_int64, whole, type)
    if all(0 <= value < 2**64 for value in whole):
        return _packed("uint64", c.c_uint64, whole, type)
    raise RangeError(_first_outside(type, whole))


def unpack(type: str, data: bytes) -> Union[str, tuple[int, ...], tuple[float, ...]]:
    """The values that bytes of a type stand for; of char a text, in which bytes that are no UTF-8 are replaced.

    ValueError: they are not the bytes of whole values.
    """
    number, count = number_of(type), len(data) // SIZES[type]
    if type == "char":
        return data.decode("utf-8", "replace")
    kind = type if type in FLOATS else "uint64" if type == "uint64" else "int64"
    into = ({**FLOATS, **INTS}[kind] * (count + 1))()
    arguments = [data, len(data), into, count]
    _asked(f"unpack_{kind}", *(arguments if kind in FLOATS else [number, *arguments]), ranged=kind in INTS)
    return tuple(into[:count])


def _whole(value: Any) -> int:
    return operator.index(value)


def _text(type: str, values: Any) -> bytes:
    if type != "char" or not isinstance(values, str):
        raise TypeError("a text is of type char, and a char is one of a text")
    return values.encode("utf-8")


def _packed(kind: str, item: Any, values: list[Any], type: str) -> bytes:
    """The bytes by the function pack_KIND, of an array of so many items."""
    data = c.create_string_buffer(len(values) * SIZES[type] + 1)
    arguments = [(item * (len(values) + 1))(*values), len(values), data, len(values) * SIZES[type]]
    _asked(f"pack_{kind}", *(arguments if kind in FLOATS else [number_of(type), *arguments]), ranged=kind in INTS)
    return data.raw[:-1]


def _asked(name: str, *arguments: Any, ranged: bool) -> None:
    """Calls a function, which tells the first value outside the range where it looks at ranges."""
    outside = c.c_uint64()
    code = int(getattr(lib.library(), f"ncv_{name}")(*arguments, *([c.byref(outside)] if ranged else [])))
    if code == lib.ERANGE:
        raise RangeError(outside.value)
    if code == lib.ARGUMENT:
        raise ValueError("these are not the bytes of whole values")
    if code != lib.OK:
        raise refused(code)


def _first_outside(type: str, whole: list[int]) -> int:
    """The number of the first value that is refused, of some that no array of C holds together."""
    for number, value in enumerate(whole):
        if not -2**63 <= value < 2**64:
            return number
        try:
            pack(type, [value])
        except RangeError:
            return number
    raise AssertionError("a type of the format holds numbers of 64 bits at most")
