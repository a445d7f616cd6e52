"""Scripts for ncrun from Python: calls with PnetCDF's names, and answers as Python values.

One file without dependencies, for Python 3.9 and later; numpy is used where a value is a numpy array. It stands beside the proved
program and is itself unproved.

    from ncrun import Script

    s = Script(version=1, ranks=2)
    s.def_dims(x=4)
    s.def_var("v", "float", ["x"])
    s.every().put_vara_all("v", lambda rank: [2 * rank], [2], lambda rank: [rank + 0.5, rank + 0.75])
    got = s.every().get_vara_all("v", [1], [2])
    run = s.run("d.nc")
    print(run[got[0]].values)

What a call needs in order to be written (names, the type and number of its values, the lengths of its lists) is checked when it is
made, and raised as ScriptError. What ncrun refuses is raised by `run` as Refused, with the line of Python that made the line of the
script. What becomes of each call is told in its Answer.
"""
from __future__ import annotations

import itertools
import math
import operator
import os
import re
import struct
import subprocess
import sys
from collections.abc import Iterable as AnyIterable
from typing import (Any, Callable, Dict, Generic, Iterable, Iterator, List, Mapping, NamedTuple, Optional, Sequence, Tuple, TypeVar,
                    Union, overload)

__all__ = ["Script", "Rank", "Group", "Call", "Request", "Variable", "Dimension", "Run", "Answer", "Overlap", "Step", "Offsets",
           "Place", "Bits", "NcrunError", "ScriptError", "Refused", "CallRefused", "offsets", "UNLIMITED", "GLOBAL"]

UNLIMITED = None            # the length of the record dimension
GLOBAL = None               # the owner of the dataset's own attributes

T = TypeVar("T")
C = TypeVar("C", covariant=True)
R = TypeVar("R", covariant=True)
Sizes = Union[int, Sequence[int], Any]                  # a list of sizes; of one size the number alone, or a numpy array
By = Union[T, Callable[[int], T]]                       # one for all ranks, or a function of the rank
Var = By[Union[str, "Variable"]]
Index = By[Sizes]
Lists = By[Optional[Sequence[Sizes]]]
Values = By[Any]
Requests = Union[None, "Request", Sequence[Any]]         # all that are pending, one, or a list of them
Path = Union[str, "os.PathLike[str]"]
Shape = Tuple[int, ...]


# ---- errors

class Place(NamedTuple):
    """A line of Python."""

    file: str
    line: int

    def __str__(self) -> str:
        return f"{self.file}, line {self.line}"


class NcrunError(Exception):
    """What this module raises."""


class ScriptError(NcrunError, ValueError):
    """A call that can't be written as a line of a script. It is raised by the call itself."""


class Refused(NcrunError):
    """ncrun ended with a status that is not 0.

    status: 2 to 8, or a negative number where a signal ended it. line: what ncrun printed. explained: what stood on standard error.
    script_line: the line of the script that has the fault, counted from 1. places: the lines of Python that made it; of ranks that
    differ, the call of the one and the call of the other."""

    def __init__(self, status: int, line: str, explained: str, script_line: Optional[int], made: Sequence[Tuple[str, Place]]) -> None:
        self.status, self.line, self.explained, self.script_line = status, line, explained, script_line
        self.places: List[Place] = [place for _, place in made]
        told = line or f"ncrun ended with status {status} ({STATUSES.get(status, 'a signal' if status < 0 else 'unknown')})"
        lines = [f"`{shortened(text)}`: {place}" for text, place in made]
        super().__init__("\n  ".join([told, *lines, *explained.splitlines()]))


class CallRefused(NcrunError):
    """A call that was refused, under run(check=True)."""

    def __init__(self, answer: Answer) -> None:
        self.answer = answer
        self.place: Place = answer.call.place
        super().__init__(f"{answer}\n  {answer.call.place}")


STATUSES = {2: "the words of the command are of no form", 3: "the script has a fault", 4: "the dataset has a fault",
            5: "its input could not be read", 6: "its output could not be written", 7: "the dataset's file failed", 8: "want of memory"}


def shortened(text: str) -> str:
    return text if len(text) <= 100 else text[:97] + "..."


def caller() -> Place:
    """The first line outside this module."""
    frame = sys._getframe(1)
    while frame.f_back is not None and frame.f_globals is globals():
        frame = frame.f_back
    return Place(frame.f_code.co_filename, frame.f_lineno)


# ---- types and values

CODES = {"byte": "b", "char": "c", "short": "h", "int": "i", "float": "f", "double": "d",
         "ubyte": "B", "ushort": "H", "uint": "I", "int64": "q", "uint64": "Q"}           # of struct
DTYPES = {"byte": "i1", "char": "S1", "short": "i2", "int": "i4", "float": "f4", "double": "f8",
          "ubyte": "u1", "ushort": "u2", "uint": "u4", "int64": "i8", "uint64": "u8"}     # of numpy and netCDF4-python
OTHER_NAMES = {**{code: name for name, code in DTYPES.items()}, "s1": "char", "c": "char", "text": "char", "uchar": "ubyte"}
PYTHON_TYPES = {int: "int", float: "double", str: "char", bytes: "char"}
LATER = ("ubyte", "ushort", "uint", "int64", "uint64")                                    # the types that CDF-5 adds
FLOATS = {"float": 4, "double": 8}                                                        # and their bytes
MOST_ELEMENTS, MOST_VALUES, MOST_BYTES, MOST_PARTS = 2 ** 20, 2 ** 24, 2 ** 26, 1024      # of a call, a script, a script, a varn
NAME = re.compile(r"[A-Za-z0-9_][A-Za-z0-9_.@+-]{0,255}")
ESCAPED = [{34: '\\"', 92: "\\\\", 10: "\\n", 9: "\\t"}.get(byte, chr(byte) if 32 <= byte < 127 else f"\\x{byte:02X}") for byte in range(256)]
ESCAPE = re.compile(rb'\\(x[0-9A-Fa-f]{2}|["\\nt])')
UNESCAPED = {b'"': b'"', b"\\": b"\\", b"n": b"\n", b"t": b"\t"}


class Bits(int):
    """The pattern of a float or double itself: Bits(0x7FA00001) is a signalling NaN of a float variable, which a Python float can't give."""


class Encoded(NamedTuple):
    """Values as words of a script."""

    number: int
    shape: Shape
    words: str


def numpy_loaded() -> Any:
    """numpy, where something has loaded it: else no value is an array."""
    return sys.modules.get("numpy")


def as_array(values: object) -> Any:
    """The values as a numpy array, where they are one or can give one."""
    numpy = numpy_loaded()
    if numpy is None or isinstance(values, (str, bytes, int, float)) or not hasattr(values, "__array__"):
        return None
    array = numpy.ma.asanyarray(values) if isinstance(values, numpy.ma.MaskedArray) else numpy.asarray(values)
    if numpy.ma.is_masked(array):
        raise ScriptError("some of the values are masked: give `values.filled(..)`")
    return numpy.asarray(array)


def is_sequence(value: object) -> bool:
    return isinstance(value, AnyIterable) and not isinstance(value, (str, bytes, bytearray, memoryview))


def flattened(values: object) -> Tuple[List[Any], Shape]:
    """The values one after another, the last index fastest, and the shape of the lists that hold them."""
    if not is_sequence(values):
        return [values], ()
    level: List[Any] = list(values)                      # type: ignore[call-overload]
    shape = [len(level)]
    while level and is_sequence(level[0]):
        if not all(map(is_sequence, level)):
            raise ScriptError("lists and single values are mixed")
        rows = [list(row) for row in level]
        if any(len(row) != len(rows[0]) for row in rows):
            raise ScriptError("the rows have different lengths")
        shape.append(len(rows[0]))
        level = list(itertools.chain.from_iterable(rows))
    return level, tuple(shape)


def type_name(given: Any) -> str:
    """The name of a type: `float`, `NC_FLOAT`, `f4`, numpy.float32 or a dtype."""
    if isinstance(given, str):
        word = given.lower()
        word = (word[3:] if word.startswith("nc_") else word).lstrip("<>=|")
    elif given in PYTHON_TYPES:
        word = PYTHON_TYPES[given]
    else:
        numpy = numpy_loaded()
        word = "" if numpy is None or given is None else numpy.dtype(given).str[1:].lower()
    word = OTHER_NAMES.get(word, word)
    if word not in CODES:
        raise ScriptError(f"{given!r} is no type: there are {', '.join(CODES)}")
    return word


def range_of(kind: str) -> Tuple[int, int]:
    """The least and the greatest whole number of a type."""
    bits = 8 * struct.calcsize(">" + CODES[kind])
    return (0, 2 ** bits - 1) if CODES[kind].isupper() else (-2 ** (bits - 1), 2 ** (bits - 1) - 1)


def step_of(numbers: List[int]) -> Optional[int]:
    """The step of numbers that go by equal steps."""
    if len(numbers) < 3:
        return None
    first, step = numbers[0], numbers[1] - numbers[0]
    if numbers[-1] != first + step * (len(numbers) - 1):
        return None
    is_even = numbers.count(first) == len(numbers) if step == 0 else numbers == list(range(first, first + step * len(numbers), step))
    return step if is_even else None


def number_words(numbers: List[int]) -> str:
    words, step = " ".join(map(str, numbers)), step_of(numbers)
    run = words if step is None else f"seq {len(numbers)} {numbers[0]} {step}"
    return run if len(run) < len(words) else words


def bit_words(data: bytes, size: int) -> str:
    """Patterns of so many bytes each, the high byte first."""
    if not data:
        return ""
    words = "x" + data.hex(" ", size).upper().replace(" ", " x")
    patterns = list(struct.unpack(f">{len(data) // size}{'I' if size == 4 else 'Q'}", data))
    step = step_of(patterns)
    run = words if step is None or step < 0 else f"seqx {len(patterns)} {words[:2 * size + 1]} x{step:X}"
    return run if len(run) < len(words) else words


def quoted(data: bytes) -> str:
    return '"' + "".join(map(ESCAPED.__getitem__, data)) + '"'


def whole_numbers(kind: str, values: object) -> Tuple[List[int], Shape]:
    array = as_array(values)
    if array is not None:
        if array.dtype.kind not in "iub":
            raise ScriptError(f"values of {array.dtype} are given, and the type is {kind}")
        numbers, shape = array.astype("i1").ravel().tolist() if array.dtype.kind == "b" else array.ravel().tolist(), array.shape
    else:
        given, shape = flattened(values)
        try:
            numbers = given if set(map(type, given)) <= {int} else [int(operator.index(it)) for it in given]
        except TypeError:
            wrong = next(it for it in given if not hasattr(it, "__index__"))
            raise ScriptError(f"{wrong!r} is no whole number, and the type is {kind}") from None
    low, high = range_of(kind)
    if numbers and not (low <= min(numbers) and max(numbers) <= high):
        wrong = next(it for it in numbers if not low <= it <= high)
        raise ScriptError(f"{wrong} does not fit {kind}, which goes from {low} to {high}")
    return numbers, shape


def bytes_of_float(kind: str, value: Any) -> bytes:
    """One value as its pattern."""
    if isinstance(value, Bits):
        if not 0 <= value < 256 ** FLOATS[kind]:
            raise ScriptError(f"Bits(0x{int(value):X}) is no pattern of a {kind}")
        return int(value).to_bytes(FLOATS[kind], "big")
    try:
        return struct.pack(">" + CODES[kind], value)
    except (OverflowError, struct.error, TypeError):
        told = f"does not fit {kind}" if isinstance(value, (int, float)) else f"is no number, and the type is {kind}"
        raise ScriptError(f"{shortened(repr(value))} {told}") from None


def array_of_floats(kind: str, array: Any) -> bytes:
    if array.dtype.kind not in "iuf":
        raise ScriptError(f"values of {array.dtype} are given, and the type is {kind}")
    numpy = numpy_loaded()
    with numpy.errstate(all="ignore"):
        made = array.astype(">" + DTYPES[kind])
        lost = numpy.isinf(made) & numpy.isfinite(array)
    if lost.any():
        raise ScriptError(f"{array[lost].ravel()[0]!r} does not fit {kind}")
    data: bytes = made.tobytes()
    return data


def float_bytes(kind: str, values: object) -> Tuple[bytes, Shape]:
    """The patterns, the high byte first. A double becomes the nearest float, as by a C cast."""
    array = as_array(values)
    if array is not None:
        return array_of_floats(kind, array), array.shape
    given, shape = flattened(values)
    if not any(isinstance(it, Bits) for it in given):
        try:
            return struct.pack(f">{len(given)}{CODES[kind]}", *given), shape
        except (OverflowError, struct.error, TypeError):
            pass                                         # one by one, so that the wrong one is told
    return b"".join(bytes_of_float(kind, it) for it in given), shape


def char_bytes(values: object) -> Tuple[bytes, Shape]:
    """The bytes of a text, or of texts of one length. What is str is taken as UTF-8."""
    if isinstance(values, str):
        values = values.encode()
    if isinstance(values, (bytes, bytearray, memoryview)):
        return bytes(values), (len(bytes(values)),)
    array = as_array(values)
    if array is not None:
        if array.dtype.kind not in "SU":
            raise ScriptError(f"values of {array.dtype} are given, and the type is char")
        array = numpy_loaded().char.encode(array, "utf-8") if array.dtype.kind == "U" else array
        return array.tobytes(), array.shape + ((array.itemsize,) if array.itemsize > 1 else ())
    given, shape = flattened(values)
    if not all(isinstance(it, (str, bytes)) for it in given):
        raise ScriptError("the type is char: a str, bytes, or a list of them is wanted")
    texts = [it.encode() if isinstance(it, str) else it for it in given]
    if len(set(map(len, texts))) > 1:
        raise ScriptError("the texts have different lengths: pad them, as by `text.ljust(8)`")
    return b"".join(texts), shape + ((len(texts[0]),) if texts and len(texts[0]) > 1 else ())


def encoded(kind: str, values: object) -> Encoded:
    if kind == "char":
        data, shape = char_bytes(values)
        return Encoded(len(data), shape, quoted(data) if data else "")
    if kind in FLOATS:
        data, shape = float_bytes(kind, values)
        return Encoded(len(data) // FLOATS[kind], shape, bit_words(data, FLOATS[kind]))
    numbers, shape = whole_numbers(kind, values)
    return Encoded(len(numbers), shape, number_words(numbers))


def decoded(kind: str, words: str) -> Tuple[Union[List[int], List[float], bytes], bytes]:
    """The values that the words tell, and of floats and texts their bytes."""
    if kind == "char":
        text = words.encode("utf-8", "surrogateescape")[1:-1]
        data = ESCAPE.sub(lambda it: UNESCAPED.get(it[1]) or bytes.fromhex(it[1][1:].decode()), text)
        return data, data
    if kind in FLOATS:
        data = bytes.fromhex(words.replace("x", ""))
        return list(struct.unpack(f">{len(data) // FLOATS[kind]}{CODES[kind]}", data)), data
    return list(map(int, words.split())), b""


def attribute_type(name: str, value: object, version: int) -> str:
    """The type of an attribute that is given none: that of its Python value."""
    array = as_array(value)
    if array is not None:
        return "char" if array.dtype.kind in "SU" else type_name(array.dtype)
    given, _ = flattened(value)
    if given and all(isinstance(it, (str, bytes)) for it in given):
        return "char"
    if any(isinstance(it, float) for it in given):
        return "double"
    low, high = range_of("int")
    is_wide = any(isinstance(it, int) and not low <= it <= high for it in given)
    if is_wide and version in (1, 2):
        raise ScriptError(f"the attribute {name} has a number that does not fit int: give a type, or version=5")
    return "int64" if is_wide else "int"


# ---- definitions

class Dimension(NamedTuple):
    """A dimension. Of the record dimension the length is the record count, where it is known."""

    name: str
    length: int
    is_unlimited: bool


class Variable:
    """A variable of a script. Where a dataset was listed it has begin, end and size too."""

    def __init__(self, name: str, kind: str, dims: Tuple[Dimension, ...], script: Optional[Script] = None) -> None:
        self.name, self.type, self.dims, self.script = name, kind, dims, script

    @property
    def shape(self) -> Shape:
        return tuple(dim.length for dim in self.dims)

    @property
    def is_record(self) -> bool:
        return bool(self.dims) and self.dims[0].is_unlimited

    def put_att(self, name: str, value: object, type: Any = None) -> None:
        """Gives the variable an attribute. `_FillValue` is of the variable's type, where no other is given."""
        if self.script is None:
            raise ScriptError(f"{self.name} belongs to no script")
        self.script.put_att(name, value, self.type if type is None and name == "_FillValue" else type, self)

    def __repr__(self) -> str:
        return f"{self.type} {self.name}({', '.join(dim.name for dim in self.dims)})"


class Placed(Variable):
    """A variable and where it lies in the file. Of a record variable begin and size are those of its first record."""

    def __init__(self, name: str, kind: str, dims: Tuple[Dimension, ...], begin: int, end: int, size: int) -> None:
        super().__init__(name, kind, dims)
        self.begin, self.end, self.size = begin, end, size


class Region(NamedTuple):
    words: str
    need: Optional[int]                                  # how many elements it has, or how many values of memory it reaches
    shape: Optional[Shape]                               # of what a get gives


class Calls(Generic[C, R]):
    """PnetCDF's calls without their prefix ncmpi_, by one rank or by several.

    Each list and each value is one for all ranks, or a function of the rank's number. Where a put has no count it is the shape of the
    values. One single value stands for as many as are wanted."""

    def _data(self, word: str, var: Var, region: Tuple[Any, ...], values: object = None) -> C:
        raise NotImplementedError

    def _post(self, word: str, var: Var, region: Tuple[Any, ...], values: object = None) -> R:
        raise NotImplementedError

    def _plain(self, word: str, *given: Any) -> C:
        raise NotImplementedError

    # independent and collective puts

    def put_var1(self, var: Var, index: Index, value: Values) -> C:
        return self._data("put_var1", var, (index,), value)

    def put_var(self, var: Var, values: Values) -> C:
        return self._data("put_var", var, (), values)

    def put_vara(self, var: Var, start: Index, count: Index = None, values: Values = ()) -> C:
        return self._data("put_vara", var, (start, count), values)

    def put_vars(self, var: Var, start: Index, count: Index = None, stride: Index = None, values: Values = ()) -> C:
        return self._data("put_vars", var, (start, count, stride), values)

    def put_varm(self, var: Var, start: Index, count: Index, stride: Index = None, imap: Index = None, values: Values = ()) -> C:
        return self._data("put_varm", var, (start, count, stride, imap), values)

    def put_varn(self, var: Var, starts: Lists, counts: Lists = None, values: Values = ()) -> C:
        return self._data("put_varn", var, (starts, counts), values)

    def put_var1_all(self, var: Var, index: Index, value: Values) -> C:
        return self._data("put_var1_all", var, (index,), value)

    def put_var_all(self, var: Var, values: Values) -> C:
        return self._data("put_var_all", var, (), values)

    def put_vara_all(self, var: Var, start: Index, count: Index = None, values: Values = ()) -> C:
        return self._data("put_vara_all", var, (start, count), values)

    def put_vars_all(self, var: Var, start: Index, count: Index = None, stride: Index = None, values: Values = ()) -> C:
        return self._data("put_vars_all", var, (start, count, stride), values)

    def put_varm_all(self, var: Var, start: Index, count: Index, stride: Index = None, imap: Index = None, values: Values = ()) -> C:
        return self._data("put_varm_all", var, (start, count, stride, imap), values)

    def put_varn_all(self, var: Var, starts: Lists, counts: Lists = None, values: Values = ()) -> C:
        return self._data("put_varn_all", var, (starts, counts), values)

    # independent and collective gets

    def get_var1(self, var: Var, index: Index) -> C:
        return self._data("get_var1", var, (index,))

    def get_var(self, var: Var) -> C:
        return self._data("get_var", var, ())

    def get_vara(self, var: Var, start: Index, count: Index) -> C:
        return self._data("get_vara", var, (start, count))

    def get_vars(self, var: Var, start: Index, count: Index, stride: Index = None) -> C:
        return self._data("get_vars", var, (start, count, stride))

    def get_varm(self, var: Var, start: Index, count: Index, stride: Index = None, imap: Index = None) -> C:
        return self._data("get_varm", var, (start, count, stride, imap))

    def get_varn(self, var: Var, starts: Lists, counts: Lists = None) -> C:
        return self._data("get_varn", var, (starts, counts))

    def get_var1_all(self, var: Var, index: Index) -> C:
        return self._data("get_var1_all", var, (index,))

    def get_var_all(self, var: Var) -> C:
        return self._data("get_var_all", var, ())

    def get_vara_all(self, var: Var, start: Index, count: Index) -> C:
        return self._data("get_vara_all", var, (start, count))

    def get_vars_all(self, var: Var, start: Index, count: Index, stride: Index = None) -> C:
        return self._data("get_vars_all", var, (start, count, stride))

    def get_varm_all(self, var: Var, start: Index, count: Index, stride: Index = None, imap: Index = None) -> C:
        return self._data("get_varm_all", var, (start, count, stride, imap))

    def get_varn_all(self, var: Var, starts: Lists, counts: Lists = None) -> C:
        return self._data("get_varn_all", var, (starts, counts))

    # posts: what comes back is given to wait, wait_all or cancel

    def iput_var1(self, var: Var, index: Index, value: Values) -> R:
        return self._post("iput_var1", var, (index,), value)

    def iput_var(self, var: Var, values: Values) -> R:
        return self._post("iput_var", var, (), values)

    def iput_vara(self, var: Var, start: Index, count: Index = None, values: Values = ()) -> R:
        return self._post("iput_vara", var, (start, count), values)

    def iput_vars(self, var: Var, start: Index, count: Index = None, stride: Index = None, values: Values = ()) -> R:
        return self._post("iput_vars", var, (start, count, stride), values)

    def iput_varm(self, var: Var, start: Index, count: Index, stride: Index = None, imap: Index = None, values: Values = ()) -> R:
        return self._post("iput_varm", var, (start, count, stride, imap), values)

    def iput_varn(self, var: Var, starts: Lists, counts: Lists = None, values: Values = ()) -> R:
        return self._post("iput_varn", var, (starts, counts), values)

    def bput_var1(self, var: Var, index: Index, value: Values) -> R:
        return self._post("bput_var1", var, (index,), value)

    def bput_var(self, var: Var, values: Values) -> R:
        return self._post("bput_var", var, (), values)

    def bput_vara(self, var: Var, start: Index, count: Index = None, values: Values = ()) -> R:
        return self._post("bput_vara", var, (start, count), values)

    def bput_vars(self, var: Var, start: Index, count: Index = None, stride: Index = None, values: Values = ()) -> R:
        return self._post("bput_vars", var, (start, count, stride), values)

    def bput_varm(self, var: Var, start: Index, count: Index, stride: Index = None, imap: Index = None, values: Values = ()) -> R:
        return self._post("bput_varm", var, (start, count, stride, imap), values)

    def bput_varn(self, var: Var, starts: Lists, counts: Lists = None, values: Values = ()) -> R:
        return self._post("bput_varn", var, (starts, counts), values)

    def iget_var1(self, var: Var, index: Index) -> R:
        return self._post("iget_var1", var, (index,))

    def iget_var(self, var: Var) -> R:
        return self._post("iget_var", var, ())

    def iget_vara(self, var: Var, start: Index, count: Index) -> R:
        return self._post("iget_vara", var, (start, count))

    def iget_vars(self, var: Var, start: Index, count: Index, stride: Index = None) -> R:
        return self._post("iget_vars", var, (start, count, stride))

    def iget_varm(self, var: Var, start: Index, count: Index, stride: Index = None, imap: Index = None) -> R:
        return self._post("iget_varm", var, (start, count, stride, imap))

    def iget_varn(self, var: Var, starts: Lists, counts: Lists = None) -> R:
        return self._post("iget_varn", var, (starts, counts))

    # the other calls

    def wait(self, requests: By[Requests] = None) -> C:
        """A request or a list of them; without an argument all that are pending, as with NC_REQ_ALL. Of several ranks each waits for its own."""
        return self._plain("wait", requests)

    def wait_all(self, requests: By[Requests] = None) -> C:
        """The same, by all ranks together."""
        return self._plain("wait_all", requests)

    def cancel(self, requests: By[Requests] = None) -> C:
        return self._plain("cancel", requests)

    def buffer_attach(self, size: By[int]) -> C:
        return self._plain("buffer_attach", size)

    def buffer_detach(self) -> C:
        return self._plain("buffer_detach")

    def begin_indep_data(self) -> C:
        return self._plain("begin_indep_data")

    def end_indep_data(self) -> C:
        return self._plain("end_indep_data")

    def sync_numrecs(self) -> C:
        return self._plain("sync_numrecs")

    def inq_dimlen(self, dim: By[Union[str, Dimension]]) -> C:
        return self._plain("inq_dimlen", dim)

    def fill_var_rec(self, var: Var, record: By[int]) -> C:
        return self._plain("fill_var_rec", var, record)


# ---- calls as they are recorded

WAITS = ("wait", "wait_all", "cancel")
KINDS = {"begin_indep_data": "begin", "end_indep_data": "end", "sync_numrecs": "sync", "fill_var_rec": "put", "wait_all": "wait"}


class Call:
    """A call of a rank: its number among the rank's calls and, where it is collective, among the rank's collective calls."""

    id: Optional[int] = None                             # a request has one

    def __init__(self, rank: Rank, word: str, brief: str, var: Optional[Variable], shape: Optional[Shape]) -> None:
        self.rank, self.number, self.word, self.brief = rank.number, len(rank.calls), word, brief
        self.var, self.shape = var, shape
        self.place: Place = caller()
        self.kind: Optional[str] = KINDS.get(word) or (word[:3] if word.endswith("_all") else None)
        self.meeting: Optional[int] = None if self.kind is None else len(rank.meetings)

    def __repr__(self) -> str:
        return f"rank {self.rank} {self.brief}"


class Request(Call):
    """A posted call, to be given to wait, wait_all or cancel."""

    def __init__(self, rank: Rank, word: str, brief: str, var: Optional[Variable], shape: Optional[Shape], id: int) -> None:
        super().__init__(rank, word, brief, var, shape)
        self.id = id


def requests_in(given: Any) -> List[Request]:
    """The requests of a list, or of lists of them."""
    if isinstance(given, Request):
        return [given]
    if not is_sequence(given):
        raise ScriptError(f"{given!r} is no request")
    return [request for part in given for request in requests_in(part)]


def listed(sizes: Sequence[int]) -> str:
    return "[" + ",".join(map(str, sizes)) + "]"


def product(sizes: Sequence[int]) -> int:
    return math.prod(sizes)


def size_of(value: Any, what: str) -> int:
    try:
        size = int(operator.index(value))
    except TypeError:
        raise ScriptError(f"{what} has {value!r}, which is no whole number") from None
    if not 0 <= size < 2 ** 63:
        raise ScriptError(f"{what} has {size}: a size is at least 0, and below 2^63")
    return size


def sizes_of(given: Any, var: Variable, what: str) -> List[int]:
    """One size for each dimension of the variable. Of one dimension the number alone will do."""
    values = [given] if hasattr(given, "__index__") and not getattr(given, "shape", ()) else list(given)
    sizes = [size_of(it, what) for it in values]
    if len(sizes) != len(var.dims):
        raise ScriptError(f"{what} {listed(sizes)} has {len(sizes)} numbers, and {var!r} has {len(var.dims)} dimensions")
    return sizes


def count_of(given: Any, var: Variable, values: Optional[Encoded]) -> List[int]:
    """The count, or the shape of the values, with ones in front for the dimensions that it lacks."""
    if given is not None:
        return sizes_of(given, var, "count")
    if values is None:
        raise ScriptError("a get wants a count")
    shape = list(values.shape)
    while len(shape) > len(var.dims) and shape[0] == 1:
        del shape[0]
    if len(shape) > len(var.dims):
        raise ScriptError(f"values of shape {values.shape} are given, and {var!r} has {len(var.dims)} dimensions")
    return [1] * (len(var.dims) - len(shape)) + shape


def whole_region(var: Variable, values: Optional[Encoded]) -> Region:
    return Region("", None, None) if var.is_record else Region("", product(var.shape), var.shape)


def one_element(var: Variable, values: Optional[Encoded], index: Any) -> Region:
    return Region(" " + listed(sizes_of(index, var, "index")), 1, ())


def box(var: Variable, values: Optional[Encoded], start: Any, count: Any) -> Region:
    sizes = count_of(count, var, values)
    return Region(f" {listed(sizes_of(start, var, 'start'))} {listed(sizes)}", product(sizes), tuple(sizes))


def strided(var: Variable, values: Optional[Encoded], start: Any, count: Any, stride: Any) -> Region:
    words, need, shape = box(var, values, start, count)
    steps = [1] * len(var.dims) if stride is None else sizes_of(stride, var, "stride")
    return Region(f"{words} {listed(steps)}", need, shape)


def mapped(var: Variable, values: Optional[Encoded], start: Any, count: Any, stride: Any, imap: Any) -> Region:
    words, need, shape = strided(var, values, start, count, stride)
    sizes = count_of(count, var, values)
    if imap is None:
        return Region(f"{words} {listed([product(sizes[d + 1:]) for d in range(len(sizes))])}", need, shape)
    steps = sizes_of(imap, var, "imap")
    reached = 1 + sum((size - 1) * step for size, step in zip(sizes, steps)) if need else 0
    return Region(f"{words} {listed(steps)}", reached, None)


def boxes(var: Variable, values: Optional[Encoded], starts: Any, counts: Any) -> Region:
    """The regions of a varn. A call without one is written as a box without an element."""
    firsts = [sizes_of(it, var, "start") for it in starts]
    sizes = [[1] * len(var.dims)] * len(firsts) if counts is None else [sizes_of(it, var, "count") for it in counts]
    if len(firsts) != len(sizes):
        raise ScriptError(f"{len(firsts)} starts and {len(sizes)} counts are given")
    if len(firsts) > MOST_PARTS:
        raise ScriptError(f"a varn has at most {MOST_PARTS} regions, and {len(firsts)} are given: split it")
    if not firsts:
        if not var.dims:
            raise ScriptError(f"{var.name} is a scalar: no region of it is without an element")
        firsts = sizes = [[0] * len(var.dims)]
    parts = " ".join(f"{listed(start)} {listed(count)}" for start, count in zip(firsts, sizes))
    need = sum(map(product, sizes))
    return Region(f" {len(firsts)} {parts}", need, (need,))


REGIONS: Dict[str, Callable[..., Region]] = {"var": whole_region, "var1": one_element, "vara": box, "vars": strided, "varm": mapped, "varn": boxes}


class Rank(Calls[Call, Request]):
    """A rank of a script. Its calls are done in the order in which they are made."""

    def __init__(self, script: Script, number: int) -> None:
        self.script, self.number = script, number
        self.calls: List[Call] = []
        self.meetings: List[Call] = []                   # the collective ones
        self.requests: Dict[int, Request] = {}

    def mine(self, given: Any) -> Any:
        """What is given for this rank."""
        return given(self.number) if callable(given) else given

    def line_of(self, word: str, var: Any, given: Tuple[Any, ...], values: Any, id: str) -> Tuple[str, str, Variable, Region]:
        """The words of a call, without and with its values."""
        variable = self.script.variable(self.mine(var))
        form, own = word.split("_")[1], self.mine(values)
        made = encoded(variable.type, own) if "put" in word else None
        region = REGIONS[form](variable, made, *map(self.mine, given))
        if made is not None and made.shape == () and region.need is not None and region.need > 1 and variable.type != "char":
            made = encoded(variable.type, [own] * self.script.counted(region.need))
        brief = f"{word}{id} {variable.name}{region.words}"
        if made is None:
            return brief, brief, variable, region
        if region.need is not None and (made.number < region.need or form != "varm" and made.number > region.need):
            raise ScriptError(f"{brief} wants {region.need} values, and {made.number} are given")
        self.script.count_values(made.number)
        return brief, f"{brief} {made.words}".rstrip(), variable, region

    def _data(self, word: str, var: Any, region: Tuple[Any, ...], values: object = None) -> Call:
        brief, line, variable, found = self.line_of(word, var, region, values, "")
        return self.add(Call(self, word, brief, variable, found.shape), line)

    def _post(self, word: str, var: Any, region: Tuple[Any, ...], values: object = None) -> Request:
        id = len(self.requests) + 1                      # from 1: an overlap tells 0 for a call that is no request
        brief, line, variable, found = self.line_of(word, var, region, values, f" {id}")
        request = Request(self, word, brief, variable, found.shape, id)
        self.add(request, line)
        self.requests[id] = request
        return request

    def _plain(self, word: str, *given: Any) -> Call:
        own = [self.mine(it) for it in given]
        if word in WAITS:
            words, var = self.choice(own[0]), None
        elif word == "fill_var_rec":
            var = self.script.variable(own[0])
            words = f" {var.name} {size_of(own[1], 'the record')}"
        elif word == "inq_dimlen":
            words, var = " " + self.script.dimension(own[0]).name, None
        else:
            words, var = "".join(f" {size_of(it, word)}" for it in own), None
        return self.add(Call(self, word, word + words, var, None), word + words)

    def choice(self, requests: Any) -> str:
        """The requests of a wait as words."""
        if requests is None:
            return " all"
        found = requests_in(requests)
        for request in found:
            if self.requests.get(request.id or 0) is not request:
                raise ScriptError(f"{request!r} was not posted by rank {self.number} of this script")
        return "".join(f" {request.id}" for request in found)

    def add(self, call: Call, line: str) -> Call:
        self.script.add_line(self.script.called, f"{self.number} {line}", call.place)
        self.script.order.append(call)
        self.calls.append(call)
        if call.kind is not None:
            self.meetings.append(call)
        return call

    def idle(self, like: Call) -> Call:
        """The same collective call without data."""
        if like.word == "fill_var_rec" or like.kind in ("begin", "end", "sync"):
            line = like.brief
        elif like.kind == "wait":
            line = "wait_all"
        else:
            var = like.var if like.var is not None and like.var.dims else self.script.with_dims()
            none = listed([0] * len(var.dims))
            line = f"{like.kind}_vara_all {var.name} {none} {none}"
            return self.add(Call(self, line.split()[0], line, var, tuple([0] * len(var.dims))), line)
        return self.add(Call(self, like.word, line, like.var, None), line)


class Group(Calls[List[Call], List[Request]]):
    """Some ranks, each of which makes the call: what comes back is a list, one for each rank."""

    def __init__(self, script: Script, ranks: Sequence[Rank]) -> None:
        self.script, self.ranks = script, list(ranks)

    def each(self, make: Callable[[Rank], T]) -> List[T]:
        """What is made of each rank. Where one can't make its call, the script stays as it was."""
        before = self.script.size()
        try:
            return [make(rank) for rank in self.ranks]
        except Exception:
            self.script.back_to(before)
            raise

    def _data(self, word: str, var: Any, region: Tuple[Any, ...], values: object = None) -> List[Call]:
        return self.each(lambda rank: rank._data(word, var, region, values))

    def _post(self, word: str, var: Any, region: Tuple[Any, ...], values: object = None) -> List[Request]:
        return self.each(lambda rank: rank._post(word, var, region, values))

    def _plain(self, word: str, *given: Any) -> List[Call]:
        if word not in WAITS or given[0] is None or callable(given[0]):
            return self.each(lambda rank: rank._plain(word, *given))
        named = requests_in(given[0])
        for request in named:
            if request.rank not in (rank.number for rank in self.ranks):
                raise ScriptError(f"{request!r} was posted by a rank that is none of these")
        return self.each(lambda rank: rank._plain(word, [it for it in named if it.rank == rank.number]))


# ---- scripts

HINTS = ("cb_nodes", "cb_buffer_size", "ind_rd_buffer_size", "ind_wr_buffer_size", "line_room", "threads", "overlap",
         "nc_header_align_size", "nc_var_align_size", "striping_unit")


class Script:
    """What ranks call on one dataset, which is created where a version is given (1, 2 or 5) and opened where not.

    Of a dataset that is opened the names must be known: `Script.open` asks ncrun for them. What is defined then is added to it."""

    def __init__(self, version: Optional[int] = None, ranks: int = 1, fill: bool = False, hint: Optional[Mapping[str, Any]] = None,
                 known: Union[None, Offsets, Script] = None) -> None:
        if version not in (None, 1, 2, 5):
            raise ScriptError(f"version {version!r} is none of 1, 2 and 5")
        if not 1 <= operator.index(ranks) <= 64:
            raise ScriptError(f"{ranks} ranks: there are 1 to 64")
        place = caller()
        self.version: int = version or (known.version if known is not None else 5)
        self.dataset: Optional[Path] = None
        self.dims: Dict[str, Dimension] = dict(known.dims) if known is not None else {}
        self.vars: Dict[str, Variable] = {}
        for name, it in known.vars.items() if known is not None else ():
            self.vars[name] = Variable(name, it.type, it.dims, self)
        self.ranks = tuple(Rank(self, number) for number in range(ranks))
        self.known_vars = len(self.vars)
        self.head = [(f"create {version}" if version else "open", place), (f"ranks {ranks}", place)] + ([("fill", place)] if fill else [])
        self.hints: List[Tuple[str, Place]] = []
        self.definitions: List[Tuple[str, Place]] = []
        self.called: List[Tuple[str, Place]] = []
        self.order: List[Call] = []                      # in which the calls were made
        self.values, self.bytes = 0, 0
        self.hint(**dict(hint or {}))

    @classmethod
    def open(cls, known: Union[Path, Offsets, Script, Run], ranks: int = 1, hint: Optional[Mapping[str, Any]] = None,
             program: str = "ncrun") -> Script:
        """A script for a dataset that is there. known: its path, which is also where the script runs; or the offsets of a run, the run,
        or the script that makes it."""
        if isinstance(known, (Offsets, Script)):
            return cls(None, ranks, False, hint, known)
        if isinstance(known, Run):
            return cls(None, ranks, False, hint, known.offsets)
        made = cls(None, ranks, False, hint, offsets(known, program))
        made.dataset = known
        return made

    # definitions

    def hint(self, **hints: Any) -> None:
        """hint(cb_nodes=4, overlap="serial", threads=False)"""
        for name, value in hints.items():
            if name not in HINTS:
                raise ScriptError(f"there is no hint {name!r}: there are {', '.join(HINTS)}")
            word = ("off", "on")[value] if isinstance(value, bool) else str(value)
            if not re.fullmatch(r"-?\w+", word):
                raise ScriptError(f"{value!r} is no value of a hint")
            self.add_line(self.hints, f"hint {name} {word}", caller())

    def def_dim(self, name: str, length: Optional[int] = UNLIMITED) -> Dimension:
        """A dimension, or the record dimension where the length is None."""
        checked_name(name)
        size = None if length is None else size_of(length, f"the length of {name}")
        self.add_line(self.definitions, f"dim {name} {'unlimited' if size is None else size}", caller())
        self.dims[name] = Dimension(name, size or 0, size is None)
        return self.dims[name]

    def def_dims(self, **lengths: Optional[int]) -> Tuple[Dimension, ...]:
        """def_dims(time=None, lat=180, lon=360)"""
        return tuple(self.def_dim(name, length) for name, length in lengths.items())

    def def_var(self, name: str, type: Any, dims: Union[str, Sequence[Union[str, Dimension]]] = (), **attributes: Any) -> Variable:
        """A variable, with attributes by name. The dimensions are names in a list, or in a text with blanks between."""
        checked_name(name)
        kind = self.checked_type(type_name(type))
        found = tuple(self.dimension(it) for it in (dims.split() if isinstance(dims, str) else dims))
        self.add_line(self.definitions, f"var {kind} {name} [{','.join(dim.name for dim in found)}]", caller())
        self.vars[name] = Variable(name, kind, found, self)
        for attribute, value in attributes.items():
            self.vars[name].put_att(attribute, value)
        return self.vars[name]

    def put_att(self, name: str, value: object, type: Any = None, var: Union[None, str, Variable] = GLOBAL) -> None:
        """An attribute of the dataset, or of a variable. Where no type is given it is that of the Python value: char, int or double."""
        checked_name(name)
        kind = self.checked_type(attribute_type(name, value, self.version) if type is None else type_name(type))
        made = encoded(kind, value)
        self.count_values(made.number)
        owner = ":" if var is None else self.variable(var).name
        words = made.words or ('""' if kind == "char" else "")
        self.add_line(self.definitions, f"att {owner} {name} {kind} {words}".rstrip(), caller())

    def checked_type(self, kind: str) -> str:
        if kind in LATER and self.version != 5:
            raise ScriptError(f"the type {kind} wants version 5, and this is version {self.version}")
        return kind

    # names

    def variable(self, given: Union[str, Variable]) -> Variable:
        name = given.name if isinstance(given, Variable) else given
        if name not in self.vars:
            raise ScriptError(f"there is no variable {name!r}: there {are(self.vars)}")
        checked_name(name)
        return self.vars[name]

    def dimension(self, given: Union[str, Dimension]) -> Dimension:
        name = given.name if isinstance(given, Dimension) else given
        if name not in self.dims:
            raise ScriptError(f"there is no dimension {name!r}: there {are(self.dims)}")
        checked_name(name)
        return self.dims[name]

    def with_dims(self) -> Variable:
        """A variable of which a region can be without an element."""
        for var in self.vars.values():
            if var.dims and NAME.fullmatch(var.name):
                return var
        raise ScriptError("every variable is a scalar: no region is without an element")

    # calls

    def rank(self, number: int) -> Rank:
        if not 0 <= number < len(self.ranks):
            raise ScriptError(f"there is no rank {number}: the script has {len(self.ranks)}")
        return self.ranks[number]

    def every(self, ranks: Optional[Iterable[int]] = None) -> Group:
        """All ranks, or those of these numbers: every().put_vara_all("v", lambda rank: [rank], [1], 7)"""
        return Group(self, self.ranks if ranks is None else [self.rank(number) for number in ranks])

    def idle(self, *ranks: int) -> List[Call]:
        """The collective calls that other ranks have made and these (or, without an argument, any) have not, without data."""
        most = max((rank.meetings for rank in self.ranks), key=len)
        behind = [self.rank(number) for number in ranks] if ranks else self.ranks
        return [rank.idle(like) for rank in behind for like in most[len(rank.meetings):]]

    def counted(self, count: int) -> int:
        if count > MOST_ELEMENTS:
            raise ScriptError(f"{count} values: a call has at most {MOST_ELEMENTS}: split it over calls or ranks")
        return count

    def count_values(self, count: int) -> None:
        values = self.values + self.counted(count)
        if values > MOST_VALUES:
            raise ScriptError(f"a script has at most {MOST_VALUES} values: split it over several")
        self.values = values

    def add_line(self, lines: List[Tuple[str, Place]], line: str, place: Place) -> None:
        size = self.bytes + len(line) + 1
        if size > MOST_BYTES - 100:                      # beside the head, `data` and `end`
            raise ScriptError(f"a script has at most {MOST_BYTES} bytes: split it over several")
        self.bytes = size
        lines.append((line, place))

    def size(self) -> Tuple[int, int, int]:
        """How far the calls have come."""
        return len(self.called), self.values, self.bytes

    def back_to(self, size: Tuple[int, int, int]) -> None:
        """Takes back the calls that came after."""
        calls, self.values, self.bytes = size
        for call in self.order[calls:]:
            rank = self.ranks[call.rank]
            rank.calls.remove(call)
            if call.kind is not None:
                rank.meetings.remove(call)
            rank.requests.pop(call.id or 0, None)
        del self.called[calls:], self.order[calls:]

    # the script

    def lines(self) -> List[Tuple[str, Place]]:
        """The lines, each with the line of Python that made it."""
        return [*self.head, *self.hints, *self.definitions, ("data", self.head[0][1]), *self.called, ("end", self.head[0][1])]

    def text(self) -> str:
        return "".join(line + "\n" for line, _ in self.lines())

    def run(self, dataset: Optional[Path] = None, program: str = "ncrun", watch: Optional[int] = None, check: bool = False) -> Run:
        """Runs the script on the dataset by ncrun. check: a call that was refused is raised.

        Raises Refused where ncrun ends with another status than 0."""
        path = self.dataset if dataset is None else dataset
        if path is None:
            raise ScriptError("a dataset is wanted")
        words = [] if watch is None else ["--watch", str(watch)]
        status, text, explained = ended([program, *words, file_word(path)], self.text())
        if status:
            raise self.refused(status, text, explained)
        run = Run(self, text, explained)
        if check:
            run.check()
        return run

    # what ncrun refuses

    def refused(self, status: int, text: str, explained: str) -> Refused:
        line, script_line = text.rstrip("\n"), None
        made: List[Tuple[str, Place]] = []
        at_line = re.match(r"ncrun: script line (\d+): ", line)
        if at_line and status == 3:
            script_line, lines = int(at_line[1]), self.lines()
            made = [lines[script_line - 1]] if script_line <= len(lines) else []
        differing = re.match(r"ncrun: script line \d+: ranks (\d+) and (\d+) differ at collective call (\d+)", line)
        if differing:
            made = [self.met(int(differing[which]), int(differing[3])) for which in (1, 2)]
        added = re.match(r"ncrun: redefinition (\d+): ", line)
        if added and status == 4:
            made = self.definitions[int(added[1]):][:1]
        of_var = re.match(r"ncrun: variable (\d+) (is too large|begins too far)", line)
        if of_var and status == 4:
            own = [("", self.head[0][1])] * self.known_vars + [it for it in self.definitions if it[0].startswith("var ")]
            made = own[int(of_var[1]):][:1]
        return Refused(status, line, explained, script_line, made)

    def met(self, rank: int, number: int) -> Tuple[str, Place]:
        """A rank's collective call, or where it has none its last call."""
        own = self.ranks[rank]
        if number < len(own.meetings):
            return repr(own.meetings[number]), own.meetings[number].place
        last = own.calls[-1].place if own.calls else self.head[0][1]
        return f"rank {rank} has no collective call {number}: its last call", last


def are(names: Mapping[str, object]) -> str:
    return "are " + ", ".join(names) if names else "is none"


def checked_name(name: object) -> None:
    if not isinstance(name, str) or not NAME.fullmatch(name):
        raise ScriptError(f"{name!r} is no name that a script can have: letters, digits and _.-+@, of which the first is a letter, a digit or _")


def file_word(path: Path) -> str:
    """A path that is not taken for an option."""
    word = os.fspath(path)
    return os.path.join(".", word) if word.startswith("-") else word


def ended(command: List[str], text: str) -> Tuple[int, str, str]:
    """The status, the output and the standard error of a program with this input."""
    ran = subprocess.run(command, input=text.encode(), stdout=subprocess.PIPE, stderr=subprocess.PIPE)
    return ran.returncode, ran.stdout.decode("utf-8", "surrogateescape"), ran.stderr.decode("utf-8", "replace")


# ---- what ncrun prints

class Overlap(NamedTuple):
    """Two puts of one step that hold the byte: each a rank, and its request or, for a call that is none, nothing."""

    first: Tuple[int, Optional[Request]]
    second: Tuple[int, Optional[Request]]
    byte: int
    element: Optional[Tuple[str, Shape]]                 # the variable and the index that the byte belongs to


class Step(NamedTuple):
    """A step of the file: a meeting, the K-th collective call of every rank, or one call of one rank."""

    mark: str
    calls: Tuple[Call, ...]


class Answer:
    """What a call was answered, or a request by a wait.

    code: `ok`, `null` (of a request without an element), `overlap`, or the name of a code. values: of a get its values, of inq_dimlen the
    length; floats as floats, texts as bytes; None where the call gives none. items: below a wait, the answers of its requests."""

    def __init__(self, call: Call, code: str, words: str = "", overlap: Optional[Overlap] = None) -> None:
        self.call, self.code, self.overlap = call, code, overlap
        self.items: List[Answer] = []
        self.values: Union[None, List[int], List[float], bytes] = None
        self.data = b""
        if code == "ok" and "get_" in call.word and call.var is not None and (words or not isinstance(call, Request)):
            self.values, self.data = decoded(call.var.type, words)
        elif code == "ok" and call.word == "inq_dimlen":
            self.values = [int(words)]

    @property
    def ok(self) -> bool:
        """Whether the call was done, and all of its requests."""
        return self.code in ("ok", "null") and self.overlap is None and all(item.ok for item in self.items)

    @property
    def value(self) -> Any:
        """The only value."""
        if self.values is None or len(self.values) != 1:
            raise NcrunError(f"{self} has not one value")
        return self.values if isinstance(self.values, bytes) else self.values[0]

    @property
    def bits(self) -> List[int]:
        """The patterns of floats or doubles."""
        size = FLOATS[self.call.var.type] if self.call.var is not None else 1
        return [int.from_bytes(self.data[at:at + size], "big") for at in range(0, len(self.data), size)]

    def nested(self) -> Any:
        """The values as lists of lists, by the count of the call; a row of a text is bytes."""
        level: Any = self.values
        for size in reversed((self.call.shape or ())[1:]):
            level = [level[at:at + size] for at in range(0, len(level), size)] if size else []
        return level

    def array(self) -> Any:
        """The values as a numpy array of the variable's type, in the shape of the call's count."""
        import numpy
        if self.values is None or self.call.var is None:
            raise NcrunError(f"{self} has no values")
        dtype = DTYPES[self.call.var.type]
        array = numpy.frombuffer(self.data, ">" + dtype).astype(dtype) if self.data else numpy.array(self.values, dtype)
        return array if self.call.shape is None else array.reshape(self.call.shape)

    def __repr__(self) -> str:
        shown = [repr(self.values[:50])] if isinstance(self.values, bytes) else [str(it) for it in (self.values or [])[:20]]
        more = ["..."] if self.values is not None and len(self.values) > (50 if isinstance(self.values, bytes) else 20) else []
        wrong = [f"{item.call.brief}: {item.code}" for item in self.items if not item.ok]
        return " ".join([f"{self.call!r}: {self.code}", *shown, *more, *([f"({'; '.join(wrong)})"] if wrong else [])])


class Offsets:
    """Where the variables of a dataset lie.

    version: 1, 2 or 5. header: the bytes of the header. extent: where the first variable begins. dims and vars: by name."""

    def __init__(self, text: str) -> None:
        self.version, self.header, self.extent = 0, 0, 0
        self.dims: Dict[str, Dimension] = {}
        self.vars: Dict[str, Placed] = {}
        lines = iter(text.rstrip("\n").split("\n"))
        for line in lines:
            self._read(line, lines)

    def _read(self, line: str, lines: Iterator[str]) -> None:
        number = re.fullmatch(r"// file format: CDF-(\d)|  (size|extent) = (\d+) bytes", line)
        fixed, record = re.fullmatch(r"  (.*) = (\d+)", line), re.fullmatch(r"  (.*) = UNLIMITED // \((\d+) currently\)", line)
        var = re.fullmatch(r"  (\w+) (.*?)(?:\((.*)\))?:", line)
        if number:
            self._number(number[1], number[2], number[3])
        elif fixed:
            self.dims[fixed[1]] = Dimension(fixed[1], int(fixed[2]), False)
        elif record:
            self.dims[record[1]] = Dimension(record[1], int(record[2]), True)
        elif var:
            begin, end, size = (int(re.sub(r".* = ", "", next(lines))) for _ in range(3))
            dims = tuple(self.dims[name] for name in (var[3] or "").split(", ") if name in self.dims)
            self.vars[var[2]] = Placed(var[2], var[1], dims, begin, end, size)

    def _number(self, version: Optional[str], name: Optional[str], value: Optional[str]) -> None:
        if version:
            self.version = int(version)
        elif name == "size":
            self.header = int(value or 0)
        else:
            self.extent = int(value or 0)

    @property
    def record_size(self) -> int:
        """The bytes from one record to the next."""
        sizes = [var.size for var in self.vars.values() if var.is_record]
        return sizes[0] if len(sizes) == 1 else sum(-(-size // 4) * 4 for size in sizes)

    def element(self, byte: int) -> Optional[Tuple[str, Shape]]:
        """The variable and the index of the element that has this byte of the file."""
        for var in self.vars.values():
            record, at = divmod(byte - var.begin, self.record_size) if var.is_record else (0, byte - var.begin)
            if byte < var.begin or at >= var.size:
                continue
            number, index = at // struct.calcsize(">" + CODES[var.type]), []
            for length in reversed(var.shape[1:] if var.is_record else var.shape):
                number, place = divmod(number, length)
                index.append(place)
            return var.name, (*([record] if var.is_record else []), *reversed(index))
        return None


def offsets(dataset: Path, program: str = "ncrun") -> Offsets:
    """Where the variables of the dataset lie, as ncrun lists them. The dataset is only read."""
    status, text, explained = ended([program, "--offsets", file_word(dataset)], "")
    if status:
        raise Refused(status, text.rstrip("\n"), explained, None, [])
    return Offsets(text)


class Run:
    """A run that ended well.

    answers[R][C]: the answer to call C of rank R; run[call] finds it too, and for a request the answer that its wait gave. order: the steps of
    the file. pending: for each rank how many requests nobody waited for. overlaps: one for each step that had one. offsets: where the
    variables lie. watchers: for each watcher its readings, steps done and records. text: all that ncrun printed."""

    status = 0

    def __init__(self, script: Script, text: str, explained: str) -> None:
        self.script, self.text, self.explained = script, text, explained
        told, *listing = re.split(r"^(?=// file format)", text, maxsplit=1, flags=re.M)
        layout, *watched = re.split(r"^watcher \d+\n", "".join(listing), flags=re.M)
        self.offsets = Offsets(layout)
        self.watchers = [[(int(a), int(b)) for a, b in map(str.split, part.splitlines())] for part in watched]
        self.answers: List[List[Answer]] = []
        self.pending: List[int] = []
        self._completed: Dict[Tuple[int, int], Answer] = {}
        lines = told.rstrip("\n").split("\n")
        self.order = [self._step(mark) for mark in lines[1].split()[1:]]
        for line in lines[2:]:
            self._read(line)
        self.overlaps: List[Overlap] = list(dict.fromkeys(it.overlap for it in itertools.chain(*self.answers) if it.overlap))

    def _read(self, line: str) -> None:
        word, _, rest = line.strip(" ").partition(" ")
        if line.startswith("  "):
            self._item(int(word), rest)
        elif word == "rank":
            self.answers.append([])
        elif word == "pending":
            self.pending.append(int(rest))
        else:
            name, _, told = rest.partition(" ")
            call = self.script.ranks[len(self.answers) - 1].calls[int(word)]
            if call.word != name or int(word) != len(self.answers[-1]):
                raise NcrunError(f"this line is no answer to {call!r}: {line!r}")
            self.answers[-1].append(self._answer(call, told))

    def _answer(self, call: Call, told: str) -> Answer:
        code, _, rest = told.partition(" ")
        overlap = rest[len("overlap "):] if rest.startswith("overlap ") and code != "ok" else rest
        return Answer(call, code, rest, self._overlap(overlap) if code == "overlap" or overlap is not rest else None)

    def _item(self, id: int, told: str) -> None:
        above = self.answers[-1][-1]
        request = self.script.ranks[above.call.rank].requests[id]
        item = self._answer(request, told)
        above.items.append(item)
        if item.code != "NC_EINVAL_REQUEST":
            self._completed.setdefault((request.rank, request.number), item)

    def _overlap(self, words: str) -> Overlap:
        rank, id, other, other_id, byte = map(int, words.split())
        ranks = self.script.ranks
        return Overlap((rank, ranks[rank].requests.get(id)), (other, ranks[other].requests.get(other_id)), byte, self.offsets.element(byte))

    def _step(self, mark: str) -> Step:
        numbers = [int(it) for it in mark[1:].split(".")]
        if mark[0] == "m":
            return Step(mark, tuple(rank.meetings[numbers[0]] for rank in self.script.ranks))
        return Step(mark, (self.script.ranks[numbers[0]].calls[numbers[1]],))

    @overload
    def __getitem__(self, call: Call) -> Answer: ...

    @overload
    def __getitem__(self, call: Sequence[Call]) -> List[Answer]: ...

    def __getitem__(self, call: Union[Call, Sequence[Call]]) -> Union[Answer, List[Answer]]:
        """The answer to a call, or to each of several. Of a request it is what the wait or cancel said; the post's own where none did."""
        if not isinstance(call, Call):
            return [self[it] for it in call]
        if call.number >= len(self.answers[call.rank]) or self.script.ranks[call.rank].calls[call.number] is not call:
            raise NcrunError(f"{call!r} is no call of this run")
        return self._completed.get((call.rank, call.number)) or self.answers[call.rank][call.number]

    def refused(self) -> List[Answer]:
        """The answers of calls that were not done, or had a request that was not, in the order in which the calls were made."""
        answers = (self.answers[call.rank][call.number] for call in self.script.order if call.number < len(self.answers[call.rank]))
        return [answer for answer in answers if not answer.ok]

    def unwaited(self) -> List[Request]:
        """The requests that were posted, and that no wait or cancel named."""
        return [call for call in self.script.order if isinstance(call, Request) and self.answers[call.rank][call.number].code == "ok"
                and (call.rank, call.number) not in self._completed]

    def check(self) -> Run:
        """Raises CallRefused for the first call that was refused."""
        for answer in self.refused():
            raise CallRefused(answer)
        return self

    def __str__(self) -> str:
        return self.text.rstrip("\n")
