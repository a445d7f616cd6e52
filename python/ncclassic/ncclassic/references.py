"""Byte ranges of a file's variables as references, the JSON that kerchunk writes and fsspec's reference file system reads (version 1)."""
from __future__ import annotations

import json
import math
from typing import Any, Iterator, Union

from .header import Attribute, Header, Variable

Reference = Union[str, "list[Union[str, int]]"]

# The types of zarr, version 2. A char is a string of one byte.
ZARR_TYPES = {"byte": "|i1", "char": "|S1", "short": ">i2", "int": ">i4", "float": ">f4", "double": ">f8",
              "ubyte": "|u1", "ushort": ">u2", "uint": ">u4", "int64": ">i8", "uint64": ">u8"}


def references(header: Header, target: str) -> dict[str, Any]:
    """The references of a file that lies at the target, a path or a URL: a record of a variable is a chunk, and a fixed variable is one."""
    refs: dict[str, Reference] = {".zgroup": json.dumps({"zarr_format": 2}), ".zattrs": json.dumps(_values(header.attributes))}
    step = header.layout().record_size
    for variable in header.variables:
        refs[f"{variable.name}/.zarray"] = json.dumps(_array(variable))
        names = [dimension.name for dimension in variable.dimensions]
        refs[f"{variable.name}/.zattrs"] = json.dumps({**_values(variable.attributes), "_ARRAY_DIMENSIONS": names})
        for key, at in _chunks(variable, step):
            refs[f"{variable.name}/{key}"] = [target, at, variable.slab]
    return {"version": 1, "refs": refs}


def _chunks(variable: Variable, step: int) -> Iterator[tuple[str, int]]:
    """Each chunk's key, and its first byte; a variable without elements has none."""
    if math.prod(variable.shape) == 0:
        return
    rest = ["0"] * (len(variable.shape) - variable.is_record)
    for record in range(variable.shape[0] if variable.is_record else 1):
        first = [str(record)] if variable.is_record else []
        yield ".".join(first + rest) or "0", variable.begin + record * step


def _array(variable: Variable) -> dict[str, Any]:
    chunk = [1, *variable.shape[1:]] if variable.is_record else list(variable.shape)
    return {"zarr_format": 2, "shape": list(variable.shape), "chunks": [max(1, length) for length in chunk], "dtype": ZARR_TYPES[variable.type],
            "compressor": None, "filters": None, "order": "C", "fill_value": _fill(variable)}


def _fill(variable: Variable) -> Any:
    for attribute in variable.attributes:
        if attribute.name == "_FillValue" and attribute.type == variable.type and attribute.type != "char":
            return _value(attribute)
    return None


def _values(attributes: tuple[Attribute, ...]) -> dict[str, Any]:
    return {attribute.name: _value(attribute) for attribute in attributes}


def _value(attribute: Attribute) -> Any:
    value = attribute.value
    return [_number(item) for item in value] if isinstance(value, tuple) else _number(value)


def _number(value: Any) -> Any:
    """JSON has no number for those that are not finite: zarr writes their names."""
    if isinstance(value, float) and not math.isfinite(value):
        return "NaN" if math.isnan(value) else "Infinity" if value > 0 else "-Infinity"
    return value
