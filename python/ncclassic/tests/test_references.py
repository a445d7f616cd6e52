import itertools
import json
import os
import tempfile
import unittest
from typing import Any

from ncclassic import Header, references

from .small import SMALL, VALUES

try:
    import numpy
    from scipy.io import netcdf_file
except ImportError:
    numpy = None  # type: ignore[assignment]


class References(unittest.TestCase):
    def test_keys(self) -> None:
        refs = references(Header(SMALL + VALUES), "d.nc")["refs"]
        ranges = {key: value for key, value in refs.items() if isinstance(value, list)}
        self.assertEqual(ranges, {"v/0": ["d.nc", 132, 16], "r/0.0": ["d.nc", 148, 8], "r/1.0": ["d.nc", 156, 8]})
        array = json.loads(refs["r/.zarray"])
        self.assertEqual((array["shape"], array["chunks"], array["dtype"]), ([2, 4], [1, 4], ">i2"))
        self.assertEqual(json.loads(refs["r/.zattrs"]), {"_ARRAY_DIMENSIONS": ["time", "x"]})


def written(path: str, version: int) -> None:
    """A file by scipy with each type of CDF-1, two record variables that need padding, and attributes."""
    with netcdf_file(path, "w", version=version) as file:
        file.history = "made by a test"
        for name, length in (("time", None), ("y", 3), ("x", 5)):
            file.createDimension(name, length)
        for number, kind in enumerate("bhifd"):
            variable = file.createVariable(f"fixed_{kind}", kind, ("y", "x"))
            variable[:] = numpy.arange(15).reshape(3, 5) * (number + 1) - 7
            variable.units = "K"
        text = file.createVariable("text", "c", ("x",))
        text[:] = numpy.array(list("hello"), dtype="S1")
        for kind in "hb":
            file.createVariable(f"records_{kind}", kind, ("time", "x"))
        for record in range(4):
            file.variables["records_h"][record] = numpy.arange(5) + 100 * record
            file.variables["records_b"][record] = numpy.arange(5) + 10 * record


def written_scalar(path: str, version: int) -> None:
    """A file with a variable without dimensions, apart, since scipy lays one behind record variables, where the format has none."""
    with netcdf_file(path, "w", version=version) as file:
        file.createVariable("scalar", "d", ())[...] = 2.5


def by_references(refs: dict[str, Any], name: str) -> Any:
    """The variable's values, read through the byte ranges alone, as a reader of zarr puts chunks together."""
    array = json.loads(refs[f"{name}/.zarray"])
    whole = numpy.empty(array["shape"], array["dtype"])
    counts = [-(-length // chunk) for length, chunk in zip(array["shape"], array["chunks"])]
    for index in itertools.product(*map(range, counts)):
        path, at, size = refs[f"{name}/" + (".".join(map(str, index)) or "0")]
        with open(path, "rb") as file:
            file.seek(at)
            chunk = numpy.frombuffer(file.read(size), array["dtype"]).reshape(array["chunks"])
        whole[tuple(slice(i * n, (i + 1) * n) for i, n in zip(index, array["chunks"]))] = chunk
    return whole


@unittest.skipIf(numpy is None, "no scipy")
class ValuesThroughReferences(unittest.TestCase):
    def test_as_scipy_reads_them(self) -> None:
        for make, count in ((written, 8), (written_scalar, 1)):
            for version in (1, 2):
                with self.subTest(make=make.__name__, version=version), tempfile.TemporaryDirectory() as room:
                    path = os.path.join(room, "made.nc")
                    make(path, version)
                    refs = references(Header.read(path), path)["refs"]
                    with netcdf_file(path, "r", mmap=False) as file:
                        self.assertEqual(len(file.variables), count)
                        for name, variable in file.variables.items():
                            numpy.testing.assert_array_equal(by_references(refs, name), variable[...])

    def test_attributes(self) -> None:
        with tempfile.TemporaryDirectory() as room:
            path = os.path.join(room, "made.nc")
            written(path, 1)
            found = references(Header.read(path), path)
        self.assertEqual(found["version"], 1)
        self.assertEqual(json.loads(found["refs"][".zattrs"]), {"history": "made by a test"})
        self.assertEqual(json.loads(found["refs"]["fixed_d/.zattrs"])["units"], "K")
