import os
import struct
import tempfile
import unittest

from ncclassic import Header, HeaderError, RegionError

from .small import SMALL, VALUES, changed


class Headers(unittest.TestCase):
    def test_parts(self) -> None:
        header = Header(SMALL + VALUES)
        self.assertEqual((header.version, header.length, header.records), (1, 132, 2))
        self.assertEqual([(it.name, it.length, it.is_record) for it in header.dimensions], [("time", 2, True), ("x", 4, False)])
        self.assertEqual([(it.name, it.type, it.shape) for it in header.variables], [("v", "int", (4,)), ("r", "short", (2, 4))])
        self.assertEqual(header["r"], header.variables[1])
        self.assertIn("v", header)
        self.assertNotIn("x", header)
        with self.assertRaises(KeyError):
            header["x"]

    def test_layout(self) -> None:
        header = Header(SMALL)
        self.assertEqual(header.layout(), (132, (("v", 132, 16, False, 0), ("r", 148, 8, True, 8)), 8, 164))
        self.assertEqual(header.layout(5).end, 188)
        with self.assertRaises(RegionError):
            header.layout(2**31)
        for records in (-1, 2**64):
            with self.subTest(records=records), self.assertRaisesRegex(ValueError, "record count"):
                header.layout(records)

    def test_attributes(self) -> None:
        name, number = b"\0\0\0\1a\0\0\0", struct.pack(">II2h", 3, 2, -7, 9)
        header = Header(SMALL[:40] + struct.pack(">II", 12, 1) + name + number + bytes.fromhex("0000000b 00000000"))
        (attribute,) = header.attributes
        self.assertEqual((attribute.name, attribute.type, attribute.value), ("a", "short", (-7, 9)))

    def test_long_lists(self) -> None:
        name, values = b"n" * 300, bytes(range(256)) * 4
        attribute = struct.pack(">I", len(name)) + name + struct.pack(">II", 1, len(values)) + values
        header = Header(SMALL[:40] + struct.pack(">II", 12, 1) + attribute + bytes.fromhex("0000000b 00000000"))
        (found,) = header.attributes
        self.assertEqual((found.name, found.type, found.data), ("n" * 300, "byte", values))

    def test_faults(self) -> None:
        faults = {50: (SMALL[:50], "TRUNCATED", 48, "the header is cut off within the field at byte 48"),
                  0: (b"HDF", "TRUNCATED", 0, "the header is cut off within the field at byte 0"),
                  1: (changed(0, 88), "NOT_CDF", 0, "not a file in the netCDF classic format"),
                  11: (changed(11, 9), "BAD_TAG", 8, "a bad tag at byte 8"),
                  131: (changed(131, 140), "SHARED", 0, "variables 0 and 1 share a byte"),
                  91: (changed(91, 131), "SHARED", 0, "variable 0 shares a byte with the header")}
        for data, name, place, words in faults.values():
            with self.assertRaises(HeaderError) as caught:
                Header(data)
            self.assertEqual((caught.exception.name, caught.exception.place, str(caught.exception)), (name, place, words))


class Regions(unittest.TestCase):
    def setUp(self) -> None:
        self.header = Header(SMALL)

    def test_extents(self) -> None:
        self.assertEqual(self.header["v"].extents(), [(132, 16)])
        self.assertEqual(self.header["v"].extents([1]), [(136, 12)])
        self.assertEqual(self.header["v"].extents([0], [2], [2]), [(132, 4), (140, 4)])
        self.assertEqual(self.header["r"].extents([0, 1], [2, 2]), [(150, 4), (158, 4)])
        self.assertEqual(self.header["r"].extents([5, 0], [1, 4], put=True), [(188, 8)])
        self.assertEqual(self.header["r"].extents([5, 0], [1, 4], records=6), [(188, 8)])
        self.assertEqual(self.header["v"].extents([4], [0]), [])

    def test_more_extents_than_are_asked_for_at_once(self) -> None:
        every_other = self.header["r"].extents([0, 0], [2500, 2], [1, 2], put=True)
        self.assertEqual(every_other, [(148 + 8 * record + 4 * x, 2) for record in range(2500) for x in range(2)])

    def test_needs(self) -> None:
        self.assertEqual(self.header["r"].needs([2, 0], [2, 3], [3, 1], put=True), (12, 6))
        self.assertEqual(self.header["v"].needs(), (16, 0))

    def test_refusals(self) -> None:
        for start, count, stride, name in (([4], [1], [1], "NC_EINVALCOORDS"), ([0], [5], [1], "NC_EEDGE"), ([0], [1], [0], "NC_ESTRIDE"),
                                           ([0, 0], [1, 1], [1, 1], "NC_EINVALCOORDS"), ([-1], [1], [1], "NC_EINVALCOORDS")):
            with self.assertRaises(RegionError) as caught:
                self.header["v"].extents(start, count, stride)
            self.assertEqual(caught.exception.name, name)
        with self.assertRaises(RegionError) as caught:
            self.header["r"].extents([0, 0], [2**19, 4], put=True)
        self.assertEqual(caught.exception.name, "ETOOLARGE")
        for number in (-1, 2, 2**64):
            with self.subTest(number=number), self.assertRaises(RegionError) as caught:
                self.header.extents(number, [0], [1], [1])
            self.assertEqual(caught.exception.name, "NC_ENOTVAR")
        for records in (-1, 2**64 + 2):
            for ask in (self.header["r"].extents, self.header["r"].needs):
                with self.subTest(records=records), self.assertRaisesRegex(ValueError, "record count"):
                    ask([0, 0], [1, 4], records=records)

    def test_values_stand_there(self) -> None:
        with tempfile.TemporaryDirectory() as room:
            path = os.path.join(room, "small.nc")
            with open(path, "wb") as file:
                file.write(SMALL + VALUES)
            header = Header.read(path)
            with open(path, "rb") as file:
                found = b""
                for extent in header["r"].extents([0, 1], [2, 2]):
                    file.seek(extent.at)
                    found += file.read(extent.len)
        self.assertEqual(struct.unpack(">4h", found), (1, 2, 5, 6))
