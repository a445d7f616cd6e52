import math
import struct
import unittest

from ncclassic import RangeError, pack, unpack

# The least and the greatest value of each type, and the code of struct.
WHOLE = {"byte": ("b", -2**7, 2**7 - 1), "short": ("h", -2**15, 2**15 - 1), "int": ("i", -2**31, 2**31 - 1), "int64": ("q", -2**63, 2**63 - 1),
         "ubyte": ("B", 0, 2**8 - 1), "ushort": ("H", 0, 2**16 - 1), "uint": ("I", 0, 2**32 - 1), "uint64": ("Q", 0, 2**64 - 1)}


class WholeNumbers(unittest.TestCase):
    def test_ends_of_each_type(self) -> None:
        for name, (code, least, most) in WHOLE.items():
            values = (least, 1, most)
            self.assertEqual(pack(name, values), struct.pack(f">3{code}", *values))
            self.assertEqual(unpack(name, pack(name, values)), values)
            self.assertEqual((pack(name, []), unpack(name, b"")), (b"", ()))

    def test_the_first_that_does_not_fit_is_told(self) -> None:
        for name, (_, least, most) in WHOLE.items():
            for values, number in (([least, most, most + 1, most + 1], 2), ([least - 1, most], 0), ([most, 2**64], 1), ([1, -2**63 - 1, most + 1], 1)):
                with self.subTest(name=name, values=values), self.assertRaises(RangeError) as caught:
                    pack(name, values)
                self.assertEqual((caught.exception.number, caught.exception.name), (number, "NC_ERANGE"))

    def test_numbers_that_are_not_whole(self) -> None:
        with self.assertRaises(TypeError):
            pack("int", [1.5])

    def test_bytes_of_no_whole_value(self) -> None:
        for name in ("short", "int64", "float"):
            with self.assertRaises(ValueError):
                unpack(name, b"\0\0\0")


class Floats(unittest.TestCase):
    def test_as_they_were(self) -> None:
        values = (0.0, -0.0, 1.5, -math.inf, 2.0**-149)
        self.assertEqual(pack("float", values), struct.pack(">5f", *values))
        self.assertEqual(pack("double", [0.1, 2]), struct.pack(">2d", 0.1, 2))
        for name in ("float", "double"):
            found = unpack(name, pack(name, [*values, math.nan]))
            self.assertEqual(found[:-1], values)
            self.assertTrue(math.isnan(float(found[-1])))


class Texts(unittest.TestCase):
    def test_bytes_of_utf_8(self) -> None:
        self.assertEqual((pack("char", "Grüße"), unpack("char", "Grüße".encode())), ("Grüße".encode(), "Grüße"))

    def test_a_text_is_of_chars_alone(self) -> None:
        with self.assertRaises(TypeError):
            pack("int", "12")
        with self.assertRaises(TypeError):
            pack("char", [49, 50])

    def test_no_type(self) -> None:
        with self.assertRaises(ValueError):
            pack("string", "a")
        with self.assertRaises(ValueError):
            unpack("long", b"")
