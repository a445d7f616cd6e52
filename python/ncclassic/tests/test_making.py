import unittest

from ncclassic import DefinitionError, Header, NewHeader

from .small import SMALL, VALUES


def small() -> NewHeader:
    """The definitions of SMALL."""
    header = NewHeader(version=1)
    header.dimension("time", None)
    header.dimension("x", 4)
    header.variable("v", "int", ["x"])
    header.variable("r", "short", ["time", "x"])
    return header


class NewHeaders(unittest.TestCase):
    def test_bytes(self) -> None:
        self.assertEqual(small().encode(records=2), SMALL)

    def test_the_bytes_of_a_header_that_was_read(self) -> None:
        self.assertEqual(Header(SMALL + VALUES).encode(), SMALL)

    def test_attributes(self) -> None:
        made = small()
        made.attribute("title", "Grüße")
        made.attribute("range", [-1, 300], "short")
        made.variable("w", "double", attributes={"units": "K", "scale": 0.5, "levels": [1, 2, 3]})
        header = Header(made.encode())
        self.assertEqual([(it.name, it.type, it.value) for it in header.attributes], [("title", "char", "Grüße"), ("range", "short", (-1, 300))])
        self.assertEqual([(it.name, it.type, it.value) for it in header["w"].attributes],
                         [("units", "char", "K"), ("scale", "double", 0.5), ("levels", "int", (1, 2, 3))])

    def test_whole_numbers_of_any_class(self) -> None:
        class Whole:
            """As numpy's whole numbers are: no int, and yet an index."""
            def __index__(self) -> int:
                return 7

        made = NewHeader()
        made.attribute("one", Whole())  # type: ignore[arg-type]
        made.attribute("two", [Whole(), 8])  # type: ignore[list-item]
        self.assertEqual([(it.type, it.value) for it in Header(made.encode()).attributes], [("int", 7), ("int", (7, 8))])

    def test_alignments(self) -> None:
        header = Header(small().encode(header_align=512, var_align=64))
        self.assertEqual([(it.name, it.begin) for it in header.variables], [("v", 512), ("r", 576)])

    def test_more_bytes_than_are_asked_for_at_once(self) -> None:
        made = small()
        made.attribute("long", [7] * 2**15)
        self.assertEqual(Header(made.encode(records=2)).attributes[0].value, (7,) * 2**15)

    def test_refusals(self) -> None:
        again, missing, nameless = small(), small(), small()
        again.dimension("x", 5)
        missing.variable("w", "int", ["y"])
        nameless.variable("w", "int", [], {"a": 1, "": 2})
        for made, name, part, number, owner in ((again, "NC_ENAMEINUSE", "dimension", 2, None), (missing, "NC_EBADDIM", "variable", 2, None),
                                                (nameless, "NC_EBADNAME", "attribute", 1, 2)):
            with self.subTest(name=name), self.assertRaises(DefinitionError) as caught:
                made.encode()
            self.assertEqual((caught.exception.name, caught.exception.part, caught.exception.number, caught.exception.owner), (name, part, number, owner))
        self.assertEqual(str(caught.exception), "NC_EBADNAME: attribute 1 of variable 2: it is no name")

    def test_numbers_outside_their_limits(self) -> None:
        for version, records, var_align in ((3, 0, 4), (1, -1, 4), (1, 0, 0)):
            made = small()
            made.version = version
            with self.subTest(version=version, records=records), self.assertRaises(ValueError):
                made.encode(records=records, var_align=var_align)
