import unittest

from ncclassic import Header, windows

from .small import SMALL

ASKED = [(8, 4), (20, 4), (0, 4)]


class Windows(unittest.TestCase):
    def test_one_aggregator(self) -> None:
        self.assertEqual(windows(ASKED, aggregators=1), (0, 24, ((0, 24, 0, False),)))
        self.assertEqual(windows(ASKED, aggregators=1, buffer=12), (0, 24, ((0, 12, 0, False), (20, 4, 0, True))))

    def test_domains(self) -> None:
        self.assertEqual(windows(ASKED, aggregators=2), (0, 24, ((0, 12, 0, False), (20, 4, 1, True))))
        self.assertEqual(windows(ASKED, aggregators=2, unit=16), (0, 24, ((0, 12, 0, False), (20, 4, 1, True))))

    def test_nothing_asked_for(self) -> None:
        self.assertEqual(windows([], aggregators=3), (0, 0, ()))
        self.assertEqual(windows([(7, 0)], aggregators=3), (0, 0, ()))

    def test_more_windows_than_are_asked_for_at_once(self) -> None:
        found = windows([(100, 5000)], aggregators=1, buffer=1)
        self.assertEqual(found.windows, tuple((100 + k, 1, 0, True) for k in range(5000)))

    def test_of_a_region(self) -> None:
        extents = Header(SMALL)["v"].extents([0], [2], [2])
        self.assertEqual(windows(extents, aggregators=1).windows, ((132, 12, 0, False),))

    def test_numbers_outside_their_limits(self) -> None:
        for asked, aggregators, unit, buffer in ((ASKED, 0, 1, 1), (ASKED, 65, 1, 1), (ASKED, 1, 0, 1), (ASKED, 1, 1, 0), ([(-1, 4)], 1, 1, 1), ([(2**62 - 1, 1)], 1, 1, 1)):
            with self.assertRaises(ValueError):
                windows(asked, aggregators=aggregators, unit=unit, buffer=buffer)
