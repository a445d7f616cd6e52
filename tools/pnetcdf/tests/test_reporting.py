"""Tests of reports: advice, sums and tables of steps that are made up here."""
import unittest
from types import SimpleNamespace

from bridge import advice, page
from bridge.planning import Spread, Step
from bridge.reporting import sums_of


def step(mark, **own):
    """A collective put of two ranks, eight bytes each in one piece, by one aggregator in one window."""
    given = {"part": 0, "direction": "put", "name": "put_vara_all", "variables": ["v"], "calls": [(0, 0), (1, 0)], "pieces": Spread.of([1, 1]),
             "bytes": Spread.of([8, 8]), "aggregators": Spread.of([16]), "by_aggregator": {0: 16}, "windows": 1, "holes": 0,
             "reads": Spread.of([]), "writes": Spread.of([16]), "seconds": 0.5}
    return Step(mark, **dict(given, **own))


def moved(calls, count, unaligned):
    return {"calls": calls, "bytes": count, "least": 0, "most": 0, "unaligned": unaligned}


class Advice(unittest.TestCase):
    def test_sizes_in_words(self):
        self.assertEqual([advice.size_word(n) for n in (7, 1024, 1536, 3 << 20)], ["7 bytes", "1 KiB", "1.5 KiB", "3 MiB"])

    def test_many_small_pieces(self):
        line, = advice.small_pieces([step("m0", pieces=Spread.of([32, 16]), bytes=Spread.of([4096, 2048]))])
        self.assertTrue(line.startswith("m0 of v: up to 32 pieces a rank of 128 bytes each."))
        self.assertEqual(list(advice.small_pieces([step("m0")])), [])

    def test_windows_that_are_read_first(self):
        line, = advice.read_first([step("m0", windows=4, holes=3), step("m1", windows=2)])
        self.assertTrue(line.startswith("3 of 6 windows of puts have holes and are read before they are written (m0, v)."))
        self.assertEqual(list(advice.read_first([step("m0", windows=4, holes=1)])), [])

    def test_an_aggregator_with_more_than_others(self):
        line, = advice.uneven([step("m0", by_aggregator={0: 10, 1: 50})])
        self.assertTrue(line.startswith("aggregator 1 has 1.7 times the mean of the aggregators' bytes (50 bytes of 60 bytes)."))
        self.assertEqual(list(advice.uneven([step("m0", by_aggregator={0: 10, 1: 12})])), [])

    def test_small_collective_puts(self):
        line, = advice.many_small_calls([step("m%d" % k) for k in range(4)])
        self.assertTrue(line.startswith("4 collective puts (m0 to m3, v) move less than 64 KiB each."))

    def test_device_calls_off_the_stripes(self):
        sums = {"reads": moved(0, 0, 0), "writes": moved(4, 64, 2)}
        self.assertEqual(len(list(advice.unaligned(sums, 64))), 1)
        self.assertEqual(list(advice.unaligned(sums, 1)), [])


class Tables(unittest.TestCase):
    def test_sums_of_parts(self):
        plans = [{"sums": {"grows": 1, "reads": moved(2, 20, 1), "writes": moved(3, 30, 2)}}] * 2
        self.assertEqual(sums_of(plans), [2, 4, 40, 6, 60, 6])

    def test_a_row(self):
        self.assertEqual(page.step_row(step("m0"), 1), ["m0", "put_vara_all", "v", "2", "1", "8", "1", "16", "1", "0", "0", "1", "16", "0.500000"])

    def test_text_is_in_columns(self):
        rows = list(page.table_text(("hints", "grows", "reads", "bytes"), [["as it ran", "3", "0", "19"]]))
        self.assertEqual(rows, ["  hints      grows  reads  bytes", "  as it ran  3      0         19"])

    def test_html_is_escaped(self):
        self.assertIn("<td class=word>a&lt;b</td>", page.table_html("t", ("name",), [["a<b"]]))

    def test_a_report_that_there_is_none_of(self):
        report = SimpleNamespace(shown="d.nc, created by 2 ranks", fault="more than 64 ranks")
        self.assertEqual(page.text_of(report), "d.nc, created by 2 ranks:\n  no report: more than 64 ranks\n")


if __name__ == "__main__":
    unittest.main()
