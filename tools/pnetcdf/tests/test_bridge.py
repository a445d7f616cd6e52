"""Tests of the bridge's Python: regions, words, headers, comparing, overlaps and traces. Values are worked out by hand from the netCDF
classic format and the PnetCDF C API reference."""
import io
import json
import os
import struct
import tempfile
import unittest
from types import SimpleNamespace

from bridge import asked, attributes, classic, comparing, planning, regions, words
from bridge.answers import same_values
from bridge.calls import Call, Filled, Repeated, kind_of
from bridge.files import FileFindings
from bridge.merging import ranks_word
from bridge.traces import Stored, TraceFault, read_heads

HEADER = (b"CDF\1" + struct.pack(">i", 0) + struct.pack(">2i", 10, 1) + struct.pack(">i", 1) + b"x\0\0\0" + struct.pack(">i", 4)
          + struct.pack(">2i", 0, 0) + struct.pack(">2i", 11, 1) + struct.pack(">i", 1) + b"v\0\0\0" + struct.pack(">2i", 1, 0)
          + struct.pack(">2i", 12, 1) + struct.pack(">i", 5) + b"units\0\0\0" + struct.pack(">2i", 2, 1) + b"K\0\0\0"
          + struct.pack(">3i", 4, 16, 104))


class Values:
    """Values of one type of memory, as a trace would give them."""

    def __init__(self, memory, values):
        self.memory, self.values, self.count = memory, values, len(values)

    def load(self):
        return self.values

    def part(self, first, count):
        return Values(self.memory, self.values[first:first + count])


class Regions(unittest.TestCase):
    def test_a_box_is_cut_in_order(self):
        self.assertEqual(list(regions.pieces([5, 2], 4)), [([0, 0], [2, 2]), ([2, 0], [2, 2]), ([4, 0], [1, 2])])

    def test_a_long_row_is_cut(self):
        self.assertEqual(list(regions.pieces([2, 3], 2)), [([0, 0], [1, 2]), ([0, 2], [1, 1]), ([1, 0], [1, 2]), ([1, 2], [1, 1])])

    def test_rows_that_touch_are_one_run(self):
        self.assertEqual(list(regions.runs(([1, 0], [2, 4], [1, 1]), [3, 4])), [(4, 8)])

    def test_columns_are_runs_of_one(self):
        self.assertEqual(list(regions.runs(([0, 1], [3, 1], [1, 1]), [3, 4])), [(1, 1), (5, 1), (9, 1)])

    def test_strides(self):
        self.assertEqual(list(regions.runs(([0, 0], [1, 2], [1, 3]), [3, 4])), [(0, 1), (3, 1)])

    def test_records_count_from_the_last_one(self):
        self.assertEqual(regions.records_of("vars", "[1,0] [3,1] [2,1]", [0, 4]), 6)
        self.assertEqual(regions.records_of("vara", "[9,0] [0,4]", [0, 4]), 0)

    def test_what_no_call_holds(self):
        coverage = regions.Coverage([2, 4], 0)
        coverage.add(Line("vara", "[0,1] [2,2]"))
        self.assertEqual(coverage.free(), 4)
        self.assertEqual([coverage.holds(k) for k in range(4)], [False, True, True, False])

    def test_an_index_map_reaches(self):
        self.assertEqual(regions.reach([2, 3], [1, 2]), 6)
        self.assertEqual(regions.reach([2, 0], [1, 2]), 0)


class Line:
    def __init__(self, form, region):
        self.form, self.region = form, region


class Asked(unittest.TestCase):
    def test_a_call_that_one_line_holds(self):
        self.assertIsNone(asked.split({"dims": 1, "start": [0], "count": [1 << 20], "elements": 1 << 20}, "vara", [1 << 21]))

    def test_one_value_more(self):
        given = {"dims": 2, "start": [3, 0], "count": [1025, 1024], "elements": 1025 << 10}
        self.assertEqual(asked.split(given, "vara", [2000, 1024]), [
            ("vara", "[3,0] [1024,1024]", 0, 1 << 20), ("vara", "[1027,0] [1,1024]", 1 << 20, 1024)])

    def test_boxes_in_groups(self):
        given = {"dims": 1, "parts": 1025, "starts": [[k] for k in range(1025)], "counts": None, "elements": 1025}
        self.assertEqual([(region.split(" ")[0], first, length) for _, region, first, length in asked.split(given, "varn", [2000])],
                         [("1024", 0, 1024), ("1", 1024, 1)])


class Words(unittest.TestCase):
    def test_sequences(self):
        self.assertEqual(words.script_values(4, [3, 5, 7, 9, 11]), "seq 5 3 2")
        self.assertEqual(words.script_values(4, [3, 5, 7]), "3 5 7")

    def test_text(self):
        self.assertEqual(words.value_words(2, b'a"\n\xff'), '"a\\"\\n\\xFF"')

    def test_kinds_of_calls(self):
        self.assertEqual(kind_of("put_vara_int_all"), ("access", ("put", "vara", "_all")))
        self.assertEqual(kind_of("put_vara_all"), ("access", ("put", "vara", "_all")))
        self.assertEqual(kind_of("mput_vara_float_all"), ("members", ("put", "vara", "_all")))
        self.assertEqual(kind_of("get_vard"), ("blocks", ("get", None)))

    def test_ranks(self):
        self.assertEqual([ranks_word(r) for r in ([2], [0, 1, 2], [0, 2, 5])], ["rank 2", "ranks 0 to 2", "ranks 0, 2 and 5"])


class Attributes(unittest.TestCase):
    def test_unsigned_chars_of_a_byte(self):
        self.assertEqual(attributes.attribute_values(1, "uchar", [0, 127, 255], 1), [0, 127, -1])

    def test_numbers_that_a_type_does_not_hold(self):
        self.assertEqual(attributes.attribute_values(3, "int", [40000, -3], 1), [-32767, -3])

    def test_doubles_are_cut_toward_zero(self):
        bits = [words.pattern(6, -2.75), words.pattern(6, 3.75)]
        self.assertEqual(attributes.attribute_values(4, "double", bits, 1), [-2, 3])

    def test_filled_values(self):
        filled = Filled(Values("int", [1, 40000, 2]), 3, -32767)
        self.assertEqual((filled.load(), filled.beyond()), ([1, -32767, 2], (1, 1, 40000)))


class Datasets(unittest.TestCase):
    def made(self, *values):
        path = os.path.join(self.folder.name, str(len(os.listdir(self.folder.name))))
        with open(path, "wb") as file:
            file.write(HEADER + struct.pack(">4i", *values))
        return path

    def setUp(self):
        self.folder = tempfile.TemporaryDirectory()
        self.addCleanup(self.folder.cleanup)

    def test_a_header(self):
        header = classic.read_header(io.BytesIO(HEADER))
        self.assertEqual((header.dims, header.vars[0].name, header.vars[0].begin), ([(b"x", 4)], b"v", 104))
        self.assertEqual(header.vars[0].attributes, {b"units": (2, b"K")})
        self.assertEqual(classic.header_length(header), len(HEADER))

    def test_a_header_that_ends(self):
        for length in range(4, len(HEADER)):
            with self.assertRaises(classic.HeaderFault):
                classic.read_header(io.BytesIO(HEADER[:length]))

    def test_elements_that_differ(self):
        compared = comparing.compare(self.made(1, 2, 3, 4), self.made(1, 5, 3, 4))
        self.assertEqual((compared.state, compared.headers), ("differs", []))
        self.assertEqual([(d.index, d.first, d.second) for d in compared.variables[0].kept], [((1,), "2", "5")])

    def test_zeros_at_the_end(self):
        first, second = self.made(1, 2, 3, 0), self.made(1, 2, 3, 0)
        with open(second, "r+b") as file:
            file.truncate(len(HEADER) + 12)
        self.assertEqual([comparing.compare(first, own).state for own in (first, second)], ["same", "zeros"])

    def test_an_attribute_that_differs(self):
        first, second = self.made(1, 2, 3, 4), self.made(1, 2, 3, 4)
        with open(second, "r+b") as file:
            file.seek(HEADER.index(b"K\0\0\0"))
            file.write(b"C")
        self.assertEqual(comparing.compare(first, second).headers, ['the attribute v:units is char "K", and char "C" in the proved file'])

    def findings(self, first, second, raced, part):
        """What is found of two datasets of v, of which the first part puts elements 0 and 1, and the second one 2 and 3."""
        phases = [SimpleNamespace(calls=[Call("put_vara_all", var=0, region=region)]) for region in ("[0] [2]", "[2] [2]")]
        definitions = SimpleNamespace(vars=[SimpleNamespace(name=b"v", part=0, filled=False)], is_record=lambda var: False)
        merged = SimpleNamespace(definitions=definitions, ranks=[SimpleNamespace(phases=phases)],
                                 coverage=lambda number, records: regions.Coverage([4], records))
        found = FileFindings(merged, raced, part)
        found.compare(self.made(*first), self.made(*second), "d.nc")
        return found

    def test_a_part_that_differs(self):
        found = self.findings((1, 2, 0, 0), (1, 5, 0, 0), {}, 0)
        self.assertEqual((found.found, found.state), (["the file: before redefinition 1: v[1] is 2, and 5 in the proved file"], "differs"))

    def test_what_is_put_later_may_hold_anything(self):
        found = self.findings((1, 2, 7, 0), (1, 2, 0, 0), {}, 0)
        self.assertEqual((found.found, len(found.remarks), found.state), ([], 1, "layout"))
        self.assertEqual(self.findings((1, 2, 7, 0), (1, 2, 0, 0), {}, None).found, ["the file: v[2] is 7, and 0 in the proved file"])

    def test_elements_that_puts_race_for(self):
        found = self.findings((1, 2, 3, 4), (1, 5, 3, 4), {0: {1}}, None)
        self.assertEqual((found.found, found.state), ([], "overlap"))

    def test_attributes_of_a_part(self):
        first, second = self.made(1, 2, 3, 4), self.made(1, 2, 3, 4)
        with open(second, "r+b") as file:
            file.seek(HEADER.index(b"K\0\0\0"))
            file.write(b"C")
        self.assertEqual(comparing.compare(first, second, attributes=False).state, "layout")


class Answers(unittest.TestCase):
    def test_gets_in_another_type(self):
        self.assertTrue(same_values(Values("int", [-2, 3]), words.FLOAT, "xC0300000 x40700000"))
        self.assertFalse(same_values(Values("int", [-3, 3]), words.FLOAT, "xC0300000 x40700000"))
        self.assertTrue(same_values(Values("double", [words.pattern(6, 7.0)]), 4, "7"))


class Plans(unittest.TestCase):
    """A collective put of two ranks, two bytes each with a gap of one: a window of five bytes that is read first, by one aggregator."""

    STEP = {"mark": "m0", "collective": True, "overlap": None,
            "calls": [{"rank": r, "call": 0, "name": "put_vara_all", "answer": "ok"} for r in (0, 1)],
            "put": {"asked": [{"rank": 0, "bytes": 2, "pieces": 1}, {"rank": 1, "bytes": 2, "pieces": 1}],
                    "domains": [{"aggregator": 0, "from": 8, "to": 13, "windows": [
                        {"from": 8, "to": 13, "hole": True, "shares": [{"rank": 0, "bytes": 2}, {"rank": 1, "bytes": 2}], "pieces": []}]}]},
            "get": {"asked": [], "domains": []},
            "device": [{"call": "read", "place": 8, "length": 5}, {"call": "write", "place": 8, "length": 5}]}

    def test_a_step(self):
        ranks = [SimpleNamespace(calls=[Call("put_vara_all", var=0, region="[0] [2]", name="put_vara_schar_all", took=0.25 + r)], posts=dict)
                 for r in (0, 1)]
        part = SimpleNamespace(number=0, ranks=ranks, definitions=SimpleNamespace(variable_word=lambda number: "v"))
        step, = planning.steps_of(part, {"steps": [self.STEP]})
        self.assertEqual((step.variables, step.pieces.most, step.bytes.total, step.windows, step.holes), (["v"], 1, 4, 1, 1))
        self.assertEqual((step.reads.total, step.writes.total, step.by_aggregator, step.seconds), (5, 5, {0: 4}, 1.25))


class Traces(unittest.TestCase):
    def trace(self, rank, **head):
        path = os.path.join(self.folder.name, "t.%d%s" % (rank, head.get("run", "")))
        with open(path, "w") as out:
            out.write(json.dumps(dict({"nctrace": 2, "run": "1", "rank": rank, "ranks": 2, "started": 1}, **head)) + "\n")
        return path

    def setUp(self):
        self.folder = tempfile.TemporaryDirectory()
        self.addCleanup(self.folder.cleanup)

    def test_an_earlier_run(self):
        paths = [self.trace(0, run="2", started=2), self.trace(1, run="2", started=2), self.trace(1)]
        traces, remarks = read_heads(paths)
        self.assertEqual(([t.rank for t in traces], len(remarks)), ([0, 1], 1))

    def test_an_earlier_run_without_a_name(self):
        paths = [self.trace(0, run="", started=2), self.trace(1, run="", started=2), self.trace(2, run="", ranks=3)]
        traces, remarks = read_heads(paths)
        self.assertEqual(([t.rank for t in traces], len(remarks)), ([0, 1], 1))

    def test_a_line_that_is_none(self):
        path = self.trace(0)
        with open(path, "a") as out:
            out.write('{"n":0} {"n":1}\n')
        with self.assertRaises(TraceFault):
            list(read_heads([path])[0][0].events())

    def test_two_traces_of_a_rank(self):
        path = self.trace(0)
        with self.assertRaises(TraceFault):
            read_heads([path, path])

    def test_another_version(self):
        with self.assertRaises(TraceFault):
            read_heads([self.trace(0, nctrace=1)])

    def test_values_beside_a_trace(self):
        path = self.trace(0, order="big")
        with open(path + ".values", "wb") as values:
            values.write(struct.pack(">3h", 1, -2, 3))
        trace = read_heads([path])[0][0]
        self.addCleanup(trace.close)
        stored = Stored(trace, 2, 2, "short")
        self.assertEqual((list(stored.load()), list(stored.part(1, 5).load())), ([-2, 3], [3]))

    def test_zeros_are_counted(self):
        self.assertEqual(Repeated(3, 7).part(1, 5).load(), [7, 7])


if __name__ == "__main__":
    unittest.main()
