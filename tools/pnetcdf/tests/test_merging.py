"""Tests of merging: traces of two ranks that are written here, and the scripts and remarks that come of them, worked out by hand."""
import io
import json
import os
import struct
import tempfile
import unittest
from types import SimpleNamespace

from bridge.advice import never_written
from bridge.findings import Diagnosis
from bridge.merging import Merged
from bridge.openings import read_openings

REFUSED = {"code": -38, "name": "NC_ENOTINDEFINE"}
BEGUN = [("create", {"path": "/d.nc", "world": [0, 1], "mode": 0}, {"format": 1}), ("def_dim", {"dim": "x", "length": 4}, {}),
         ("def_var", {"variable": "v", "type": 4, "over": [0]}, {}), ("enddef", {}, {})]
CLOSED = [("close", {}, {})]


def put(start, call="put_vara_int_all", **answer):
    """A put of one value, which is the first one in the file of values."""
    return call, {"var": 0, "dims": 1, "start": [start], "count": [1], "elements": 1, "memory": "int", "stored": [0, 1]}, answer


def wait(*requests):
    return "wait_all", {"count": len(requests), "requests": list(requests)}, {"statuses": [0] * len(requests)}


def lines_of(rank, calls):
    yield {"nctrace": 2, "run": "1", "rank": rank, "ranks": 2, "started": 1.0, "values": True, "order": "little"}
    for number, (call, given, answer) in enumerate(calls):
        yield dict({"n": number, "dataset": 0, "call": call, "time": 0.0, "rank": rank}, **given)
        if answer is not None:
            yield dict({"n": number, "code": 0, "took": 0.5}, **answer)
    yield {"end": True, "finalized": True}


class Merging(unittest.TestCase):
    def setUp(self):
        self.folder = tempfile.TemporaryDirectory()
        self.addCleanup(self.folder.cleanup)

    def opening(self, *ranks):
        """The opening whose ranks make these calls; the value of rank r is 7 + r."""
        paths = [os.path.join(self.folder.name, "t.%d" % rank) for rank in range(len(ranks))]
        for rank, (path, calls) in enumerate(zip(paths, ranks)):
            with open(path, "w") as out:
                out.writelines(json.dumps(line) + "\n" for line in lines_of(rank, calls))
            with open(path + ".values", "wb") as out:
                out.write(struct.pack("<i", 7 + rank))
        traced = read_openings(paths)
        for trace in traced.traces:
            self.addCleanup(trace.close)
        return traced.openings[0]

    def merged(self, *ranks):
        return Merged(self.opening(*ranks))

    def calls(self, part):
        """The lines of a part's script behind the definitions."""
        out = io.StringIO()
        part.write_script(out)
        return out.getvalue().split("\ndata\n")[1].split("\n")[:-2]

    def test_a_script(self):
        merged = self.merged(BEGUN + [put(0)] + CLOSED, BEGUN + [put(1)] + CLOSED)
        self.assertEqual(self.calls(merged.parts[0]), ["0 put_vara_all v [0] [1] 7", "1 put_vara_all v [1] [1] 8"])
        self.assertEqual((merged.fault, merged.notes(), merged.remarks(), merged.whole), (None, [], [], True))
        self.assertIn("dim x 4", merged.parts[0].head)

    def test_a_path_with_other_characters(self):
        """The trace has each byte of a path as the character of its number."""
        path = os.path.join("/", "größe.nc").encode().decode("latin-1")
        begun = [("create", dict(BEGUN[0][1], path=path, before="größe.0.before.0".encode().decode("latin-1")), BEGUN[0][2])] + BEGUN[1:]
        opening = self.opening(begun + CLOSED, begun + CLOSED)
        self.assertEqual((opening.path, opening.shown), ("/größe.nc", "/größe.nc, created by 2 ranks"))
        self.assertEqual(opening.copy, os.path.join(self.folder.name, "größe.0.before.0"))

    def test_a_call_that_was_refused(self):
        merged = self.merged(BEGUN + [("enddef", {}, REFUSED), put(0)] + CLOSED, BEGUN + [put(1)] + CLOSED)
        self.assertEqual(merged.remarks(), ["rank 0: enddef is left out, which PnetCDF refused with NC_ENOTINDEFINE"])
        self.assertTrue(merged.whole)

    def test_a_refused_call_that_others_make(self):
        refused = put(9, "put_vara_int_all", code=-237, name="NC_ENULLSTART")
        merged = self.merged(BEGUN + [refused] + CLOSED, BEGUN + [put(1)] + CLOSED)
        self.assertEqual(self.calls(merged.parts[0]), ["0 put_vara_all v [0] [0]", "1 put_vara_all v [1] [1] 8"])

    def test_definitions_that_differ(self):
        other = BEGUN[:1] + [("def_dim", {"dim": "y", "length": 4}, {})] + BEGUN[2:]
        merged = self.merged(BEGUN + CLOSED, other + CLOSED)
        self.assertEqual(merged.fault, "a script has no word for definitions in which ranks differ: ranks 0 and 1 in dimensions: x and y")

    def test_formats_that_differ(self):
        other = [(BEGUN[0][0], BEGUN[0][1], {"format": 5})] + BEGUN[1:]
        self.assertTrue(self.merged(BEGUN + CLOSED, other + CLOSED).fault.endswith("ranks 0 and 1 in the format: CDF-1 and CDF-5"))

    def test_a_dataset_that_is_refused_to_some(self):
        refused = [(BEGUN[0][0], BEGUN[0][1], {"code": -250, "name": "NC_EMULTIDEFINE_CMODE"})]
        self.assertEqual(self.merged(BEGUN + CLOSED, refused).fault,
                         "a script has no word for a dataset that PnetCDF refuses to some ranks: rank 1 had NC_EMULTIDEFINE_CMODE")
        self.assertTrue(self.merged(refused, refused).refused)

    def test_posts_have_ids_of_the_script(self):
        calls = BEGUN + [put(0, "iput_vara_int", request=4), wait(4)] + CLOSED
        merged = self.merged(calls, BEGUN + [wait()] + CLOSED)
        self.assertEqual(self.calls(merged.parts[0]), ["0 iput_vara 0 v [0] [1] 7", "0 wait_all 0", "1 wait_all"])
        self.assertEqual(merged.pending(), [])

    def test_a_post_that_is_never_waited_for(self):
        merged = self.merged(BEGUN + [put(0, "iput_vara_int", request=4)] + CLOSED, BEGUN + CLOSED)
        self.assertEqual([(rank, call.word) for rank, call in merged.pending()], [(0, "iput_vara")])

    def test_more_that_is_defined(self):
        more = [("redef", {}, {"before": "t.0.before.0"}), ("def_var", {"variable": "w", "type": 3, "over": [0]}, {}), ("enddef", {}, {})]
        merged = self.merged(BEGUN + [put(0)] + more + [put(2)] + CLOSED, BEGUN + [put(1)] + more + [put(3)] + CLOSED)
        self.assertEqual([self.calls(part)[0] for part in merged.parts], ["0 put_vara_all v [0] [1] 7", "0 put_vara_all v [2] [1] 7"])
        self.assertEqual((merged.parts[1].head[0], "var short w [x]" in merged.parts[1].head), ("open", True))
        self.assertIsNone(merged.kept(0))
        kept = os.path.join(self.folder.name, "t.0.before.0")
        open(kept, "w").close()
        self.assertEqual((merged.kept(0), merged.kept(1)), (kept, None))

    def test_a_dimension_that_is_renamed_after_its_length_was_asked(self):
        asked = [("inq_dimlen", {"dim": 0}, {"length": 4}), ("rename_dim", {"dim": 0, "new": "y"}, {}), ("inq_dimlen", {"dim": 9}, {"code": -46, "name": "NC_EBADDIM"})]
        merged = self.merged(BEGUN + asked + CLOSED, BEGUN + asked[1:2] + CLOSED)
        self.assertEqual(self.calls(merged.parts[0]), ["0 inq_dimlen y", "0 inq_dimlen no_dimension"])
        self.assertEqual(merged.remarks(), ["the dimension x is renamed to y, and has that name from the start"])

    def test_a_call_that_never_came_back(self):
        hung = put(1)[:2] + (None,)
        diagnosis = Diagnosis(self.opening(BEGUN + [hung], BEGUN + CLOSED), "", None)
        diagnosis.tell_hung()
        self.assertEqual(diagnosis.found, ["hangs: call 0 of rank 0 (put_vara_all v [1] [1]) never came back"])

    def test_a_script_that_is_too_long(self):
        diagnosis = Diagnosis(self.opening(BEGUN + CLOSED, BEGUN + CLOSED), "", None)
        said = SimpleNamespace(first_line=lambda: "ncrun: script line 1: limit of script")
        diagnosis.tell_refused(diagnosis.merged.parts[0], SimpleNamespace(status=3, text=said))
        self.assertEqual(diagnosis.found, ["no run: the script is longer than ncrun takes: 2^26 bytes, 2^20 lines or 2^24 values"])

    def test_what_is_never_written(self):
        merged = self.merged(BEGUN + [put(0)] + CLOSED, BEGUN + [put(1)] + CLOSED)
        self.assertEqual(list(never_written(merged)), ["2 of 4 elements of v are never written."])


if __name__ == "__main__":
    unittest.main()
