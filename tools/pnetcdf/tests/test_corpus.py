"""Tests of the corpus: its list, and how accounts are counted. Rows are worked out by hand."""
import json
import os
import sys
import tempfile
import unittest

sys.path.insert(0, os.path.join(os.path.dirname(os.path.realpath(__file__)), "..", "corpus"))

from judging import judge, table    # noqa: E402
from programs import Program, read_list     # noqa: E402

LIST = os.path.join(os.path.dirname(os.path.realpath(__file__)), "..", "corpus", "programs.list")


def dataset(whole=True, file="same", refused=None, script=True, cut=(), found=()):
    return {"whole": whole, "file": file, "refused": refused, "script": script, "cut": list(cut), "found": [{"kind": k} for k in found]}


def row(name, datasets, status="0"):
    """The row of a program whose account is that."""
    with tempfile.TemporaryDirectory() as place:
        for file, text in (("status", status), ("account.json", json.dumps(datasets)), ("t.0", "")):
            with open(os.path.join(place, file), "w") as out:
                out.write(text)
        return judge(Program(name, 4, "", []), place, "", False)


class List(unittest.TestCase):
    def test_programs(self):
        programs = read_list(LIST)
        self.assertEqual(150, len(programs))
        self.assertEqual(15, sum(name.startswith("F77/") for name in programs))
        reader = programs["C/get_vara"]
        self.assertEqual((4, "C/put_vara", ["-q", "OUT/put_vara.nc"]), (reader.ranks, reader.after, reader.words))
        self.assertIn(reader.after, programs)


class Rows(unittest.TestCase):
    def test_refused_dataset_leaves_whole(self):
        one = row("C/one", [dataset(), dataset(whole=False, refused="NC_ENOENT", script=False, file="none")])
        self.assertTrue(one.whole)
        self.assertEqual((1, 0, 0), one.scripts())
        self.assertEqual({"same": 1}, dict(one.files()))

    def test_cut_and_none(self):
        two = row("C/two", [dataset(whole=False, cut=["why"]), dataset(whole=False, script=False, cut=["why", "other"])])
        self.assertFalse(two.whole)
        self.assertEqual((0, 1, 1), two.scripts())
        self.assertEqual(["why", "other"], two.ends())

    def test_what_has_no_word_is_not_told(self):
        three = row("C/three", [dataset(found=["overlap", "overlap", "not told"])])
        self.assertEqual({"overlap": 2}, dict(three.told()))

    def test_table_of_none(self):
        self.assertIn("| all | 0 | 0 | 0, 0, 0 | 0 | 0 | 0 | 0 | 0 | 0 | 0 | 0 |", table([]).split("\n"))

    def test_table(self):
        rows = [row("C/one", [dataset()]), row("C/two", [dataset(whole=False, cut=["why"])], "3"), row("F77/three", [])]
        lines = table(rows).split("\n")
        self.assertIn("| C | 2 | 1 | 1, 1, 0 | 2 | 0 | 0 | 0 | 0 | 0 | 0 | 2 |", lines)
        self.assertIn("| C/two | why |", lines)
        self.assertIn("Without a PnetCDF call: F77/three.", lines)
        self.assertIn("Ended with another status than 0: C/two (3).", lines)


if __name__ == "__main__":
    unittest.main()
