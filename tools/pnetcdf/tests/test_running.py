"""Tests of runs: their text, copies of datasets, and answers beside what PnetCDF answered. Texts are as ncrun prints them."""
import os
import tempfile
import unittest
from types import SimpleNamespace

from bridge.answers import compare_call, proved_code
from bridge.calls import Call, Item
from bridge.running import Answer, RunFault, Text, copy, find_program

TEXT = """ranks 2
order m0 s1.0 m1
rank 0
0 put_vara_all ok
1 wait_all ok
  0 ok 5 6
  1 NC_ERANGE
pending 0
rank 1
0 put_vara_all overlap 0 4 1 4 24
1 wait_all ok
pending 0
// file format: CDF-1
0 none of these
"""


def word(rank, call):
    return "call %d of rank %d" % (call.number, rank)


class Texts(unittest.TestCase):
    def setUp(self):
        self.folder = tempfile.TemporaryDirectory()
        self.addCleanup(self.folder.cleanup)

    def path(self, name, content):
        path = os.path.join(self.folder.name, name)
        with open(path, "wb") as out:
            out.write(content)
        return path

    def test_answers(self):
        text = Text(self.path("text", TEXT.encode()))
        first, second = text.answers()
        self.assertEqual(first, [Answer("ok", ""), Answer("ok", "", ["0 ok 5 6", "1 NC_ERANGE"])])
        self.assertEqual(second[0], Answer("overlap", "0 4 1 4 24"))
        self.assertTrue(text.tells("overlap") and not text.tells("ECHAR"))

    def test_a_fault(self):
        text = Text(self.path("text", b"ncrun: script line 3: bad number\n"))
        self.assertEqual((text.first_line(), list(text.answers())), ("ncrun: script line 3: bad number", []))

    def test_zeros_are_left_as_holes(self):
        content = b"a" + bytes(3 << 20) + b"b" + bytes(2 << 20)
        target = os.path.join(self.folder.name, "copy")
        copy(self.path("d.nc", content), target)
        with open(target, "rb") as file:
            self.assertEqual(file.read(), content)
        self.assertLess(512 * os.stat(target).st_blocks, 4 << 20)

    def test_a_program_that_is_not_there(self):
        os.environ["NCSUCH"] = os.path.join(self.folder.name, "none")
        self.addCleanup(os.environ.pop, "NCSUCH")
        with self.assertRaises(RunFault):
            find_program("ncsuch", "NCSUCH")


class Compared(unittest.TestCase):
    """What differs between a call's answer and the proved run's."""

    part = SimpleNamespace(post=lambda rank, number: None)

    def differences(self, call, *answers):
        return list(compare_call(self.part, 1, call, list(answers), word))

    def test_codes(self):
        put = Call("put_vara_all", number=3, code="NC_EEDGE")
        self.assertEqual(self.differences(put, Answer("ok", "")), [("code", "call 3 of rank 1", "NC_EEDGE", "ok")])
        self.assertEqual(self.differences(put, Answer("NC_EEDGE", "")), [])

    def test_a_call_that_never_came_back_is_not_compared(self):
        self.assertEqual(self.differences(Call("put_vara_all", code="-"), Answer("NC_EEDGE", "")), [])

    def test_one_cause_under_two_names(self):
        self.assertEqual(self.differences(Call("fill_var_rec", code="NC_ENOTRECVAR"), Answer("ENOTREC", "")), [])

    def test_values_out_of_range_that_are_filled(self):
        self.assertEqual(self.differences(Call("put_vara_all", code="NC_ERANGE", beyond=(0, 1, 40000)), Answer("ok", "")), [])

    def test_items_of_a_wait(self):
        wait = Call("wait_all 4", number=2, items=[Item(4, "ok")])
        self.assertEqual(self.differences(wait, Answer("ok", "", ["4 NC_EEDGE"])),
                         [("values", "the request of call 2 of rank 1", "ok", "NC_EEDGE")])

    def test_the_first_code_of_several_posts(self):
        call = Call("wait_all 4 5", before=("two", "posts"))
        answers = [Answer("ok", ""), Answer("NC_EEDGE", ""), Answer("ok", "", ["4 ok", "5 NC_EINVAL_REQUEST"])]
        self.assertEqual(proved_code(call, answers), "NC_EEDGE")


if __name__ == "__main__":
    unittest.main()
