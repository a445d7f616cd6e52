"""What a script's calls are written as. The wanted lines are typed after docs/SCRIPT.md, the patterns after IEEE 754."""
import math
import os
import random
import re
import struct
import sys
import time
import unittest
from unittest import mock

import ncrun
from ncrun import Bits, Script, ScriptError

TABLE = os.path.join(os.path.dirname(__file__), "../../../crates/script_spec/specs/CallTable.antt")


def here():
    return sys._getframe(1).f_lineno


def small(**more):
    """A script with a scalar and variables of one, two and three dimensions."""
    s = Script(version=5, ranks=3, **more)
    s.def_dims(t=None, y=2, x=3)
    s.def_var("one", "int")
    s.def_var("v", "int", ["x"])
    s.def_var("f", "float", "y x")
    s.def_var("d", "double", "t x")
    s.def_var("c", "char", "y x")
    return s


def line(make):
    """The line of the script that is made of a call."""
    s = small()
    make(s.rank(1))
    return s.text().splitlines()[-2]


def words(kind, values):
    return ncrun.encoded(kind, values).words


PUTS = [("var1", ("v", 2, 7), "v [2] 7"), ("var", ("v", [7, 8, 9]), "v 7 8 9"), ("vara", ("v", [0], [2], [7, 8]), "v [0] [2] 7 8"),
        ("vars", ("v", [0], [2], [2], [7, 8]), "v [0] [2] [2] 7 8"),
        ("varm", ("f", [0, 0], [2, 3], None, [1, 2], [1, -2, 4, 8, 16, 32]), "f [0,0] [2,3] [1,1] [1,2] x3F800000 xC0000000 x40800000 x41000000 x41800000 x42000000"),
        ("varn", ("v", [[0], [2]], [[1], [1]], [7, 8]), "v 2 [0] [1] [2] [1] 7 8")]
GETS = [("var1", ("f", [1, 2]), "f [1,2]"), ("var", ("one",), "one"), ("vara", ("f", [0, 0], [2, 1]), "f [0,0] [2,1]"),
        ("vars", ("f", [0, 0], [1, 2], [1, 2]), "f [0,0] [1,2] [1,2]"),
        ("varm", ("f", [0, 0], [2, 3]), "f [0,0] [2,3] [1,1] [3,1]"), ("varn", ("v", [0, 2]), "v 2 [0] [1] [2] [1]")]
OTHERS = [("wait", (), "wait all"), ("wait_all", (), "wait_all all"), ("cancel", (), "cancel all"), ("wait_all", ([],), "wait_all"),
          ("buffer_attach", (64,), "buffer_attach 64"), ("buffer_detach", (), "buffer_detach"), ("begin_indep_data", (), "begin_indep_data"),
          ("end_indep_data", (), "end_indep_data"), ("sync_numrecs", (), "sync_numrecs"), ("inq_dimlen", ("x",), "inq_dimlen x"),
          ("fill_var_rec", ("d", 4), "fill_var_rec d 4")]
ALL = [*((f"put_{form}{end}", given, f"put_{form}{end} {told}") for form, given, told in PUTS for end in ("", "_all")),
       *((f"get_{form}{end}", given, f"get_{form}{end} {told}") for form, given, told in GETS for end in ("", "_all")),
       *((f"{post}_{form}", given, f"{post}_{form} 1 {told}") for form, given, told in PUTS for post in ("iput", "bput")),
       *((f"iget_{form}", given, f"iget_{form} 1 {told}") for form, given, told in GETS), *OTHERS]


class Lines(unittest.TestCase):
    def test_each_call_once(self):
        for name, given, told in ALL:
            with self.subTest(name):
                self.assertEqual(line(lambda rank: getattr(rank, name)(*given)), f"1 {told}")

    def test_no_call_is_left_out(self):
        """Those of docs/SCRIPT.md, and those of the table that the proved reader goes by."""
        forms = [f"{p}_{f}{e}" for p, ends in (("put", ("", "_all")), ("get", ("", "_all")), ("iput", ("",)), ("bput", ("",)), ("iget", ("",)))
                 for f in ("var", "var1", "vara", "vars", "varm", "varn") for e in ends]
        self.assertEqual(sorted({name for name, _, _ in ALL}), sorted([*forms, *{name for name, _, _ in OTHERS}]))
        if not os.path.exists(TABLE):
            self.skipTest("the table of the calls is not there")
        with open(TABLE, encoding="utf-8") as table:
            plain = re.findall(r'record \{ word = codes "(\w+)"', table.read())
        self.assertEqual(sorted(plain), sorted({name for name, _, _ in OTHERS}))

    def test_definitions(self):
        s = Script(version=1, ranks=2, fill=True, hint={"cb_nodes": 2})
        s.hint(threads=False, overlap="serial")
        s.def_dim("t")
        s.def_dim("x", 4)
        v = s.def_var("v", "NC_SHORT", ["t", "x"], units="K", _FillValue=-1)
        s.def_var("w", "f8", v.dims, scale=[0.5, -2.0])
        s.put_att("title", 'two "halves"\n\x00')
        s.put_att("version", 3)
        s.put_att("range", [1, 2, 3], type="byte", var="v")
        s.put_att("none", "")
        self.assertEqual(s.text().splitlines(), [
            "create 1", "ranks 2", "fill", "hint cb_nodes 2", "hint threads off", "hint overlap serial", "dim t unlimited", "dim x 4",
            "var short v [t,x]", 'att v units char "K"', "att v _FillValue short -1", "var double w [t,x]",
            "att w scale double x3FE0000000000000 xC000000000000000", 'att : title char "two \\"halves\\"\\n\\x00"', "att : version int 3",
            "att v range byte 1 2 3", 'att : none char ""', "data", "end"])

    def test_an_existing_dataset(self):
        s = Script.open(small(), ranks=2)
        s.def_var("w", "float", "y x")
        s.every().put_var1_all("w", [0, 0], 1)
        self.assertEqual(s.text().splitlines(), ["open", "ranks 2", "var float w [y,x]", "data", "0 put_var1_all w [0,0] x3F800000",
                                                 "1 put_var1_all w [0,0] x3F800000", "end"])

    def test_every_and_idle(self):
        s = small()
        s.every([0, 2]).put_vara_all("v", lambda rank: [rank], [1], lambda rank: [10 * rank])
        s.idle()
        s.rank(0).get_var_all("one")
        s.rank(0).begin_indep_data()
        s.rank(0).end_indep_data()
        s.rank(0).wait_all()
        s.rank(0).fill_var_rec("d", 1)
        s.idle(2)
        self.assertEqual([it[2:] for it in s.text().splitlines() if it.startswith("1 ")], ["put_vara_all v [0] [0]"])
        self.assertEqual([it[2:] for it in s.text().splitlines() if it.startswith("2 ")], [
            "put_vara_all v [2] [1] 20", "get_vara_all v [0] [0]", "begin_indep_data", "end_indep_data", "wait_all", "fill_var_rec d 1"])

    def test_requests_go_to_the_wait_of_their_rank(self):
        s = small()
        posted = s.every().iput_var1("v", lambda rank: rank, 7)
        more = s.rank(1).iget_var1("v", 0)
        s.every().wait_all([posted, more])
        self.assertEqual(s.text().splitlines()[-4:-1], ["0 wait_all 1", "1 wait_all 1 2", "2 wait_all 1"])
        with self.assertRaisesRegex(ScriptError, "was not posted by rank 0"):
            s.rank(0).wait_all([more])
        with self.assertRaisesRegex(ScriptError, "is no request"):
            s.rank(0).wait_all(5)

    def test_the_shape_of_the_values_is_the_count(self):
        self.assertEqual(line(lambda rank: rank.put_vara("f", [0, 0], values=[[1, 2], [3, 4]])).split()[3:5], ["[0,0]", "[2,2]"])
        self.assertEqual(line(lambda rank: rank.put_vara("f", [0, 0], values=[1, 2])).split()[4], "[1,2]")
        self.assertEqual(line(lambda rank: rank.put_vars("f", [0, 0], stride=[1, 2], values=[[1, 2]])).split()[4:6], ["[1,2]", "[1,2]"])
        self.assertEqual(line(lambda rank: rank.put_vara("c", [0, 0], values=["abc", b"def"])), '1 put_vara c [0,0] [2,3] "abcdef"')

    def test_one_value_stands_for_all(self):
        self.assertEqual(line(lambda rank: rank.put_var("v", 7)), "1 put_var v 7 7 7")
        self.assertEqual(line(lambda rank: rank.put_vara("f", [0, 0], [2, 3], 1.5)), "1 put_vara f [0,0] [2,3] seqx 6 x3FC00000 x0")

    def test_a_varn_without_a_region(self):
        self.assertEqual(line(lambda rank: rank.put_varn("f", [], [], [])), "1 put_varn f 1 [0,0] [0,0]")

    def test_a_record_variable_takes_any_number_of_records(self):
        self.assertEqual(line(lambda rank: rank.put_var("d", [0.0] * 6)), "1 put_var d seqx 6 x0000000000000000 x0")


class Values(unittest.TestCase):
    def test_bits_of_floats(self):
        for value, wanted in [(1.0, "x3F800000"), (-0.0, "x80000000"), (0.1, "x3DCCCCCD"), (1e-45, "x00000001"), (2 ** -149 * 0x7FFFFF, "x007FFFFF"),
                              (math.inf, "x7F800000"), (-math.inf, "xFF800000"), (3.4028234663852886e38, "x7F7FFFFF"), (16777217, "x4B800000"),
                              (Bits(0x7FA00001), "x7FA00001")]:
            self.assertEqual(words("float", [value]), wanted)
        self.assertEqual(words("float", [1.5, Bits(0xFFC0BEEF)]), "x3FC00000 xFFC0BEEF")

    def test_bits_of_doubles(self):
        payload, = struct.unpack(">d", bytes.fromhex("7FF80000DEADBEEF"))
        for value, wanted in [(5e-324, "x0000000000000001"), (-0.0, "x8000000000000000"), (0.1, "x3FB999999999999A"), (payload, "x7FF80000DEADBEEF"),
                              (1e39, "x48078287F49C4A1D")]:
            self.assertEqual(words("double", [value]), wanted)

    def test_values_that_do_not_fit(self):
        for kind, values, told in [("float", [0.0, 1e39], "1e\\+39 does not fit float"), ("double", [10 ** 400], "does not fit double"),
                                   ("byte", [0, 128], "128 does not fit byte, which goes from -128 to 127"), ("ubyte", [-1], "-1 does not fit ubyte"),
                                   ("uint64", [2 ** 64], "does not fit"), ("int64", [-2 ** 63 - 1], "does not fit"), ("int", [1.0], "1.0 is no whole number"),
                                   ("float", ["a"], "'a' is no number"), ("char", [1], "the type is char"), ("char", ["ab", "c"], "different lengths"),
                                   ("int", [[1, 2], [3]], "different lengths"), ("float", [Bits(2 ** 32)], "no pattern of a float")]:
            with self.subTest(f"{kind} {values}"), self.assertRaisesRegex(ScriptError, told):
                words(kind, values)

    def test_ends_of_the_ranges(self):
        for kind, low, high in [("byte", -128, 127), ("short", -32768, 32767), ("int", -2147483648, 2147483647), ("ubyte", 0, 255),
                                ("ushort", 0, 65535), ("uint", 0, 4294967295), ("int64", -9223372036854775808, 9223372036854775807),
                                ("uint64", 0, 18446744073709551615)]:
            self.assertEqual(words(kind, [low, high]), f"{low} {high}")

    def test_texts(self):
        self.assertEqual(words("char", 'a"b\\c\n\td é'), '"a\\"b\\\\c\\n\\td \\xC3\\xA9"')
        self.assertEqual(words("char", bytes([0, 127, 255])), '"\\x00\\x7F\\xFF"')
        every = bytes(range(256))
        self.assertEqual(ncrun.decoded("char", words("char", every))[0], every)

    def test_runs_only_where_they_are_exact(self):
        self.assertEqual(words("int", range(1000)), "seq 1000 0 1")
        self.assertEqual(words("int", [5] * 100), "seq 100 5 0")
        self.assertEqual(words("short", range(40, -60, -5)), "seq 20 40 -5")
        self.assertEqual(words("int", [*range(1000), 1001]).split(), [*map(str, range(1000)), "1001"])
        self.assertEqual(words("int", [0, 1, 3, 3, 4, 5]), "0 1 3 3 4 5")
        self.assertEqual(words("double", [0.5] * 9), "seqx 9 x3FE0000000000000 x0")
        self.assertEqual(words("float", [1 + n / 8 for n in range(8)]), "seqx 8 x3F800000 x100000")
        self.assertEqual(len(words("float", [n / 8 for n in range(9)]).split()), 9)
        self.assertEqual(words("float", [-0.0] + [0.0] * 8).split()[:2], ["x80000000", "x00000000"])

    def test_a_run_says_the_same(self):
        """seq and seqx by their meaning in docs/SCRIPT.md, against the values that were given."""
        chance = random.Random(42)
        for _ in range(300):
            a, b, n = chance.randrange(-100, 100), chance.randrange(-3, 4), chance.randrange(1, 30)
            numbers = [a + b * k for k in range(n)]
            if chance.random() < 0.5:
                numbers[chance.randrange(n)] += 1
            told = words("int", numbers).split()
            found = [int(told[2]) + k * int(told[3]) for k in range(int(told[1]))] if told[0] == "seq" else list(map(int, told))
            self.assertEqual(found, numbers)
            told = words("float", numbers).split()
            patterns = [int(told[2][1:], 16) + k * int(told[3][1:], 16) for k in range(int(told[1]))] if told[0] == "seqx" else [int(it[1:], 16) for it in told]
            self.assertEqual([struct.unpack(">f", it.to_bytes(4, "big"))[0] for it in patterns], numbers)

    def test_a_million_values_are_quick(self):
        chance = random.Random(1)
        numbers = [chance.randrange(-2 ** 31, 2 ** 31) for _ in range(2 ** 20)]
        floats = [chance.random() for _ in range(2 ** 20)]
        for kind, values in ("int", numbers), ("float", floats), ("double", floats), ("char", chance.randbytes(2 ** 20)):
            began = time.process_time()
            count = words(kind, values).count(" ")
            self.assertLess(time.process_time() - began, 2)
            self.assertEqual(count, sum(it == 32 for it in values) if kind == "char" else 2 ** 20 - 1)


    def test_without_numpy(self):
        with mock.patch.dict(sys.modules, {"numpy": None}):
            self.assertEqual(words("float", [1.5, -2]), "x3FC00000 xC0000000")
            self.assertEqual(line(lambda rank: rank.put_vara("f", [0, 0], values=[[1, 2]])).split()[4], "[1,2]")
            self.assertEqual(ncrun.type_name("f4"), "float")
            s = small()
            call = s.rank(0).get_var("v")
            with self.assertRaises(ImportError):
                ncrun.Answer(call, "ok", "1 2 3").array()
            self.assertEqual(ncrun.Answer(call, "ok", "1 2 3").nested(), [1, 2, 3])


class Mistakes(unittest.TestCase):
    def refused(self, told, make):
        s = small()
        before = s.text()
        with self.assertRaisesRegex(ScriptError, told):
            make(s)
        self.assertEqual(s.text(), before)

    def test_names(self):
        self.refused("there is no variable 'w': there are one, v, f, d, c", lambda s: s.rank(0).get_var("w"))
        self.refused("there is no dimension 'z': there are t, y, x", lambda s: s.def_var("w", "int", "z"))
        self.refused("there is no dimension 'z'", lambda s: s.rank(0).inq_dimlen("z"))
        self.refused("there is no hint 'cb_node'", lambda s: s.hint(cb_node=1))
        self.refused("there is no rank 3", lambda s: s.rank(3))
        self.refused("is no type", lambda s: s.def_var("w", "integer"))
        for name in ("a b", "a\nend", "", "é", 5, "a" * 257):
            self.refused("is no name", lambda s: s.def_dim(name, 1))

    def test_numbers_of_values_and_sizes(self):
        self.refused("wants 2 values, and 3 are given", lambda s: s.rank(0).put_vara("v", [0], [2], [1, 2, 3]))
        self.refused("wants 2 values, and 1 are given", lambda s: s.rank(0).put_vara("v", [0], [2], [1]))
        self.refused("wants 8 values|wants 3 values, and 8 are given", lambda s: s.rank(0).put_vara("c", [0, 0], [1, 3], "too long"))
        self.refused("start \\[0\\] has 1 numbers", lambda s: s.rank(0).get_vara("f", [0], [1, 1]))
        self.refused("a size is at least 0", lambda s: s.rank(0).get_vara("v", [-1], [1]))
        self.refused("no whole number", lambda s: s.rank(0).get_vara("v", [0.5], [1]))
        self.refused("a call has at most 1048576: split it", lambda s: s.rank(0).put_var("d", [0.0] * (2 ** 20 + 1)))
        self.refused("at most 1024 regions", lambda s: s.rank(0).get_varn("v", [0] * 1025))
        self.refused("is a scalar", lambda s: s.rank(0).get_varn("one", []))
        with self.assertRaisesRegex(ScriptError, "wants version 5"):
            Script(version=2).def_var("v", "int64")
        with self.assertRaisesRegex(ScriptError, "version 3"):
            Script(version=3)
        with self.assertRaisesRegex(ScriptError, "65 ranks"):
            Script(version=1, ranks=65)
        with self.assertRaisesRegex(ScriptError, "every variable is a scalar"):
            s = Script(version=1, ranks=2)
            s.def_var("one", "int")
            s.rank(0).put_var_all("one", 1)
            s.idle()

    def test_a_call_that_one_rank_cannot_make_is_made_by_none(self):
        self.refused("128 does not fit|wants 1 values", lambda s: s.every().put_vara_all("v", 0, 1, lambda rank: [0] * (1 + rank // 2)))
        s = small()
        with self.assertRaises(ScriptError):
            s.every().iput_var1("v", lambda rank: 1 - rank, 7)
        self.assertEqual([(rank.calls, rank.meetings, rank.requests) for rank in s.ranks], [([], [], {})] * 3)
        self.assertEqual([it.id for it in s.every().iput_var1("v", 0, 7)], [1, 1, 1])

    def test_each_line_knows_its_line_of_python(self):
        s = Script(version=1)
        first = here() - 1
        s.def_dims(x=4)
        s.def_var("v", "int", "x", units="K")
        s.every().get_vara_all("v", lambda rank: [0],
                               [1])
        lines = {text: place.line for text, place in s.lines()}
        self.assertEqual(lines, {"create 1": first, "ranks 1": first, "dim x 4": first + 2, "var int v [x]": first + 3, 'att v units char "K"': first + 3,
                                 "data": first, "0 get_vara_all v [0] [1]": first + 4, "end": first})
        self.assertTrue(all(place.file == __file__ for _, place in s.lines()))


try:
    import numpy
except ImportError:
    numpy = None


@unittest.skipIf(numpy is None, "numpy is not installed")
class Arrays(unittest.TestCase):
    def test_arrays_of_each_type(self):
        for kind, dtype in ncrun.DTYPES.items():
            if kind != "char":
                self.assertEqual(words(kind, numpy.array([[1, 2], [4, 100]], dtype)), words(kind, [1, 2, 4, 100]))
                self.assertEqual(ncrun.type_name(numpy.dtype(dtype)), kind)
        self.assertEqual(ncrun.type_name(numpy.float32), "float")
        self.assertEqual(ncrun.type_name(numpy.dtype(">i2")), "short")

    def test_bits_are_exact(self):
        patterns = numpy.array([0x7FA00001, 0xFFC0BEEF, 1, 0x80000000], "u4")
        self.assertEqual(words("float", patterns.view("f4")), "x7FA00001 xFFC0BEEF x00000001 x80000000")
        self.assertEqual(words("float", patterns.astype(">u4").view(">f4")), "x7FA00001 xFFC0BEEF x00000001 x80000000")
        self.assertEqual(words("double", numpy.array([0x7FF80000DEADBEEF], "u8").view("f8")), "x7FF80000DEADBEEF")
        self.assertEqual(words("float", [numpy.float32(1.5), numpy.float64(0.1)]), "x3FC00000 x3DCCCCCD")

    def test_orders_of_memory(self):
        field = numpy.arange(6, dtype="i4").reshape(2, 3)
        self.assertEqual(words("int", numpy.asfortranarray(field * field)), "0 1 4 9 16 25")
        self.assertEqual(words("int", field.T), "0 3 1 4 2 5")
        self.assertEqual(words("float", field.T.astype("f4")), words("float", [0, 3, 1, 4, 2, 5]))

    def test_shape_gives_the_count(self):
        self.assertEqual(line(lambda rank: rank.put_vara("f", numpy.array([0, 1]), values=numpy.ones((2, 2), "f4"))).split()[3:5], ["[0,1]", "[2,2]"])
        self.assertEqual(line(lambda rank: rank.put_vara("v", numpy.int64(1), values=numpy.ones((1, 2), "i8"))), "1 put_vara v [1] [2] 1 1")
        self.assertEqual(line(lambda rank: rank.put_vara("c", [0, 0], values=numpy.array([b"abc", b"de"]))), '1 put_vara c [0,0] [2,3] "abcde\\x00"')
        self.assertEqual(line(lambda rank: rank.put_vara("c", [0, 0], values=numpy.array([["a", "b"]]))), '1 put_vara c [0,0] [1,2] "ab"')

    def test_what_is_refused(self):
        for kind, values, told in [("int", numpy.array([1.0]), "values of float64 are given, and the type is int"), ("byte", numpy.array([128]), "128 does not fit byte"),
                                   ("float", numpy.array([1.0, 1e39]), "1e\\+39.* does not fit float"), ("float", numpy.array([1j]), "complex128"),
                                   ("char", numpy.array([1]), "int64 are given"), ("int", numpy.ma.array([1, 2], mask=[0, 1]), "masked"),
                                   ("float", numpy.array(["a"]), "<U1 are given")]:
            with self.subTest(kind), self.assertRaisesRegex(ScriptError, told):
                words(kind, values)
        self.assertEqual(words("float", numpy.array([numpy.inf, 1.0])), "x7F800000 x3F800000")
        self.assertEqual(words("int", numpy.ma.array([1, 2])), "1 2")
        self.assertEqual(words("byte", numpy.array([True, False])), "1 0")

    def test_attributes(self):
        s = small()
        s.put_att("a", numpy.array([1, 2], "i2"))
        s.put_att("b", numpy.float32(0.5))
        self.assertEqual(s.text().splitlines()[-4:-2], ["att : a short 1 2", "att : b float x3F000000"])
