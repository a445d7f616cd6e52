"""Runs of the real program. What is wanted is worked out from what was put, or is the code that docs/OUTPUT.md gives to the cause."""
import math
import os
import random
import struct
import sys

import ncrun
from ncrun import Bits, CallRefused, Refused, Script

from .classic import Dataset
from .program import WithProgram


def here():
    return sys._getframe(1).f_lineno


def vector(ranks=1, kind="int", **more):
    s = Script(version=5, ranks=ranks, **more)
    s.def_dims(x=4)
    s.def_var("v", kind, "x")
    return s


class Answers(WithProgram):
    def test_each_call_once(self):
        """A value that a call put comes back by the call that gets in the same form."""
        s = Script(version=5, ranks=2)
        s.def_dims(t=None, y=2, x=3)
        for form in ("var", "var1", "vara", "vars", "varm", "varn"):
            for end in ("", "_all", "_iput", "_bput"):
                s.def_var(form + end, "short", "y x")
        s.def_var("r", "double", "t x")
        regions = {"var": (), "var1": ([1, 2],), "vara": ([0, 1], [2, 2]), "vars": ([0, 0], [2, 2], [1, 2]), "varm": ([0, 0], [2, 3], [1, 1], [1, 2]),
                   "varn": ([[0, 2], [1, 0]], [[1, 1], [1, 2]])}
        values = {"var": [1, -2, 3, 4, 5, 6], "var1": 7, "vara": [8, 9, 1, 5], "vars": [4, 3, 9, 1], "varm": [3, 1, 4, 1, 5, 9], "varn": [2, 7, 1]}
        first = s.rank(0)
        s.every().buffer_attach(1000)
        s.every().begin_indep_data()
        gets = {}
        for form, region in regions.items():
            getattr(first, "put_" + form)(form, *region, values[form])
            gets[form] = [getattr(first, "get_" + form)(form, *region)]
        s.every().end_indep_data()
        for form, region in regions.items():
            getattr(first, f"put_{form}_all")(form + "_all", *region, values[form])
            s.idle()
            gets[form].append(getattr(first, f"get_{form}_all")(form + "_all", *region))
            s.idle()
            posted = [getattr(first, f"{post}_{form}")(f"{form}_{post}", *region, values[form]) for post in ("iput", "bput")]
            first.wait_all(posted)
            s.idle()
            gets[form] += [getattr(first, f"iget_{form}")(f"{form}_{post}", *region) for post in ("iput", "bput")]
        first.wait_all()
        s.idle()
        s.every().fill_var_rec("r", 1)
        s.every().sync_numrecs()
        length = s.every().inq_dimlen("t")
        dropped = first.iput_var1("r", [0, 0], 1)
        cancelled = first.cancel(dropped)
        s.every().begin_indep_data()
        late = first.iput_var1("r", [0, 0], 2.5)
        waited = first.wait(late)
        s.every().end_indep_data()
        s.every().buffer_detach()
        run = s.run("d.nc", check=True)
        for form, calls in gets.items():
            wanted = [values[form]] if form == "var1" else values[form]
            self.assertEqual([it.values for it in run[calls]], [wanted] * 4, form)
        self.assertEqual([it.value for it in run[length]], [2, 2])
        self.assertEqual([(it.call, it.code) for it in run[cancelled].items], [(dropped, "ok")])
        self.assertEqual([(it.call, it.code) for it in run[waited].items], [(late, "ok")])
        self.assertEqual(run.pending, [0, 0])
        self.assertEqual(Dataset("d.nc").values("var_all"), values["var"])
        self.assertEqual(Dataset("d.nc").values("varn_bput")[2:5], values["varn"])

    def test_any_regions(self):
        """Boxes, strides, index maps and many regions at random, against a plain list of what stands at which index."""
        chance, dims = random.Random(7), (4, 3, 5)
        s = Script(version=1)
        s.def_dims(z=4, y=3, x=5)
        s.def_var("v", "double", "z y x")
        field, gets = {}, []
        for _ in range(150):
            stride = [chance.randint(1, 2) for _ in dims]
            start = [chance.randrange(size) for size in dims]
            count = [chance.randint(1, (size - 1 - first) // step + 1) for size, first, step in zip(dims, start, stride)]
            at = [(start[0] + i * stride[0], start[1] + j * stride[1], start[2] + k * stride[2])
                  for i in range(count[0]) for j in range(count[1]) for k in range(count[2])]
            imap = chance.choice([None, [1, count[0], count[0] * count[1]]])
            if imap:                                      # memory by columns
                at.sort(key=lambda it: it[::-1])
            ones = [[1, 1, 1]] * len(at)
            if chance.random() < 0.5:
                values = [chance.uniform(-1, 1) for _ in at]
                field.update(zip(at, values))
                chance.choice([lambda: s.rank(0).put_varm_all("v", start, count, stride, imap, values), lambda: s.rank(0).put_varn_all("v", at, ones, values)])()
            else:
                got = chance.choice([lambda: s.rank(0).get_varm_all("v", start, count, stride, imap), lambda: s.rank(0).get_varn_all("v", at)])()
                gets.append((got, [field.get(it, 0.0) for it in at]))
        run = s.run("d.nc", check=True)
        self.assertEqual([run[got].values for got, _ in gets], [wanted for _, wanted in gets])
        self.assertEqual(Dataset("d.nc").values("v"), [field.get((z, y, x), 0.0) for z in range(4) for y in range(3) for x in range(5)])

    def test_floats_come_back_exactly(self):
        doubles = [5e-324, -0.0, 0.1, math.inf, -math.pi, 1.7976931348623157e308, struct.unpack(">d", bytes.fromhex("7FF80000DEADBEEF"))[0]]
        s = Script(version=1)
        s.def_dims(d=len(doubles), f=5)
        s.def_var("d", "double", "d")
        s.def_var("f", "float", "f")
        s.rank(0).put_var_all("d", doubles)
        s.rank(0).put_var_all("f", [2 ** -149, -0.0, 0.1, Bits(0x7FA00001), Bits(0xFFC0BEEF)])
        d, f = s.rank(0).get_var_all("d"), s.rank(0).get_var_all("f")
        run = s.run("d.nc", check=True)
        self.assertEqual(struct.pack(">7d", *run[d].values), struct.pack(">7d", *doubles))
        self.assertEqual(run[f].bits, [1, 0x80000000, 0x3DCCCCCD, 0x7FA00001, 0xFFC0BEEF])
        self.assertEqual(run[f].values[:2], [2 ** -149, 0.0])
        self.assertEqual(run[f].values[2], 0.10000000149011612)
        data = Dataset("d.nc")
        self.assertEqual(struct.pack(">7d", *data.values("d")), struct.pack(">7d", *doubles))
        begin = run.offsets.vars["f"].begin
        self.assertEqual(data.data[begin:begin + 20].hex(), "00000001" "80000000" "3dcccccd" "7fa00001" "ffc0beef")

    def test_texts_come_back_as_bytes(self):
        s = Script(version=1)
        s.def_dims(n=2, letter=128)
        s.def_var("c", "char", "n letter")
        s.rank(0).put_var_all("c", bytes(range(256)))
        got, none = s.rank(0).get_var_all("c"), s.rank(0).get_vara_all("c", [0, 0], [0, 0])
        run = s.run("d.nc", check=True)
        self.assertEqual(run[got].values, bytes(range(256)))
        self.assertEqual(run[got].nested(), [bytes(range(128)), bytes(range(128, 256))])
        self.assertEqual(run[none].values, b"")

    def test_codes_are_told(self):
        s = vector(2)
        refused = s.rank(0).get_vara_all("v", [3], [2])
        fine = s.rank(1).get_vara_all("v", [0], [0])
        independent = s.rank(0).get_var1("v", 0)
        detached = s.rank(1).buffer_detach()
        run = s.run("d.nc")
        self.assertEqual([run[it].code for it in (refused, fine, independent, detached)], ["NC_EEDGE", "ok", "NC_ENOTINDEP", "NC_ENULLABUF"])
        self.assertEqual([run[it].values for it in (refused, fine)], [None, []])
        self.assertEqual([it.call for it in run.refused()], [refused, independent, detached])
        self.assertIs(run.answers[0][1], run[independent])

    def test_check_raises_the_first(self):
        s = vector(2)
        s.rank(1).buffer_detach(); line = here()
        s.every().get_vara_all("v", [3], [2])
        with self.assertRaisesRegex(CallRefused, "rank 1 buffer_detach: NC_ENULLABUF") as caught:
            s.run("d.nc", check=True)
        self.assertEqual((caught.exception.place.file, caught.exception.place.line), (__file__, line))
        s = vector()
        unknown = s.rank(0).iput_var1("v", 0, 1)
        s.rank(0).cancel(unknown)
        s.rank(0).wait_all(unknown)
        with self.assertRaisesRegex(CallRefused, "NC_EINVAL_REQUEST"):
            s.run("d.nc", check=True)

    def test_overlaps(self):
        s = vector(3)
        s.rank(0).put_vara_all("v", [0], [3], [1, 2, 3])
        posted = s.rank(1).iput_vara("v", [2], [2], [8, 9])
        s.idle()
        s.every([1]).iput_var1("v", 0, 5)
        s.rank(0).iput_var1("v", 1, 5)
        other = s.rank(2).iput_vara("v", [2], [1], [7])
        s.every().wait_all()
        met = s.every().put_vara_all("v", [3], [1], 4)
        run = s.run("d.nc")
        overlap, blocking = run.overlaps
        self.assertEqual((overlap.first, overlap.second, overlap.element), ((1, posted), (2, other), ("v", (2,))))
        self.assertEqual(overlap.byte, run.offsets.vars["v"].begin + 4 * 2)
        self.assertEqual((blocking.first, blocking.second, blocking.element), ((0, None), (1, None), ("v", (3,))))
        self.assertEqual([it.code for it in run[met]], ["overlap"] * 3)
        self.assertEqual([it.overlap for it in run[met]], [blocking] * 3)
        self.assertEqual(Dataset("d.nc").values("v"), [1, 2, 3, 0])

    def test_order_pending_and_requests(self):
        s = vector(2, hint={"threads": False})
        s.every().begin_indep_data()
        put = s.rank(1).put_var1("v", 0, 5)
        s.every().end_indep_data()
        left = s.rank(0).iput_var1("v", 1, 5)
        none = s.rank(1).iget_vara("v", [0], [0])
        waited = s.every().wait_all([none])
        run = s.run("d.nc")
        self.assertEqual([it.mark for it in run.order], ["m0", "s1.1", "m1", "m2"])
        self.assertEqual(run.order[1].calls, (put,))
        self.assertEqual(run.order[3].calls, tuple(waited))
        self.assertEqual((run.pending, run.unwaited()), ([1, 0], [left]))
        self.assertEqual((run[left].code, run[none].code, [it.code for it in run[waited[1]].items]), ("ok", "null", ["null"]))

    def test_offsets(self):
        s = Script(version=2)
        s.def_dims(t=None, y=2, x=3)
        s.def_var("a", "short", "y x")
        s.def_var("one", "double")
        s.def_var("r", "short", "t x")
        s.def_var("w", "byte", "t y x")
        s.rank(0).put_vara_all("w", [1, 0, 0], [1, 2, 3], 1)
        found = s.run("d.nc", check=True).offsets
        self.assertEqual((found.version, found.dims["t"], found.dims["x"]), (2, ("t", 2, True), ("x", 3, False)))
        self.assertEqual([(it.type, it.shape, it.size, it.is_record) for it in found.vars.values()],
                         [("short", (2, 3), 12, False), ("double", (), 8, False), ("short", (2, 3), 6, True), ("byte", (2, 2, 3), 6, True)])
        self.assertEqual([it.begin for it in found.vars.values()], [Dataset("d.nc").vars[name][3] for name in found.vars])
        self.assertEqual(found.record_size, 16)           # 6 bytes of each, rounded up to 8
        self.assertEqual(found.element(found.vars["a"].begin + 9), ("a", (1, 1)))
        self.assertEqual(found.element(found.vars["w"].begin + 16 + 4), ("w", (1, 1, 1)))
        self.assertIsNone(found.element(0))
        self.assertEqual(repr(ncrun.offsets("d.nc", "ncrun").vars), repr(found.vars))

    def test_records_of_a_lone_variable_have_no_padding(self):
        s = Script(version=1)
        s.def_dims(t=None, x=3)
        s.def_var("r", "short", "t x")
        s.rank(0).put_var1_all("r", [2, 1], 7)
        found = s.run("d.nc", check=True).offsets
        self.assertEqual((found.record_size, found.element(found.vars["r"].begin + 2 * 6 + 2)), (6, ("r", (2, 1))))

    def test_watchers(self):
        s = Script(version=1)
        s.def_dim("t")
        s.def_var("r", "short", "t")
        s.rank(0).put_var1_all("r", 3, 7)
        run = s.run("d.nc", watch=2)
        self.assertEqual([(len(it), it[-1]) for it in run.watchers], [(17, (1, 4))] * 2)

    def test_names_are_those_of_the_dataset(self):
        vector(1, "float").run("d.nc")
        s = Script.open("d.nc", ranks=2)
        got = s.every().get_var1_all("v", lambda rank: rank)
        self.assertEqual([it.values for it in s.run()[got]], [[0.0]] * 2)
        with self.assertRaisesRegex(ncrun.ScriptError, "there is no variable 'w': there are v"):
            s.rank(0).get_var("w")

    def test_hints_give_the_same(self):
        for hint in ({"threads": False}, {"cb_nodes": 1, "cb_buffer_size": 4}, {"overlap": "serial", "striping_unit": 8}):
            s = vector(2, hint=hint)
            s.every().put_vara_all("v", lambda rank: 2 * rank, 2, lambda rank: [rank, -rank])
            self.assertEqual(s.run("d.nc", check=True).status, 0)
            self.assertEqual(Dataset("d.nc").values("v"), [0, 0, 1, -1])

    def test_arrays(self):
        try:
            import numpy
        except ImportError:
            self.skipTest("numpy is not installed")
        field = numpy.arange(6, dtype="f4").reshape(2, 3) / 8
        field.view("u4")[1, 2] = 0x7FA00001
        s = Script(version=1)
        s.def_dims(y=2, x=3, letter=2)
        s.def_var("f", field.dtype, "y x")
        s.def_var("c", "char", "y letter")
        s.rank(0).put_vara_all("f", [0, 0], values=field)
        s.rank(0).put_var_all("c", numpy.array(["ab", "c"]))
        got, texts = s.rank(0).get_var_all("f"), s.rank(0).get_var_all("c")
        run = s.run("d.nc", check=True)
        self.assertEqual((run[got].array().dtype, run[got].array().shape, run[got].array().tobytes()), (field.dtype, (2, 3), field.tobytes()))
        self.assertEqual(run[texts].array().tolist(), [[b"a", b"b"], [b"c", b""]])


class Refusals(WithProgram):
    def refused(self, s, status, line, dataset="d.nc", **how):
        with self.assertRaises(Refused) as caught:
            s.run(dataset, **how)
        self.assertEqual((caught.exception.status, caught.exception.line), (status, line))
        self.assertIn(line, str(caught.exception))
        return caught.exception

    def test_a_fault_of_the_script(self):
        s = Script(version=1)
        s.def_dims(x=4); line = here()
        s.def_dim("x", 5)
        fault = self.refused(s, 3, "ncrun: script line 4: named twice")
        self.assertEqual((fault.script_line, fault.places), (4, [(__file__, line + 1)]))
        self.assertIn(f"`dim x 5`: {__file__}, line {line + 1}", str(fault))
        s = vector()
        s.hint(cb_nodes=65); line = here()
        self.assertEqual(self.refused(s, 3, "ncrun: script line 3: bad number").places, [(__file__, line)])

    def test_ranks_that_differ(self):
        s = vector(3)
        s.every().get_var_all("v")
        s.rank(0).put_var_all("v", 1); line = here()
        s.rank(1).put_var1_all("v", 1, 1)
        s.rank(2).get_var_all("v")
        s.rank(1).sync_numrecs()
        fault = self.refused(s, 3, f"ncrun: script line {len(s.lines())}: ranks 0 and 2 differ at collective call 1")
        self.assertEqual(fault.places, [(__file__, line), (__file__, line + 2)])
        self.assertRegex(str(fault), "`rank 0 put_var_all v`.*\n.*`rank 2 get_var_all v`")

    def test_a_rank_whose_lines_are_taken_away(self):
        """Without them the rank has no collective call, and the last that it did is told."""
        s = vector(2)
        s.every().put_vara_all("v", lambda rank: 2 * rank, 2, 1)
        s.rank(1).meetings.clear()
        s.called = [it for it in s.called if not it[0].startswith("1 ")]
        fault = self.refused(s, 3, f"ncrun: script line {len(s.lines())}: ranks 0 and 1 differ at collective call 0")
        self.assertIn("rank 1 has no collective call 0", str(fault))
        s = vector(2)
        s.every().begin_indep_data()
        s.every().put_vara("v", lambda rank: 2 * rank, 2, lambda rank: [rank + 1, rank + 1])
        s.every().end_indep_data()
        s.called = [it for it in s.called if not it[0].startswith("1 put")]
        with self.assertRaisesRegex(ncrun.NcrunError, "is no answer to rank 1 put_vara"):
            s.run("d.nc")
        self.assertEqual(Dataset("d.nc").values("v"), [1, 1, 0, 0])

    def test_a_fault_of_a_redefinition(self):
        vector().run("d.nc")
        s = Script.open("d.nc")
        s.def_dim("y", 3)
        s.def_var("w", "int", "y x")
        s.def_var("v", "int", "y"); line = here()
        s.put_att("units", "K", var="v")
        self.assertEqual(self.refused(s, 4, "ncrun: redefinition 2: name taken").places, [(__file__, line)])
        s = Script.open("d.nc")
        s.put_att("units", "K", var="v")
        s.run()
        self.assertEqual(self.refused(s, 4, "ncrun: redefinition 0: name taken").places, [(__file__, line + 4)])

    def test_a_fault_of_the_layout(self):
        s = Script(version=1)
        s.def_dims(x=2 ** 30, y=4)
        s.def_var("small", "int", "y")
        s.def_var("large", "int", "x"); line = here()
        self.assertEqual(self.refused(s, 4, "ncrun: variable 1 is too large").places, [(__file__, line)])

    def test_other_statuses(self):
        self.refused(vector(), 2, "ncrun: usage: ncrun [--offsets] [--generate SEED [--size N]] [--watch N] DATASET", watch=9)
        self.refused(vector(), 7, "ncrun: disk fault", "missing/d.nc")
        with open("notes.txt", "w", encoding="ascii") as notes:
            notes.write("no dataset")
        self.refused(Script.open(vector()), 4, "ncrun: header is not CDF", "notes.txt")
        with self.assertRaisesRegex(Refused, "header is not CDF"):
            Script.open("notes.txt")
        with self.assertRaises(FileNotFoundError):
            vector().run("d.nc", program="missing/ncrun")

    def test_a_program_that_tells_little(self):
        """Status 8 prints nothing, a signal neither; what stands on standard error is told."""
        for command, status, told in [("exit 8", 8, "status 8 (want of memory)"), ("kill -9 $$", -9, "status -9 (a signal)"),
                                      ("echo ncrun: disk fault; echo no space on d.nc >&2; exit 7", 7, "ncrun: disk fault\n  no space on d.nc")]:
            with open("other", "w", encoding="ascii") as program:
                program.write(f"#!/bin/sh\ncat > /dev/null\n{command}\n")
            os.chmod("other", 0o755)
            with self.assertRaises(Refused) as caught:
                vector().run("d.nc", program="./other")
            self.assertEqual(caught.exception.status, status)
            self.assertIn(told, str(caught.exception))

    def test_a_path_like_an_option(self):
        vector().run("--offsets")
        self.assertEqual(Dataset("--offsets").values("v"), [0] * 4)

