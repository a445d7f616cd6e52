"""The examples, each run as it stands. What is wanted of a file is computed from what the example says that it puts."""
import glob
import os
import runpy
import shutil
import struct
import subprocess
import unittest
from unittest import mock

import ncrun

from .classic import Dataset
from .program import WithProgram

EXAMPLES = os.path.join(os.path.dirname(os.path.dirname(os.path.abspath(__file__))), "examples")


def f4(value):
    """The float that is nearest."""
    return struct.unpack(">f", struct.pack(">f", value))[0]


class Examples(WithProgram):
    def run_example(self, name):
        """What the example defines, once it has run; it must be shorter than the scripts that it made."""
        path, texts, ended = f"{EXAMPLES}/{name}.py", [], ncrun.ended
        with mock.patch.object(ncrun, "ended", lambda command, text: texts.append(text) or ended(command, text)), mock.patch("builtins.print"):
            made = runpy.run_path(path)
        with open(path, encoding="utf-8") as file:
            own, script = file.read(), "".join(texts)
        self.assertLess(len(own.splitlines()), len(script.splitlines()), "lines")
        self.assertLess(len(own.split()), len(script.split()), "words")
        return made["s"], made["run"], made

    def test_none_is_left_out(self):
        names = {os.path.basename(it)[:-3] for it in glob.glob(f"{EXAMPLES}/*.py")}
        self.assertEqual(names, {it[5:] for it in dir(self) if it.startswith("test_")} - {"none_is_left_out"})

    def test_blocks_2d(self):
        _, run, made = self.run_example("blocks_2d")
        field = [[f4(250 + 10 * (y // 4 * 2 + x // 4) + (y % 4 * 4 + x % 4) ** 2 / 4) for x in range(8)] for y in range(8)]
        self.assertEqual(Dataset("blocks_2d.nc").values("t"), sum(field, []))
        for rank, halo in enumerate(run[made["halos"]]):
            top, left = max(rank // 2 * 4 - 1, 0), max(rank % 2 * 4 - 1, 0)
            self.assertEqual(halo.nested(), [row[left:left + 5] for row in field[top:top + 5]])

    def test_blocks_3d(self):
        _, run, made = self.run_example("blocks_3d")

        def cell(z, y, x):
            return 100 * (z // 2 * 4 + y // 2 * 2 + x // 2) + z % 2 * 4 + y % 2 * 2 + x % 2
        self.assertEqual(Dataset("blocks_3d.nc").values("cell"), [cell(z, y, x) for z in range(4) for y in range(4) for x in range(4)])
        for rank, halo in enumerate(run[made["halos"]]):
            z, y, x = (0 if at == 0 else 1 for at in (rank // 4, rank // 2 % 2, rank % 2))
            self.assertEqual(halo.nested(), [[[cell(z + k, y + j, x + i) for i in range(3)] for j in range(3)] for k in range(3)])

    def bands(self, records):
        wanted = [time + lev / 10 + lat / 1000 for time in range(2) for lev in range(3) for lat in range(8) for lon in range(5)]
        if records == 3:
            at = {(lev, lat, lon): 2 + lat // 2 / 10 + (lev * 10 + lat % 2 * 5 + lon) / 1000 for lev in range(3) for lat in range(8) for lon in range(5)}
            wanted += [at[lev, lat, lon] for lev in range(3) for lat in range(8) for lon in range(5)]
        return wanted

    def test_bands_4d(self):
        _, run, _ = self.run_example("bands_4d")
        self.assertEqual(Dataset("bands_4d.nc").values("q"), self.bands(2))
        self.assertEqual(run.offsets.dims["time"].length, 2)

    def test_append(self):
        self.run_example("bands_4d")
        _, run, made = self.run_example("append")
        self.assertEqual((made["time"], run.offsets.dims["time"].length), (2, 3))
        self.assertEqual(Dataset("bands_4d.nc").values("q"), self.bands(3))

    def test_transpose(self):
        _, run, made = self.run_example("transpose")
        self.assertEqual(Dataset("transpose.nc").values("h"), [10 * lon + lat for lat in range(6) for lon in range(8)])
        for rank, columns in enumerate(run[made["columns"]]):
            self.assertEqual(columns.values, [10 * lon + lat for lon in range(4 * rank, 4 * rank + 4) for lat in range(6)])

    def test_checkpoint(self):
        _, run, _ = self.run_example("checkpoint")
        for n in range(40):
            self.assertEqual(Dataset("checkpoint.nc").values(f"state_{n}"), [n + cell / 64 for cell in range(24)])
        self.assertEqual((len(run.order), run.pending), (1, [0] * 4))

    def test_restart(self):
        self.run_example("checkpoint")
        _, run, made = self.run_example("restart")
        for n, state in enumerate(made["states"]):
            self.assertEqual(sum((it.values for it in run[state]), []), [n + cell / 64 for cell in range(24)])

    def test_cgrid(self):
        self.run_example("cgrid")
        for name, rows, columns in ("h", 4, 6), ("u", 4, 7), ("v", 5, 6):
            self.assertEqual(Dataset("cgrid.nc").values(name), [y + x / 8 for y in range(rows) for x in range(columns)])

    def test_stations(self):
        _, run, made = self.run_example("stations")
        wanted = [20 + k + hour / 4 if k in (0, 7, 3, 4, 9, 1) else 0.0 for k in range(10) for hour in range(6)]
        self.assertEqual(Dataset("stations.nc").values("obs"), wanted)
        self.assertEqual(run.answers[0][1].values, wanted)

    def test_buffered(self):
        _, run, made = self.run_example("buffered")
        self.assertEqual(Dataset("buffered.nc").values("v"), [100 * rank + k for rank in range(2) for k in range(3) for _ in range(4)])
        self.assertEqual([[run.answers[it.rank][it.number].code for it in part] for part in made["parts"]], [["ok"] * 2, ["ok"] * 2, ["NC_EINSUFFBUF"] * 2])
        self.assertEqual([it.call for it in run.refused()], made["parts"][2])

    def test_log(self):
        _, run, made = self.run_example("log")
        lines = [f"rank {rank} step {step}".ljust(16).encode() for rank in range(3) for step in range(3)]
        self.assertEqual(Dataset("log.nc").values("log"), b"".join(lines))
        self.assertEqual([it.nested() for it in run[made["log"]]], [lines] * 3)

    def test_archive(self):
        self.run_example("bands_4d")
        self.run_example("archive")
        data = Dataset("bands_4d.nc")
        self.assertEqual(data.values("lat"), [-70 + 20 * n for n in range(8)])
        self.assertEqual(data.values("lat_bnds"), [edge for n in range(8) for edge in (-80 + 20 * n, -60 + 20 * n)])
        self.assertEqual((data.vars["lat"][1], data.attributes), ({"units": b"degrees_north", "bounds": b"lat_bnds"}, {"title": b"bands with bounds"}))
        self.assertEqual(data.values("q"), self.bands(2))

    def test_filled(self):
        _, run, made = self.run_example("filled")
        fill = f4(9.9692099683868690e+36)                 # NC_FILL_FLOAT of netcdf.h
        self.assertEqual([it.values for it in run[made["masks"]]], [[-1] * 8] * 4)
        self.assertEqual([it.values for it in run[made["records"]]], [sum(([rank + 0.5, fill] for rank in range(4)), [])] * 4)
        self.assertEqual(Dataset("filled.nc").values("mask"), [-1] * 8)

    def test_huge(self):
        _, run, made = self.run_example("huge")
        ends = [value for rank in range(4) for value in (rank, 255 - rank)]
        self.assertEqual([it.values for it in run[made["ends"]]], [ends] * 4)
        with open("huge.nc", "rb") as file:
            big, behind = run.offsets.vars["big"], run.offsets.vars["behind"]
            file.seek(big.begin + 3 * 10 ** 9 - 8)
            self.assertEqual(list(file.read(8)), ends)
            self.assertEqual(behind.begin, big.begin + 3 * 10 ** 9)
            self.assertEqual(file.read(32), b"".join((10 ** 15 + rank).to_bytes(8, "big") for rank in range(4)))
        self.assertLess(os.stat("huge.nc").st_blocks * 512, 2 ** 20)

    def test_hints(self):
        _, run, _ = self.run_example("hints")
        for name in "a", "b":
            self.assertEqual(Dataset("hints.nc").values(name), [n * n for n in range(256)])
            self.assertEqual(run.offsets.vars[name].begin % 512, 0)
        self.assertGreaterEqual(run.offsets.extent, 1024)


class ByOthers(WithProgram):
    """The files, read by who knows nothing of this project."""

    def make_all(self):
        with mock.patch("builtins.print"):
            for name in ("blocks_2d", "blocks_3d", "bands_4d", "append", "archive", "transpose", "checkpoint", "cgrid", "stations", "buffered", "log", "filled", "hints"):
                runpy.run_path(f"{EXAMPLES}/{name}.py")
        return sorted(glob.glob("*.nc"))

    def test_scipy(self):
        try:
            from scipy.io import netcdf_file
        except ImportError:
            self.skipTest("scipy is not installed")
        made = self.make_all()
        self.assertEqual(len(made), 11)
        for path in made:
            own = Dataset(path)
            with netcdf_file(path, mmap=False) as read:
                self.assertEqual(set(read.variables), set(own.vars))
                for name, var in read.variables.items():
                    found = var[:].tobytes() if own.vars[name][2] == "c" else var[:].ravel().tolist()
                    self.assertEqual(found, own.values(name), f"{path}: {name}")

    @unittest.skipUnless(shutil.which("ncdump"), "ncdump is not installed")
    def test_ncdump(self):
        self.make_all()
        text = subprocess.run(["ncdump", "-v", "lat_bnds", "bands_4d.nc"], stdout=subprocess.PIPE, check=True).stdout.decode()
        self.assertIn('lat:bounds = "lat_bnds" ;', text)
        numbers = text[text.index("lat_bnds =\n") + 11:].split(";")[0].replace(",", " ").split()
        self.assertEqual([float(it) for it in numbers], [edge for n in range(8) for edge in (-80 + 20 * n, -60 + 20 * n)])
        text = subprocess.run(["ncdump", "-v", "log", "log.nc"], stdout=subprocess.PIPE, check=True).stdout.decode()
        self.assertIn('"rank 2 step 1', text)
