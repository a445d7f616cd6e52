"""The sides of the benchmark: the limit, the program in its two ways, and PnetCDF on the MPIs that are there. Each is run once at a time, on a dataset of its own."""
import collections, os, shutil, subprocess, time

import rows
import tables
from rows import GENERATE, ROWS, SEED

TOP = os.path.dirname(os.path.dirname(os.path.abspath(__file__)))
PAUSE = 0.05               # seconds before each run

# Microseconds of the whole, of the script before the dataset is opened, and of the run from there to the last call on the dataset; of the processor, and KiB.
Taken = collections.namedtuple("Taken", "whole script run processor peak", defaults=(None, None))


class Past(Exception):
    """A run took longer than it may."""


class Room:
    """A folder in which all is made, and what a row and a size need there."""

    def __init__(self, folder, ranks, seconds):
        self.folder, self.ranks, self.seconds = folder, ranks, seconds
        compiler = os.environ.get("CC", "cc")
        self.build(compiler, "measure", [f"{TOP}/bench/measure.c"])
        self.build(compiler, "parts.so", [f"{TOP}/bench/parts.c", "-shared", "-fPIC", "-ldl"])
        self.build(compiler, "limit", sources("limit"))

    def at(self, name):
        return os.path.join(self.folder, name)

    def build(self, compiler, name, words):
        subprocess.run([compiler, "-O2", "-o", self.at(name), *words], check=True)

    def ranks_of(self, row):
        return 1 if ROWS[row].is_alone else 8 if row == GENERATE else self.ranks

    def prepare(self, row, n):
        """Writes the row's script, for threads on and off, and the dataset that it opens."""
        if row == GENERATE:
            return
        for threads in ("on", "off"):
            with open(self.at(f"script.{threads}"), "w", encoding="ascii") as out:
                out.write(rows.script(row, n, self.ranks_of(row), threads))
        if ROWS[row].opens:
            subprocess.run([self.at("limit"), "before", row, str(n), str(self.ranks_of(row)), self.at("before.nc")], check=True)

    def fresh(self, side, row):
        """The side's dataset as its run finds it: a copy of the one that is opened, or none. Nothing is still to be written to the disk, and the processors are
        left alone for a moment."""
        dataset = self.at(f"{side}.nc")
        if os.path.exists(dataset):
            os.remove(dataset)
        if ROWS[row].opens:
            shutil.copyfile(self.at("before.nc"), dataset)
        os.sync()
        time.sleep(PAUSE)
        return dataset

    def measured(self, side, dataset, given, words):
        """What one run of a command takes, with its status."""
        told = subprocess.run([self.at("measure"), str(self.seconds), self.at("parts.so"), dataset, given, self.at(f"{side}.txt"), *words],
                              check=True, stdout=subprocess.PIPE, encoding="ascii").stdout.split()
        if told == ["past"]:
            raise Past
        status, whole, opened, last, processor, peak = map(int, told)
        return status, Taken(whole, opened, last - opened, processor, peak)


def sources(folder):
    return sorted(os.path.join(TOP, "bench", folder, name) for name in os.listdir(f"{TOP}/bench/{folder}") if name.endswith(".c"))


class Limit:
    """The same bytes by one plain thread in C."""
    name = "limit"

    def __init__(self, room):
        self.room = room

    def does(self, _):
        return True

    def once(self, row, n):
        dataset = self.room.fresh(self.name, row)
        if row == GENERATE:
            words, given = [GENERATE, SEED, str(n)], "/dev/null"
        else:
            words, given = [row, str(n), str(self.room.ranks_of(row))], self.room.at("script.on")
        status, taken = self.room.measured(self.name, dataset, given, [self.room.at("limit"), *words, dataset])
        if status != 0:
            raise tables.Differs(f"{row} {n}: the limit ended with status {status}")
        return taken


class Program:
    """ncrun, on threads or in turn."""

    def __init__(self, room, program, name, threads):
        self.room, self.program, self.name, self.threads = room, program, name, threads

    def does(self, row):
        return row != GENERATE or self.threads == "on"

    def once(self, row, n):
        dataset = self.room.fresh(self.name, row)
        if row == GENERATE:
            words, given = ["--generate", SEED, "--size", str(n)], "/dev/null"
        else:
            words, given = [], self.room.at(f"script.{self.threads}")
        status, taken = self.room.measured(self.name, dataset, given, [self.program, *words, dataset])
        if status != 0:
            raise tables.Differs(f"{row} {n}: the program ended with status {status}")
        return taken


class PnetCDF:
    """The same calls on PnetCDF, a process a rank."""

    def __init__(self, room, name, compiler, launcher, folder, settings):
        self.room, self.name, self.launcher, self.settings = room, name, launcher, settings
        self.program = f"pnetcdf.{os.path.basename(compiler)}"
        if not os.path.exists(room.at(self.program)):
            room.build(compiler, self.program, [*sources("pnetcdf"), f"-I{folder}/include", f"-L{folder}/lib", f"-Wl,-rpath,{folder}/lib", "-lpnetcdf"])

    def does(self, row):
        return ROWS[row].is_beside

    def once(self, row, n):
        dataset = self.room.fresh(self.name, row)
        ranks = self.room.ranks_of(row)
        waiting = {"OMPI_MCA_mpi_yield_when_idle": str(int(ranks > os.cpu_count()))}
        try:
            told = subprocess.run([*self.launcher, "-n", str(ranks), self.room.at(self.program), row, str(n), dataset], check=True, stdout=subprocess.PIPE,
                                  encoding="ascii", timeout=self.room.seconds, env={**os.environ, **waiting, **self.settings}).stdout
        except subprocess.TimeoutExpired as past:
            raise Past from past
        return Taken(None, None, int(told))


AS_ROOT = {"OMPI_ALLOW_RUN_AS_ROOT": "1", "OMPI_ALLOW_RUN_AS_ROOT_CONFIRM": "1"}
# `individual` since Open MPI's default loses bytes now and then (docs/BRIDGE.md).
LAYERS = {"ROMIO": {"OMPI_MCA_io": "romio321"}, "OMPIO": {"OMPI_MCA_io": "ompio", "OMPI_MCA_fcoll": "individual"}}
ON_MPICH = "PNETCDF_ON_MPICH"


def on_open_mpi(room):
    """PnetCDF by both I/O layers of Open MPI; or why it can't be had."""
    compiler = shutil.which("mpicc.openmpi") or shutil.which("mpicc")
    launcher = shutil.which("mpiexec.openmpi") or shutil.which("mpiexec")
    folder = os.environ.get("PNETCDF", "/usr")
    if not compiler or not launcher or not os.path.exists(f"{folder}/include/pnetcdf.h"):
        return [], "PnetCDF on Open MPI is not installed (on Debian: libopenmpi-dev, openmpi-bin, libpnetcdf-dev)"
    return [PnetCDF(room, name, compiler, [launcher, "--oversubscribe"], folder, {**AS_ROOT, **settings}) for name, settings in LAYERS.items()], ""


def on_mpich(room):
    """PnetCDF on MPICH, whose I/O layer is ROMIO, too; or why it can't be had."""
    compiler, launcher, folder = shutil.which("mpicc.mpich"), shutil.which("mpiexec.mpich"), os.environ.get(ON_MPICH)
    if not compiler or not launcher:
        return [], "MPICH is not installed"
    if not folder:
        return [], f"{ON_MPICH} names no PnetCDF that is built on MPICH (docs/BRIDGE.md)"
    return [PnetCDF(room, "MPICH", compiler, [launcher], folder, {})], ""


def all_sides(room, program, wanted):
    """The sides that can be had, or those of them that are wanted; and why others can't be had."""
    found = [Limit(room), Program(room, program, "threads", "on"), Program(room, program, "in_turn", "off")]
    left_out = []
    for add, names in ((on_open_mpi, LAYERS), (on_mpich, ["MPICH"])):
        if wanted is None or any(name in wanted for name in names):
            more, why = add(room)
            found += more
            left_out += [why] if why else []
    return [side for side in found if wanted is None or side.name in ("limit", *wanted)], left_out
