"""The programs of PnetCDF's source: their list, how the source is fetched, and how each is built."""
import os
import shlex
import shutil
import subprocess
from dataclasses import dataclass, field

MIRROR = "deb-src [signed-by=/usr/share/keyrings/debian-archive-keyring.gpg] http://deb.debian.org/debian bookworm main\n"
MODULES = "/usr/lib/x86_64-linux-gnu/fortran/gfortran-mod-15"
FORTRAN = ["-w", "-I" + MODULES, "-I/usr/include/x86_64-linux-gnu", "-fallow-argument-mismatch"]
# What PnetCDF's configure defines where the system doesn't.
TYPES = ["-Dschar=signed char", "-Duchar=unsigned char", "-Dlonglong=long long", "-Dulonglong=unsigned long long"]


class NoProgram(Exception):
    """A source or a program that can't be had."""


@dataclass
class Library:
    """An MPI library with the PnetCDF that was built on it: the compilers, the launcher, and where PnetCDF lies."""
    compilers: dict
    launcher: str
    prefix: str = "/usr"
    settings: dict = field(default_factory=dict)    # variables of a run

    def flags(self):
        """What a compiler needs to find PnetCDF."""
        own = ["-I%s/include" % self.prefix, "-L%s/lib" % self.prefix, "-Wl,-rpath,%s/lib" % self.prefix]
        return (own if self.prefix != "/usr" else []) + ["-lpnetcdf", "-lm", "-lpthread"]

    def builds(self, program):
        return language_of(program) in self.compilers


# Bytes that nobody wrote are zeros under OMPIO, and its component `individual` loses none (docs/BRIDGE.md).
OPEN_MPI = Library({"C": "mpicc", "C++": "mpicxx", "Fortran": "mpif90"}, "mpiexec --oversubscribe", settings={
    "OMPI_ALLOW_RUN_AS_ROOT": "1", "OMPI_ALLOW_RUN_AS_ROOT_CONFIRM": "1", "OMPI_MCA_io": "ompio", "OMPI_MCA_fcoll": "individual",
    "OMPI_MCA_mpi_yield_when_idle": "1"})


def mpich(source, room):
    """MPICH with PnetCDF for C alone, which is built from its source once."""
    prefix = os.path.join(room, "pnetcdf_on_mpich")
    library = Library({"C": "mpicc.mpich"}, "mpiexec.mpich", prefix)
    if not os.path.exists(os.path.join(prefix, "lib", "libpnetcdf.so")):
        tree = os.path.join(room, "source_on_mpich")
        shutil.rmtree(tree, ignore_errors=True)
        shutil.copytree(source, tree)
        called(["autoreconf", "-i"], tree, "autoreconf")
        called(["./configure", "--prefix=" + prefix, "--enable-shared", "--disable-static", "--disable-fortran", "--disable-cxx",
                "MPICC=mpicc.mpich"], tree, "configure")
        called(["make", "-j2", "-C", "src", "install"], tree, "make")
    return library


def tracer(library, tools, place):
    """The folder of libnctrace.so for that library."""
    called(["make", "-s", "-C", tools, "BUILD=" + place, "MPICC=" + library.compilers["C"], "PNETCDF=" + library.prefix], tools, "the tracer")
    return place


@dataclass
class Program:
    name: str
    ranks: int
    source: str
    words: list
    after: str = None       # the program that makes the dataset which this one reads

    @property
    def folder(self):
        return self.name.replace("/", "_")


def read_list(path):
    programs = {}
    with open(path) as lines:
        for line in lines:
            words = line.split()
            if not words or words[0].startswith("#"):
                continue
            after = next((w[len("after="):] for w in words[3:] if w.startswith("after=")), None)
            rest = [w for w in words[3:] if not w.startswith("after=")]
            programs[words[0]] = Program(words[0], int(words[1]), words[2], rest, after)
    return programs


def called(command, folder, what):
    """Runs a command; its last words are told where it fails."""
    done = subprocess.run(command, cwd=folder, stdin=subprocess.DEVNULL, stdout=subprocess.PIPE, stderr=subprocess.STDOUT, check=False)
    if done.returncode != 0:
        raise NoProgram("%s: %s" % (what, done.stdout.decode("utf-8", "replace").strip()[-400:]))
    return done.stdout


def fetch(given, room):
    """The folder of PnetCDF's source; it is fetched with lists of packages of its own."""
    if given:
        return os.path.realpath(given)
    place = os.path.join(room, "source")
    os.makedirs(os.path.join(place, "lists", "partial"), exist_ok=True)
    found = [f for f in sorted(os.listdir(place)) if f.startswith("pnetcdf-")]
    if not found:
        with open(os.path.join(place, "sources.list"), "w") as out:
            out.write(MIRROR)
        options = ["-o", "Dir::Etc::sourcelist=%s/sources.list" % place, "-o", "Dir::Etc::sourceparts=-", "-o", "Dir::State::lists=%s/lists" % place]
        called(["apt-get"] + options + ["update"], place, "apt-get update")
        called(["apt-get"] + options + ["source", "pnetcdf"], place, "apt-get source pnetcdf")
        found = [f for f in sorted(os.listdir(place)) if f.startswith("pnetcdf-")]
    if not found:
        raise NoProgram("apt-get source made no folder of PnetCDF's source")
    return os.path.join(place, found[-1])


def utilities(library, source, place):
    """PnetCDF's helpers of its tests, built once."""
    common, made = os.path.join(source, "test", "common"), os.path.join(place, "testutils.o")
    if not os.path.exists(made):
        called([library.compilers["C"], "-w", "-c", os.path.join(common, "testutils.c"), "-o", made] + library.flags(), place, "testutils.c")
    return ["-I" + common, made]


def language_of(program):
    ending = os.path.splitext(program.source)[1]
    return {".cpp": "C++", ".c": "C", ".m4": "C"}.get(ending, "Fortran")


def command_of(program, library, source, place, binary):
    """The command that builds the program; what m4 makes of its source is kept beside it."""
    code, language = os.path.join(source, program.source), language_of(program)
    folder, compiler = os.path.dirname(code), [library.compilers[language]]
    tail = ["-I" + folder, code, "-o", binary] + library.flags()
    if language == "C++":
        return compiler + ["-w"] + tail
    if language == "Fortran":
        return compiler + FORTRAN + [os.path.join(folder, "utils.F90")] + tail
    expanded = code.endswith(".m4")
    if expanded:
        tail[1] = binary + ".c"
        with open(tail[1], "wb") as out:
            out.write(called(["m4", "-DPNETCDF", "-I", os.path.join(source, "m4"), "-I", folder, code], folder, "m4"))
    return compiler + ["-w"] + (TYPES if expanded else []) + utilities(library, source, place) + tail


def build(program, library, source, room):
    """The program's binary, built where it isn't there."""
    place = os.path.join(room, "binaries")
    os.makedirs(place, exist_ok=True)
    binary = os.path.join(place, program.folder)
    if not os.path.exists(binary):
        called(command_of(program, library, source, place, binary), place, program.name)
    return binary


def launching(library, program, binary, folder):
    """The command that runs the program on datasets in that folder."""
    launcher = shlex.split(os.environ.get("MPIEXEC", library.launcher))
    return launcher + ["-n", str(program.ranks), binary] + [w.replace("OUT", folder) for w in program.words]
