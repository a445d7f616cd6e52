"""The rows of the library for C: by the library, by plain loops, and for a header by PnetCDF, which opens the same dataset."""
import os, subprocess

import tables
from sides import TOP, PnetCDF, Taken

BUILT = f"{TOP}/clib/out/libnc_classic.a"
SIZES = {"header": (2 ** 13, 2 ** 6), "extents": (2 ** 20, 2 ** 6)}      # those of docs/SPEED.md, and small ones
BEFORE = {"header": "header", "extents": "column"}                       # the row whose dataset it is


class Library:
    """The library, or the plain loops beside it."""

    def __init__(self, room, name):
        self.room, self.name = room, name

    def once(self, row, n):
        dataset = self.room.fresh(self.name, BEFORE[row])
        told = subprocess.run([self.room.at("library"), row, self.name, str(n), dataset], check=True, stdout=subprocess.PIPE, encoding="ascii").stdout
        return Taken(None, None, int(told) / 1000)


def took(row, n, doing, runs):
    """The milliseconds of all runs of each side; the first isn't counted where there are several."""
    all_runs = {side.name: [] for side in doing}
    for _ in range(runs + (runs > 1)):
        for side in doing:
            all_runs[side.name].append(side.once(row, n).run / 1000)
    return {name: its[runs > 1:] for name, its in all_runs.items()}


def cells(row, n, took_of, names):
    beside = [took_of[name] for name in names if took_of.get(name)]
    fastest = min(beside, key=tables.statistics.median, default=[])
    own = took_of["library"]
    return [row, str(n), *(tables.spread(took_of.get(name, [])) for name in ("plain", "library", *names)), tables.told(tables.ratio(own, took_of["plain"])),
            tables.told(tables.ratio(own, fastest)), tables.plain(tables.statistics.median(own) * 1e6 / n)]


def measured(room, sides, runs, full):
    """The lines of the table, or one that says why there is none."""
    if not os.path.exists(BUILT):
        return ["The library for C is left out: it is not built (`make -C clib`)."]
    room.build(os.environ.get("CC", "cc"), "library", [f"{TOP}/bench/library.c", f"-I{TOP}/clib/include", BUILT])
    others = [side for side in sides if isinstance(side, PnetCDF)]
    names = [side.name for side in others]
    titles = ["row", "n", "limit", "library", *names, "library / limit", "library / PnetCDF", "ns of each"]
    table = tables.Table("The library for C, in ms: median (least to greatest)", titles, [10, 7, *[20] * (2 + len(names)), 6, 6, 6])
    for row, (most, small) in SIZES.items():
        n = most if full else small
        room.prepare(BEFORE[row], n)
        doing = [Library(room, "plain"), Library(room, "library"), *(others if row == "header" else [])]
        table.add(cells(row, n, took(row, n, doing, runs), names))
    return table.lines
