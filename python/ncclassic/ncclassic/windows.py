"""What a collective step reads and writes, by two-phase I/O."""
from __future__ import annotations

import ctypes as c
from typing import NamedTuple, Sequence

from . import library as lib
from .faults import refused

# How many windows are asked for at once.
ROOM = 4096


class Window(NamedTuple):
    """A window by its hull: the bytes from the first to the last that is asked for. Where it is not full, who writes it reads its hull first."""
    at: int
    len: int
    aggregator: int
    full: bool


class Step(NamedTuple):
    """The bytes from the least up to the greatest that is asked for, and the windows in order of their places."""
    lo: int
    hi: int
    windows: tuple[Window, ...]


def windows(extents: Sequence[tuple[int, int]], *, aggregators: int, unit: int = 1, buffer: int = 2**24) -> Step:
    """The windows of a collective step that asks for these bytes: those of all ranks, in any order, as Variable.extents gives them.

    aggregators, unit, buffer: the hints cb_nodes, striping_unit and cb_buffer_size. ValueError: one is outside its limits, or an extent ends at byte 2^62 or later.
    """
    if not all(0 <= number < 2**62 for extent in extents for number in extent) or not all(0 <= number < 2**32 for number in (aggregators, unit, buffer)):
        raise ValueError("a number is below 0 or too large")
    asked, into, step = (lib.Extent * (len(extents) + 1))(*(lib.Extent(at, length) for at, length in extents)), (lib.Window * ROOM)(), lib.Step()
    found = list[Window]()
    while True:
        code = int(lib.library().ncv_windows(asked, len(extents), aggregators, unit, buffer, len(found), into, ROOM, c.byref(step)))
        if code == lib.TOO_LARGE:
            raise ValueError("an extent ends at byte 2^62 or later")
        if code != lib.OK:
            raise refused(code)
        found += [Window(it.at, it.len, it.aggregator, it.full) for it in into[:min(ROOM, step.windows - len(found))]]
        if len(found) >= step.windows:
            return Step(int(step.lo), int(step.hi), tuple(found))
