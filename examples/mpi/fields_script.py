#!/usr/bin/env python3
"""Writes the script by which ncrun makes the file that write_fields makes.

  fields_script.py RANKS     the columns of mask(y, x) and temp(time, y, x) divided among so many ranks
"""
import itertools
import sys

DIMS = {"time": 3, "y": 6, "x": 17}
VARS = {"mask": ("y", "x"), "temp": ("time", "y", "x"), "level": ("time", "x")}


def columns(rank, ranks):
    first = DIMS["x"] * rank // ranks
    return first, DIMS["x"] * (rank + 1) // ranks - first


def put(name, rank, ranks):
    lengths = [DIMS[dim] for dim in VARS[name]]
    first, count = columns(rank, ranks)
    start, counts = [0] * (len(lengths) - 1) + [first], [*lengths[:-1], count]
    numbers = []
    for index in itertools.product(*(range(s, s + n) for s, n in zip(start, counts))):
        number = 0
        for i, length in zip(index, lengths):
            number = number * length + i
        numbers.append(number)
    return f"{rank} put_vara_all {name} {listed(start)} {listed(counts)} {' '.join(map(str, numbers))}".rstrip()


def listed(numbers):
    return f"[{','.join(map(str, numbers))}]"


def main(ranks):
    print("create 1", f"ranks {ranks}", "dim time unlimited", f"dim y {DIMS['y']}", f"dim x {DIMS['x']}", sep="\n")
    for name, dims in VARS.items():
        print(f"var int {name} {listed(dims)}")
    print("data")
    for name in VARS:
        for rank in range(ranks):
            print(put(name, rank, ranks))
    print("end")


main(int(sys.argv[1]))
