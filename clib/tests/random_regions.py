#!/usr/bin/env python3
"""Extents of random regions of random files, against the formulas of the format.

  random_regions.py LIBRARY COUNT [SEED]     LIBRARY: libnc_classic.so
"""
import ctypes as c, itertools, math, random, sys

from files import SIZES, random_file
from library import EEDGE, EINVALCOORDS, ENOTVAR, ESTRIDE, OK, TOO_LARGE, Needs, extents, loaded, region_of

MOST_ELEMENTS = 2**20


def refusal(file, var, start, count, stride, imap, records, put):
    """The first cause in the order of nc_classic.h, or OK."""
    if var >= len(file.vars):
        return ENOTVAR
    lengths = file.lengths(file.vars[var])
    rank = len(lengths)
    if any(len(numbers) != rank for numbers in (start, count, stride)) or imap and len(imap) != rank:
        return EINVALCOORDS
    if 0 in stride:
        return ESTRIDE
    # The record dimension has no end for a put.
    ends = [(None if put else records) if length == 0 else length for length in lengths]
    if any(end is not None and (s > end or s == end and n > 0) for end, s, n in zip(ends, start, count)):
        return EINVALCOORDS
    if any(end is not None and n > 0 and s + (n - 1) * d >= end for end, s, n, d in zip(ends, start, count, stride)):
        return EEDGE
    elements = math.prod(count)
    if elements > MOST_ELEMENTS or imap and elements and sum((n - 1) * m for n, m in zip(count, imap)) >= MOST_ELEMENTS:
        return TOO_LARGE
    needed = records_of(file, var, start, count, stride)
    if needed >= (2**62 if file.version == 5 else 2**31) or file.end(needed) >= 2**62:
        return TOO_LARGE
    return OK


def records_of(file, var, start, count, stride):
    """The record count that a file needs to have the region."""
    return start[0] + (count[0] - 1) * stride[0] + 1 if file.is_record(file.vars[var]) and 0 not in count else 0


def expected(file, var, start, count, stride):
    """The extents: the bytes of each element in row-major order, joined where one follows another."""
    found = []
    if 0 in count:
        return found
    size = SIZES[file.vars[var].kind]
    for steps in itertools.product(*map(range, count)):
        at = file.place(file.vars[var], [s + k * d for s, k, d in zip(start, steps, stride)])
        if found and sum(found[-1]) == at:
            found[-1] = (found[-1][0], found[-1][1] + size)
        else:
            found.append((at, size))
    return found


def random_region(rng, file, put, records):
    var = rng.randint(0, len(file.vars)) if rng.random() < 0.1 else rng.randrange(max(1, len(file.vars)))
    lengths = file.lengths(file.vars[var]) if var < len(file.vars) else [3]
    bounds = [(6 if put else records) if length == 0 else length for length in lengths]
    start = [rng.randint(0, bound) for bound in bounds]
    stride = [rng.choice((1, 1, 1, 2, 3)) for _ in bounds]
    count = [rng.randint(0, max(0, (bound - s + d - 1) // d)) for bound, s, d in zip(bounds, start, stride)]
    imap = [rng.randint(0, 9) for _ in bounds] if rng.random() < 0.2 else []
    # Something is wrong in some of them.
    if bounds and rng.random() < 0.2:
        numbers = rng.choice([numbers for numbers in (start, count, stride, imap) if numbers])
        numbers[rng.randrange(len(numbers))] = rng.choice((0, 1, 7, 2**21, 2**40))
    if rng.random() < 0.05:
        rng.choice((start, count, stride)).append(1)
    return var, start, count, stride, imap


def main(path, count, seed=1):
    lib, rng = loaded(path), random.Random(int(seed))
    taken = 0
    for number in range(int(count)):
        if number % 20 == 0:
            file = random_file(rng)
            header = file.encoded()
        put, records = rng.random() < 0.5, rng.randint(0, 5)
        var, start, size, stride, imap = asked = random_region(rng, file, put, records)
        wanted = refusal(file, *asked, records, put)
        region = region_of(var, start, size, stride, imap)
        needs = Needs()
        assert lib.ncv_region_check(header, len(header), c.byref(region), records, put, c.byref(needs)) == wanted
        code, found, total = extents(lib, header, region, records, put, 4096)
        assert code == wanted, f"region {number}: code {code}, wanted {wanted}: {asked} of {file}"
        if code != OK:
            continue
        taken += 1
        assert needs.bytes == math.prod(size) * SIZES[file.vars[var].kind]
        assert needs.records == records_of(file, var, start, size, stride)
        places = expected(file, var, start, size, stride)
        assert found == places and total == len(places), f"region {number}: {found} of {total}, wanted {places}: {asked} of {file}"
        # Part by part.
        room, parts, first = rng.randint(1, 3), [], 0
        while first < total:
            parts += extents(lib, header, region, records, put, room, first)[1]
            first += room
        assert parts == places, f"region {number} by parts of {room}: {parts}, wanted {places}"
    print(f"{count} regions: {taken} taken and as the formulas have them, {int(count) - taken} refused by the right code")


main(*sys.argv[1:])
