#!/usr/bin/env python3
"""Windows of random collective steps, against the division of each byte by itself.

  random_windows.py LIBRARY COUNT [SEED]     LIBRARY: libnc_classic.so
"""
import random, sys

from library import OK, loaded, windows


def expected(asked, aggregators, unit, buffer):
    """From where to where the bytes reach, and of each window its aggregator, hull and whether the hull has no hole."""
    covered = sorted({byte for at, length in asked for byte in range(at, at + length)})
    if not covered:
        return 0, 0, []
    lo, hi = covered[0], covered[-1] + 1
    low = lo - lo % unit
    even = -(-(hi - low) // aggregators)
    share = max(1, -(-even // unit) * unit)
    found = []
    for number in range(aggregators):
        domain = [byte for byte in covered if (byte - low) // share == number]
        rounds = {}
        for byte in domain:
            rounds.setdefault((byte - domain[0]) // buffer, []).append(byte)
        found += [(number, hull[0], hull[-1] + 1 - hull[0], len(hull) == hull[-1] + 1 - hull[0]) for hull in rounds.values()]
    return lo, hi, found


def random_extents(rng):
    base, size = rng.choice((0, 2**40)), rng.choice((20, 200, 1000))
    return [(base + rng.randrange(size), rng.choice((0, 1, 4, 9, 30))) for _ in range(rng.randint(0, 30))]


def main(path, count, seed=1):
    lib, rng, many = loaded(path), random.Random(int(seed)), 0
    for _ in range(int(count)):
        asked = random_extents(rng)
        hints = rng.choice((1, 2, 3, 7, 64)), rng.choice((1, 4, 24, 64)), rng.choice((1, 3, 16, 100, 2**25))
        lo, hi, wanted = expected(asked, *hints)
        code, step, found = windows(lib, asked, *hints, len(wanted) + 3)
        assert code == OK and step == (lo, hi, len(wanted)) and found == wanted, f"{code} {step} {found}, wanted {lo, hi} {wanted}: {asked} {hints}"
        first, room = rng.randint(0, len(wanted) + 1), rng.randint(0, 3)
        assert windows(lib, asked, *hints, room, first)[2] == wanted[first:first + room], f"{asked} {hints}: from {first}, {room}"
        many += len(wanted)
    print(f"{count} steps: {many} windows as the division of their bytes has them")


main(*sys.argv[1:])
