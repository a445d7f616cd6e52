#!/usr/bin/env python3
"""Shared bytes of random requests, against sets of bytes.

  random_overlaps.py LIBRARY COUNT [SEED]     LIBRARY: libnc_classic.so
"""
import ctypes as c, random, sys

from library import OK, SHARED, Held, Pair, loaded


def expected(held):
    """The least byte that two requests hold, with the two least of them; None where no two do."""
    holders = {}
    for at, length, rank, request in held:
        for byte in range(at, at + length):
            holders.setdefault(byte, set()).add((rank, request))
    for byte in sorted(holders):
        if len(holders[byte]) > 1:
            return byte, *sorted(holders[byte])[:2]
    return None


def random_extents(rng):
    size = rng.choice((20, 200, 2000))
    count = rng.randint(0, 12)
    return [(rng.randrange(size), rng.randint(0, 9), rng.randint(0, 3), rng.randint(0, 2)) for _ in range(count)]


def main(path, count, seed=1):
    lib, rng, shared = loaded(path), random.Random(int(seed)), 0
    for _ in range(int(count)):
        extents = random_extents(rng)
        held, pair = (Held * (len(extents) + 1))(*extents), Pair()
        code = lib.ncv_first_shared(held, len(extents), c.byref(pair))
        wanted = expected(extents)
        found = None if code == OK else (pair.at, (pair.rank1, pair.request1), (pair.rank2, pair.request2))
        assert code in (OK, SHARED) and found == wanted, f"{code} {found}, wanted {wanted}: {extents}"
        shared += wanted is not None
    print(f"{count} lists of extents: {shared} with a shared byte and its two least requests, {int(count) - shared} without one")


main(*sys.argv[1:])
