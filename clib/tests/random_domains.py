#!/usr/bin/env python3
"""Domains of random ranges of bytes, against the division of each byte by itself.

  random_domains.py LIBRARY COUNT [SEED]     LIBRARY: libnc_classic.so
"""
import ctypes as c, random, sys

from library import OK, Extent, loaded


def expected(lo, hi, aggregators, unit):
    """The bytes of each domain: as many whole units for each as the bytes from the first unit on need."""
    low = lo - lo % unit
    even = -(-(hi - low) // aggregators)
    share = max(1, -(-even // unit) * unit)
    return [[x for x in range(lo, hi) if (x - low) // share == number] for number in range(aggregators)]


def main(path, count, seed=1):
    lib, rng = loaded(path), random.Random(int(seed))
    for _ in range(int(count)):
        lo = rng.choice((0, rng.randrange(2000), rng.randrange(2**40)))
        hi = lo + rng.choice((0, 1, rng.randrange(3000)))
        aggregators, unit = rng.randint(1, 64), rng.choice((1, 2, 7, 64, 1000, 4096))
        place = lo
        for number, wanted in enumerate(expected(lo, hi, aggregators, unit)):
            domain = Extent()
            assert lib.ncv_domain(lo, hi, aggregators, unit, number, c.byref(domain)) == OK
            found = list(range(domain.at, domain.at + domain.len))
            assert domain.at == place and found == wanted, f"domain {number} of {(lo, hi, aggregators, unit)}: {found}, wanted {wanted}"
            place += domain.len
        assert place == hi
    print(f"{count} ranges of bytes: each domain as the division of its bytes has it")


main(*sys.argv[1:])
