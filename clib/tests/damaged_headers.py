#!/usr/bin/env python3
"""Damaged headers, by the library and by the program: the same fault at the same place.

  damaged_headers.py LIBRARY PROGRAM COUNT [SEED]     LIBRARY: libnc_classic.so, PROGRAM: the built ncrun
"""
import concurrent.futures, ctypes as c, os, random, subprocess, sys, tempfile

from files import random_file
from library import HEADER, OK, Counts, Fault, loaded

LINES = ("", "is not CDF", "has an unknown version", "truncated at byte {0}", "has a bad tag at byte {0}", "has a bad type at byte {0}",
         "has a bad number at byte {0}", "has two record dimensions", "has the record dimension not first in variable {0}",
         "has a bad dimension id in variable {0}", "has a streaming record count", "is too large", "has shared bytes of variables {0} and {1}")


def damaged(rng, header):
    """The bytes with one change: cut, a byte set, a word set, or a word taken out."""
    way = rng.randrange(5)
    at = rng.randrange(len(header))
    if way == 0:
        return header[:at]
    if way == 1:
        return header[:at] + bytes([rng.choice((0, 1, 2, 5, 10, 11, 12, 127, 128, 255, rng.randrange(256)))]) + header[at + 1:]
    word = at // 4 * 4
    if way == 2:
        return header[:word] + header[word + 4:]
    number = rng.choice((0, 1, 2, 3, 7, 10, 11, 12, 64, 2**16, 2**31 - 1, 2**31, 2**32 - 1))
    return header[:word] + number.to_bytes(4, "big") + header[word + 4:]


def by_library(lib, data):
    """What the program should say: its status and the line, or the first lines, of its answer."""
    counts, fault = Counts(), Fault()
    code = lib.ncv_header_check(data, len(data), c.byref(counts), c.byref(fault))
    if code == OK:
        return 0, f"// file format: CDF-{counts.version}\nfile header:\n  size = {counts.length} bytes\n"
    assert code == HEADER, code
    return 4, f"ncrun: header {LINES[fault.kind].format(fault.place, fault.other)}\n"


def by_program(program, data, room):
    path = os.path.join(room, f"{os.getpid()}-{id(data)}.nc")
    with open(path, "wb") as file:
        file.write(data)
    ran = subprocess.run([program, "--offsets", path], stdin=subprocess.DEVNULL, stdout=subprocess.PIPE, stderr=subprocess.STDOUT)
    os.remove(path)
    return ran.returncode, ran.stdout.decode("latin-1")


def main(path, program, count, seed=1):
    lib, rng = loaded(path), random.Random(int(seed))
    headers = []
    while len(headers) < int(count):
        header = random_file(rng).encoded()
        headers += [damaged(rng, header) for _ in range(20)]
    kinds = {}
    with tempfile.TemporaryDirectory() as room, concurrent.futures.ThreadPoolExecutor(4) as pool:
        for data, (status, text) in zip(headers, pool.map(lambda data: by_program(program, data, room), headers)):
            wanted_status, wanted = by_library(lib, data)
            assert status == wanted_status and text.startswith(wanted), f"{data.hex()}: the program says {status} {text!r}, the library {wanted_status} {wanted!r}"
            kind = wanted.split(" at ")[0].split(" of ")[0].split(" in ")[0] if status else "sound"
            kinds[kind] = kinds.get(kind, 0) + 1
    print(f"{len(headers)} damaged headers, the same by both: " + ", ".join(f"{n} {kind.replace('ncrun: header ', '').strip()}" for kind, n in sorted(kinds.items())))


main(*sys.argv[1:])
