"""A file written by hand from the format specification."""
import struct

# CDF-1 with two records. dimensions: time = UNLIMITED, x = 4; int v(x) of 16 bytes from 132; short r(time, x) of 8 bytes a record from 148.
SMALL = bytes.fromhex(
    "43444601 00000002"
    "0000000a 00000002 00000004 74696d65 00000000 00000001 78000000 00000004"
    "00000000 00000000"
    "0000000b 00000002"
    "00000001 76000000 00000001 00000001 00000000 00000000 00000004 00000010 00000084"
    "00000001 72000000 00000002 00000000 00000001 00000000 00000000 00000003 00000008 00000094")

# The values of v, and those of both records of r.
VALUES = struct.pack(">4i", 5, -1, 7, 8) + struct.pack(">8h", *range(8))


def changed(at: int, byte: int) -> bytes:
    return SMALL[:at] + bytes([byte]) + SMALL[at + 1:]
