#!/usr/bin/env python3
"""Random values to external form and back, against Python's own numbers.

  random_values.py LIBRARY COUNT [SEED]     LIBRARY: libnc_classic.so
"""
import ctypes as c, random, struct, sys

from library import ARGUMENT, EBADTYPE, ECHAR, ERANGE, OK, loaded

# Of each type of whole numbers: its number, its bytes, and whether it has a sign.
TYPES = {1: (1, True), 3: (2, True), 4: (4, True), 7: (1, False), 8: (2, False), 9: (4, False), 10: (8, True), 11: (8, False)}
OTHERS = {0: EBADTYPE, 2: ECHAR, 5: EBADTYPE, 6: EBADTYPE, 12: EBADTYPE, 2**32 - 1: EBADTYPE}
WORDS = {"int64": (c.c_int64, True), "uint64": (c.c_uint64, False)}


def bounds(size, signed):
    return (-2**(8 * size - 1), 2**(8 * size - 1) - 1) if signed else (0, 2**(8 * size) - 1)


def random_number(rng, low, high):
    """Mostly one that many types hold, and often one at a limit."""
    limit = rng.choice([2**k for k in (0, 7, 8, 15, 16, 31, 32, 63)]) + rng.randint(-2, 2)
    return min(high, max(low, rng.choice((rng.randint(-130, 130), limit, -limit, rng.randint(low, high)))))


def first_out(numbers, low, high):
    return next((k for k, number in enumerate(numbers) if not low <= number <= high), None)


def check_pack(lib, rng, name, kind):
    word, has_sign = WORDS[name]
    size, signed = TYPES[kind]
    low, high = bounds(size, signed)
    own = bounds(8, has_sign)
    numbers = [random_number(rng, max(own[0], low), min(own[1], high)) if rng.random() < 0.9 else random_number(rng, *own) for _ in range(rng.randint(0, 9))]
    into, refused = (c.c_uint8 * (len(numbers) * size + 1))(*[0xEE] * (len(numbers) * size + 1)), c.c_uint64(77)
    before = bytes(into)
    code = getattr(lib, f"ncv_pack_{name}")(kind, (word * (len(numbers) + 1))(*numbers), len(numbers), into, len(numbers) * size, c.byref(refused))
    out = first_out(numbers, low, high)
    if out is None:
        wanted = OK, b"".join(number.to_bytes(size, "big", signed=signed) for number in numbers) + b"\xEE", 77
    else:
        wanted = ERANGE, before, out
    assert (code, bytes(into), refused.value) == wanted, f"pack {name} {kind} {numbers}: {code} {bytes(into)} {refused.value}, wanted {wanted}"
    return out is not None


def check_unpack(lib, rng, name, kind):
    word, has_sign = WORDS[name]
    size, signed = TYPES[kind]
    own = bounds(8, has_sign)
    numbers = [random_number(rng, *bounds(size, signed)) if rng.random() < 0.3 else rng.randint(0, 127) for _ in range(rng.randint(0, 9))]
    form = b"".join(number.to_bytes(size, "big", signed=signed) for number in numbers)
    into, refused = (word * (len(numbers) + 1))(*[7] * (len(numbers) + 1)), c.c_uint64(77)
    code = getattr(lib, f"ncv_unpack_{name}")(kind, form, len(form), into, len(numbers), c.byref(refused))
    out = first_out(numbers, *own)
    wanted = (OK, [*numbers, 7], 77) if out is None else (ERANGE, [7] * (len(numbers) + 1), out)
    assert (code, list(into), refused.value) == wanted, f"unpack {name} {kind} {numbers}: {code} {list(into)} {refused.value}, wanted {wanted}"
    return out is not None


def check_others(lib, rng, name):
    """Types whose values are no whole numbers, and lengths that are not the values' own."""
    word, _ = WORDS[name]
    refused, into, numbers = c.c_uint64(77), (c.c_uint8 * 9)(), (word * 2)(300, 300)
    for kind, wanted in OTHERS.items():
        assert getattr(lib, f"ncv_pack_{name}")(kind, numbers, 1, into, 1, c.byref(refused)) == wanted
        assert getattr(lib, f"ncv_unpack_{name}")(kind, bytes(8), 8, numbers, 1, c.byref(refused)) == wanted
    for kind, (size, _) in TYPES.items():
        wrong = rng.choice([n for n in range(9) if n != size])
        assert getattr(lib, f"ncv_pack_{name}")(kind, numbers, 1, into, wrong, c.byref(refused)) == ARGUMENT
        assert getattr(lib, f"ncv_unpack_{name}")(kind, bytes(9), wrong, numbers, 1, c.byref(refused)) == ARGUMENT
    assert refused.value == 77 and bytes(into) == bytes(9) and list(numbers) == [300, 300]


def check_patterns(lib, rng, name, size, letter):
    """Floats by their bit patterns: each comes back as it was."""
    count = rng.randint(0, 9)
    patterns = [rng.getrandbits(8 * size) for _ in range(count)]
    native = struct.pack(f"={count}{letter}", *patterns)
    form, back = c.create_string_buffer(count * size + 1), c.create_string_buffer(count * size + 1)
    lib[f"ncv_pack_{name}"].restype = lib[f"ncv_unpack_{name}"].restype = c.c_int32
    assert lib[f"ncv_pack_{name}"](c.c_char_p(native + b"\0"), c.c_size_t(count), form, c.c_size_t(count * size)) == OK
    assert form.raw == struct.pack(f">{count}{letter}", *patterns) + b"\0"
    assert lib[f"ncv_unpack_{name}"](form, c.c_size_t(count * size), back, c.c_size_t(count)) == OK
    assert back.raw == native + b"\0"
    assert lib[f"ncv_pack_{name}"](c.c_char_p(native + b"\0"), c.c_size_t(count), form, c.c_size_t(count * size + 1)) == ARGUMENT


def main(path, count, seed=1):
    lib, rng, out = loaded(path), random.Random(int(seed)), 0
    for _ in range(int(count)):
        for name in WORDS:
            kind = rng.choice(list(TYPES))
            out += check_pack(lib, rng, name, kind) + check_unpack(lib, rng, name, kind)
            check_others(lib, rng, name)
        check_patterns(lib, rng, "float", 4, "I")
        check_patterns(lib, rng, "double", 8, "Q")
    print(f"{count} rounds of values: packed and unpacked as Python has them, {out} lists of whole numbers refused at the first that is out of range")


main(*sys.argv[1:])
