"""Words of the script language."""
import re
import struct

TYPES = {1: "byte", 2: "char", 3: "short", 4: "int", 5: "float", 6: "double", 7: "ubyte", 8: "ushort", 9: "uint", 10: "int64",
         11: "uint64"}
SIZES = {1: 1, 2: 1, 3: 2, 4: 4, 5: 4, 6: 8, 7: 1, 8: 2, 9: 4, 10: 8, 11: 8}
FORMATS = {1: "b", 3: "h", 4: "i", 7: "B", 8: "H", 9: "I", 10: "q", 11: "Q"}
BYTE, CHAR, FLOAT, DOUBLE = 1, 2, 5, 6
NAME = re.compile(rb"[A-Za-z0-9_][A-Za-z0-9_.@+-]{0,255}")
SHORTEST_SEQUENCE = 5


def is_name(name):
    return NAME.fullmatch(name) is not None


def list_word(sizes):
    return "[%s]" % ",".join(map(str, sizes))


def fits(kind, value):
    """Whether a whole number fits a type of whole numbers."""
    bits = 8 * SIZES[kind]
    low = -(1 << (bits - 1)) if FORMATS[kind].islower() else 0
    return low <= value < low + (1 << bits)


def quoted(values):
    """A text of bytes in quotes."""
    plain = {ord('"'): '\\"', ord("\\"): "\\\\", ord("\n"): "\\n", ord("\t"): "\\t"}
    return '"%s"' % "".join(plain.get(v) or (chr(v) if 32 <= v <= 126 else "\\x%02X" % v) for v in values)


def value_words(kind, values):
    """Values of a type as a run prints them, without sequences."""
    if kind == CHAR:
        return quoted(values) if values else ""
    if kind in (FLOAT, DOUBLE):
        return " ".join("x%0*X" % (2 * SIZES[kind], v) for v in values)
    return " ".join(map(str, values))


def script_values(kind, values):
    """Values of a type as a script gives them."""
    bits = kind in (FLOAT, DOUBLE)
    if kind != CHAR and len(values) >= SHORTEST_SEQUENCE:
        step = values[1] - values[0]
        even = all(b - a == step for a, b in zip(values, values[1:]))
        if even and bits and step >= 0:
            return "seqx %d x%X x%X" % (len(values), values[0], step)
        if even and not bits:
            return "seq %d %d %d" % (len(values), values[0], step)
    return value_words(kind, values)


def pattern(kind, number):
    """The bits of a float or double of that value."""
    code = ">f" if kind == FLOAT else ">d"
    return int.from_bytes(struct.pack(code, number), "big")


def number_of(kind, bits):
    """The value of the bits of a float or double."""
    code, size = (">f", 4) if kind == FLOAT else (">d", 8)
    return struct.unpack(code, bits.to_bytes(size, "big"))[0]
