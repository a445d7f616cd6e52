"""An attribute's values in its own type, as PnetCDF converts them."""
from . import words

DEFAULT_FILLS = {1: -127, 2: 0, 3: -32767, 4: -2147483647, 5: 0x7CF00000, 6: 0x479E000000000000, 7: 255, 8: 65535, 9: 4294967295,
                 10: -9223372036854775806, 11: 18446744073709551614}
REALS = {"float": words.FLOAT, "double": words.DOUBLE}


def real_value(kind, number):
    """The pattern of a number as float or double; the type's fill value where it is past the greatest."""
    try:
        return words.pattern(kind, number)
    except OverflowError:
        return DEFAULT_FILLS[kind]


def whole_value(kind, memory, number, version):
    """A number in a type of whole numbers, cut toward zero; the type's fill value where it doesn't fit."""
    if number != number or number in (float("inf"), float("-inf")):
        return DEFAULT_FILLS[kind]
    number = int(number)
    if kind == words.BYTE and memory == "uchar" and version != 5:
        return number - 256 if number > 127 else number
    return number if words.fits(kind, number) else DEFAULT_FILLS[kind]


def attribute_values(kind, memory, values, version):
    """Values of memory as the attribute of that type holds them."""
    if kind == words.CHAR or memory == "text":
        return list(values)
    source = REALS.get(memory)
    if kind == source:
        return list(values)
    numbers = [words.number_of(source, v) for v in values] if source else values
    if kind in (words.FLOAT, words.DOUBLE):
        return [real_value(kind, n) for n in numbers]
    return [whole_value(kind, memory, n, version) for n in numbers]
