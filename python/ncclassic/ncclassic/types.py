"""The types of the file format."""
from __future__ import annotations

# By their numbers: the name in CDL, and the bytes of a value.
TYPES = {1: ("byte", 1), 2: ("char", 1), 3: ("short", 2), 4: ("int", 4), 5: ("float", 4), 6: ("double", 8),
         7: ("ubyte", 1), 8: ("ushort", 2), 9: ("uint", 4), 10: ("int64", 8), 11: ("uint64", 8)}
NUMBERS = {name: number for number, (name, _) in TYPES.items()}
SIZES = dict(TYPES.values())


def number_of(type: str) -> int:
    """The number of a type. ValueError: there is none of this name."""
    if type not in NUMBERS:
        raise ValueError(f"no type is named {type}")
    return NUMBERS[type]
