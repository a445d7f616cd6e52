"""What can be wrong, in words."""
from __future__ import annotations

from . import library

# By the numbers of nc_classic.h's NCV_FAULT_..
FAULTS = {
    1: ("NOT_CDF", "not a file in the netCDF classic format"),
    2: ("BAD_VERSION", "an unknown version of the netCDF classic format"),
    3: ("TRUNCATED", "the header is cut off within the field at byte {place}"),
    4: ("BAD_TAG", "a bad tag at byte {place}"),
    5: ("BAD_TYPE", "a bad type at byte {place}"),
    6: ("BAD_NUMBER", "a bad number at byte {place}"),
    7: ("TWO_RECORD_DIMS", "two record dimensions"),
    8: ("RECORD_NOT_FIRST", "the record dimension is not the first of variable {place}"),
    9: ("BAD_DIM_ID", "variable {place} names a dimension that is not there"),
    10: ("STREAMING", "the record count is that of a stream"),
    11: ("TOO_LARGE", "a count or a size is past a limit"),
    12: ("SHARED", "variables {place} and {other} share a byte"),
}

REGIONS = {
    library.TOO_LARGE: ("ETOOLARGE", "the region is too large"),
    library.EINVALCOORDS: ("NC_EINVALCOORDS", "a start is past the end of its dimension, or there is not one number for each dimension"),
    library.ENOTVAR: ("NC_ENOTVAR", "there is no such variable"),
    library.EEDGE: ("NC_EEDGE", "the last element is past the end of its dimension"),
    library.ESTRIDE: ("NC_ESTRIDE", "a stride is 0"),
}

# What is wrong with a definition, by its code.
DEFINITIONS = {
    library.TOO_LARGE: ("ETOOLARGE", "a size is past a limit"),
    library.EINVAL: ("NC_EINVAL", "the bytes are not whole values of the type"),
    library.EMAXDIMS: ("NC_EMAXDIMS", "there are too many dimensions"),
    library.ENAMEINUSE: ("NC_ENAMEINUSE", "the name is in use"),
    library.EMAXATTS: ("NC_EMAXATTS", "there are too many attributes"),
    library.EBADTYPE: ("NC_EBADTYPE", "no type has this number"),
    library.EBADDIM: ("NC_EBADDIM", "it names a dimension that is not there"),
    library.EUNLIMPOS: ("NC_EUNLIMPOS", "the record dimension is not its first one"),
    library.EMAXVARS: ("NC_EMAXVARS", "there are too many variables"),
    library.EMAXNAME: ("NC_EMAXNAME", "the name is too long"),
    library.EUNLIMIT: ("NC_EUNLIMIT", "there is a record dimension already"),
    library.EBADNAME: ("NC_EBADNAME", "it is no name"),
    library.EVARSIZE: ("NC_EVARSIZE", "the variable is too large for the version"),
    library.EDIMSIZE: ("NC_EDIMSIZE", "the length is too large for the version"),
    library.ESTRICTCDF2: ("NC_ESTRICTCDF2", "the version has no such type"),
}
PARTS = ("the header", "dimension", "attribute", "variable")


class HeaderError(ValueError):
    """The bytes begin with no sound header.

    name: the fault's name in nc_classic.h without NCV_FAULT_; place: the byte of the field at fault, or the number of the
    variable; other: the second variable of two that share a byte, which is the first one where it shares a byte with the header.
    """

    def __init__(self, fault: library.Fault) -> None:
        self.kind, self.place, self.other = int(fault.kind), int(fault.place), int(fault.other)
        self.name, words = FAULTS[self.kind]
        if self.name == "SHARED" and self.place == self.other:
            words = "variable {place} shares a byte with the header"
        super().__init__(words.format(place=self.place, other=self.other))


class RegionError(ValueError):
    """A region is refused. name: PnetCDF's name of the error, or ETOOLARGE; code: its number."""

    def __init__(self, code: int) -> None:
        self.code = code
        self.name, words = REGIONS[code]
        super().__init__(f"{self.name}: {words}")


class DefinitionError(ValueError):
    """A definition is refused, the first of all that would be.

    name: PnetCDF's name of the error, or ETOOLARGE; code: its number; part: "dimension", "attribute", "variable" or "the header";
    number: which of them, from 0; owner: of an attribute the number of its variable, or None for one of the dataset.
    """

    def __init__(self, code: int, told: library.Refused) -> None:
        self.code, self.part, self.number = code, PARTS[told.part], int(told.number)
        self.owner = int(told.owner) if self.part == "attribute" and told.owner != library.GLOBAL else None
        self.name, words = DEFINITIONS[code]
        which = "" if told.part == 0 else f" {self.number}" + (f" of variable {self.owner}" if self.owner is not None else "")
        super().__init__(f"{self.name}: {self.part}{which}: {words}")


class RangeError(ValueError):
    """A value is outside the range of the type that is to hold it: NC_ERANGE. number: which of the values, from 0."""

    def __init__(self, number: int) -> None:
        self.name, self.code, self.number = "NC_ERANGE", library.ERANGE, number
        super().__init__(f"{self.name}: value {number} is outside the range of its type")


def refused(code: int) -> Exception:
    """What is raised for a code other than that of a header's fault."""
    if code == library.MEMORY:
        return MemoryError()
    if code == library.ARGUMENT:
        return ValueError("a number is outside its limits")
    return RegionError(code)
