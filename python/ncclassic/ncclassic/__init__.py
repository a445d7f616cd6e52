"""Files in the netCDF classic format (CDF-1, CDF-2, CDF-5) by their bytes: what a header holds, and where the values lie.

    from ncclassic import Header

    header = Header.read("weather.nc")
    for extent in header["temp"].extents([0, 0], [1, 3]):
        print(extent.at, extent.len)

All that is computed comes from libnc_classic, whose functions are proved; this package hands it over. It is found where it is installed, or by
the variable NC_CLASSIC_LIBRARY of the environment.
"""
from .faults import DefinitionError, HeaderError, RangeError, RegionError
from .header import Attribute, Dimension, Extent, Header, Layout, Needs, Place, Variable
from .making import NewHeader
from .references import references
from .values import pack, unpack
from .windows import Step, Window, windows

__all__ = ["Attribute", "DefinitionError", "Dimension", "Extent", "Header", "HeaderError", "Layout", "Needs", "NewHeader", "Place", "RangeError", "RegionError",
           "Step", "Variable", "Window", "pack", "references", "unpack", "windows"]
