#!/usr/bin/env python3
"""Writes the wrappers of PnetCDF's many calls that differ by form and type alone, from the prototypes of pnetcdf.h.

usage: wrappers.py PNETCDF_H > wrappers.c

Five families are wrapped: puts and gets of a region, those of several variables, those by an MPI type in the file, attributes, and plain
calls of one dataset without more to tell. The others stand in trace_calls.c and trace_datasets.c by hand.
"""
import re
import sys

# PnetCDF's word for a type of memory, and the MPI type that says the same.
TYPES = {
    "text": "MPI_CHAR", "schar": "MPI_SIGNED_CHAR", "uchar": "MPI_UNSIGNED_CHAR", "ubyte": "MPI_UNSIGNED_CHAR",
    "short": "MPI_SHORT", "ushort": "MPI_UNSIGNED_SHORT", "int": "MPI_INT", "uint": "MPI_UNSIGNED", "long": "MPI_LONG",
    "float": "MPI_FLOAT", "double": "MPI_DOUBLE", "longlong": "MPI_LONG_LONG_INT", "ulonglong": "MPI_UNSIGNED_LONG_LONG",
}
TYPE = "(?:_(?P<type>%s))?" % "|".join(TYPES)
ACCESS = re.compile(r"(?P<kind>put|get|iput|iget|bput)_(?P<form>var1|vara|vars|varm|varn|var)" + TYPE + r"(_all)?")
ATTRIBUTE = re.compile("put_att" + TYPE)
PLAIN = re.compile("begin_indep_data|end_indep_data|sync_numrecs|sync|flush|buffer_detach")
MANY = re.compile(r"m(?P<kind>put|get)_(?P<form>var1|vara|vars|varm|var)" + TYPE + r"(_all)?")
TYPED = re.compile(r"(?P<kind>put|get)_vard(_all)?")
DIRECTIONS = {"put": "PUT", "get": "GET", "iput": "POSTED_PUT", "bput": "BUFFERED_PUT", "iget": "POSTED_GET"}
PROTOTYPE = re.compile(r"\bint\s+ncmpi_(\w+)\s*\(([^;{}]*?)\)\s*;")
# Parameters of a region that are handed on under their own names.
REGION = ("start", "count", "stride", "imap", "starts", "counts")


def prototypes(text):
    """The name and the parameters, each as type with name, of every call of the header."""
    text = re.sub(r"/\*.*?\*/", " ", text, flags=re.S)
    for name, parameters in PROTOTYPE.findall(text):
        yield name, [" ".join(p.split()) for p in parameters.split(",")]


def name_of(parameter):
    return re.search(r"(\w+)(?:\[\])?$", parameter).group(1)


def wrapper(name, parameters, body, renamed=None):
    """A function of that name, in whose body CALL is the call of PnetCDF's own."""
    names = ", ".join((renamed or {}).get(n, n) for n in map(name_of, parameters))
    return "int ncmpi_%s(%s)\n{\n%s}\n" % (name, ", ".join(parameters), body.replace("CALL", "REAL(%s)(%s)" % (name, names)))


def access(name, parameters, match):
    names = list(map(name_of, parameters))
    kind, form, type_word = match.group("kind"), match.group("form"), match.group("type")
    fields = [".name = \"%s\"" % name, ".direction = " + DIRECTIONS[kind], ".form = " + form.upper(), ".ncid = ncid", ".varid = varid"]
    fields += [".%s = %s" % (n, n) for n in REGION if n in names]
    if "num" in names:
        fields.append(".parts = num")
    fields.append(".buffer = " + next(n for n in ("op", "ip", "buf") if n in names))
    fields.append(".type = " + (TYPES[type_word] if type_word else "buftype"))
    if not type_word:
        fields += [".flexible = true", ".bufcount = bufcount"]
    # A program that doesn't want to know the request passes NULL; the trace needs it all the same.
    post = "req" in names
    own = "    int own = NC_REQ_NULL, *request = req != NULL ? req : &own;\n" if post else ""
    return wrapper(name, parameters, """    Access access = {%s};
    Memory memory;
%s    begin_access(&access, &memory);
    return end_access(&access, &memory, CALL, %s);
""" % (", ".join(fields), own, "request" if post else "NULL"), {"req": "request"})


def many(name, parameters, match):
    names = list(map(name_of, parameters))
    type_word = match.group("type")
    fields = [".name = \"%s\"" % name, ".direction = " + DIRECTIONS[match.group("kind")], ".form = " + match.group("form").upper(),
              ".ncid = ncid", ".count = num", ".varids = varids",
              ".buffers = (void *const *)" + next(n for n in ("bufs", "buf") if n in names)]
    fields += [".%s = %s" % (n, n) for n in ("starts", "counts", "strides", "imaps") if n in names]
    fields.append(".type = " + TYPES[type_word] if type_word else ".bufcounts = bufcounts, .types = datatypes")
    return wrapper(name, parameters, """    Many many = {%s};
    Memory *memories = begin_many(&many);
    return end_many(&many, memories, CALL);
""" % ", ".join(fields))


def typed(name, parameters, match):
    buffer = next(n for n in map(name_of, parameters) if n in ("op", "ip", "buf"))
    return wrapper(name, parameters, """    Typed typed = {.name = "%s", .direction = %s, .ncid = ncid, .varid = varid, .file_type = filetype, .type = buftype,
                   .buffer = %s, .bufcount = bufcount};
    Memory memory;
    begin_typed(&typed, &memory);
    return end_typed(&typed, &memory, CALL);
""" % (name, DIRECTIONS[match.group("kind")], buffer))


def attribute(name, parameters, match):
    names = list(map(name_of, parameters))
    type_word = match.group("type")
    basic = "basic_of(%s)" % TYPES[type_word] if type_word else "basic_of_variable(xtype)"
    xtype = "xtype" if "xtype" in names else "NC_CHAR"
    length, values = names[-2], names[-1]
    return wrapper(name, parameters, """    begin_call(ncid, "put_att");
    attribute_fields(varid, name, %s, %s, %s, %s);
    call_made();
    return end_call(CALL);
""" % (xtype, basic, length, values))


def plain(name, parameters, match):
    return wrapper(name, parameters, """    begin_call(ncid, "%s");
    call_made();
    return end_call(CALL);
""" % name)


FAMILIES = ((ACCESS, access), (MANY, many), (TYPED, typed), (ATTRIBUTE, attribute), (PLAIN, plain))


def main():
    if len(sys.argv) != 2:
        sys.exit(__doc__)
    with open(sys.argv[1]) as header:
        text = header.read()
    print("/* Written by wrappers.py from pnetcdf.h. */\n#include \"trace.h\"\n")
    for name, parameters in prototypes(text):
        for pattern, write in FAMILIES:
            match = pattern.fullmatch(name)
            if match:
                print(write(name, parameters, match))
                break


main()
