"""Headers and values of the netCDF classic format, written from its grammar."""

BYTE, SHORT, INT, FLOAT, UINT64 = 1, 3, 4, 5, 11


def spelled(number, length=4):
    return (number % (1 << 8 * length)).to_bytes(length, "big")


def ints(*values):
    return b"".join(map(spelled, values))


def shorts(*values):
    return b"".join(spelled(value, 2) for value in values)


def padded(data):
    return data + bytes(-len(data) % 4)


def header(version, records, dims, variables):
    """Dimensions are (name, length); variables are (name, dimensions, type, vsize, begin) and then attributes (name, type, count, bytes)."""
    wide = 8 if version == 5 else 4

    def name(text):
        return spelled(len(text), wide) + padded(text.encode())

    def listed(tag, entries):
        return spelled(tag if entries else 0) + spelled(len(entries), wide) + b"".join(entries)

    def attributes(entries):
        return listed(12, [name(text) + spelled(kind) + spelled(count, wide) + padded(data) for text, kind, count, data in entries])

    def variable(text, ids, kind, vsize, begin, *attrs):
        shape = spelled(len(ids), wide) + b"".join(spelled(number, wide) for number in ids)
        return name(text) + shape + attributes(attrs) + spelled(kind) + spelled(vsize, wide) + spelled(begin, 4 if version == 1 else 8)

    return (b"CDF" + bytes([version]) + spelled(records, wide) + listed(10, [name(text) + spelled(length, wide) for text, length in dims])
            + attributes(()) + listed(11, [variable(*entry) for entry in variables]))
