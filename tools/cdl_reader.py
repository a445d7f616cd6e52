"""CDL, as ncdump prints it, read into dimensions, variables, attributes and values; and the words that CDL and scripts share. For tools/cdl."""
import math, re, struct

SIZES = {"byte": "b", "char": "c", "short": "h", "int": "i", "float": "f", "double": "d",
         "ubyte": "B", "ushort": "H", "uint": "I", "int64": "q", "uint64": "Q"}
LATER = {"ubyte", "ushort", "uint", "int64", "uint64"}                 # the types that CDF-5 adds
SUFFIXES = {"ub": "ubyte", "us": "ushort", "ull": "uint64", "ll": "int64", "u": "uint", "b": "byte", "s": "short", "f": "float"}
FILLS = {"byte": -127, "char": "\0", "short": -32767, "int": -2147483647, "float": 9.969209968386869e36, "double": 9.969209968386869e36,
         "ubyte": 255, "ushort": 65535, "uint": 4294967295, "int64": -9223372036854775806, "uint64": 18446744073709551614}
MOST_ELEMENTS = 2 ** 20                                                 # of one call
TOKEN = re.compile(r'\s+|//[^\n]*|("(?:[^"\\]|\\.)*")|([=,;:(){}])|([^\s=,;:(){}"]+)', re.S)
ESCAPES = {"n": "\n", "t": "\t", "r": "\r", "b": "\b", "f": "\f", "v": "\v"}


class Fault(Exception):
    """What keeps a text from being turned into the other form."""


# ---- words of both languages

def bits(kind, number):
    return "x" + struct.pack(">" + SIZES[kind], number).hex().upper()


def is_past_float(number):
    try:
        return struct.pack(">f", number) is None
    except OverflowError:
        return True


def number_of_bits(word):
    return struct.unpack(">f" if len(word) == 9 else ">d", bytes.fromhex(word[1:]))[0]


def quoted(text, escape="\\x{:02X}"):
    """A text as a word of a script: its bytes, those that are no printable ASCII escaped. CDL escapes by octal digits."""
    def one(byte):
        return {34: '\\"', 92: "\\\\", 10: "\\n", 9: "\\t"}.get(byte) or (chr(byte) if 32 <= byte < 127 else escape.format(byte))
    return '"' + "".join(map(one, text.encode("latin-1"))) + '"'


def unquoted(word):
    """A text's bytes, as characters of one byte each."""
    def one(found):
        escape = found[1]
        if escape[0] == "x" and len(escape) == 3:
            return chr(int(escape[1:], 16))
        return chr(int(escape, 8) % 256) if escape[0] in "01234567" else ESCAPES.get(escape, escape)
    return re.sub(r"\\(x[0-9A-Fa-f]{2}|[0-7]{1,3}|.)", one, word[1:-1], flags=re.S)


def value_words(kind, values):
    if kind == "char":
        return [quoted("".join(values))]
    return [bits(kind, it) for it in values] if kind in ("float", "double") else [str(it) for it in values]


# ---- CDL read

class Cdl:
    """The tokens of a CDL text, taken one by one, and the dataset that they make."""

    def __init__(self, text):
        found = [it for it in TOKEN.finditer(text) if it[1] or it[2] or it[3]]
        self.tokens = [it[0] for it in found]
        self.places = [it.start() for it in found]
        self.text, self.at = text, 0
        self.dims, self.vars, self.attrs, self.data = {}, {}, [], {}

    def look(self, ahead=0):
        return self.tokens[self.at + ahead] if self.at + ahead < len(self.tokens) else ""

    def fault(self, what):
        """A fault at the token that was taken last, with its line."""
        place = self.places[self.at - 1] if self.at else 0
        return Fault(f"CDL line {self.text.count(chr(10), 0, place) + 1}: {what}")

    def take(self, wanted=None):
        token = self.look()
        self.at += 1 if token else 0
        if not token or wanted is not None and token != wanted:
            raise self.fault(f"{wanted or 'a word'} is wanted, not {token or 'the end'}")
        return token

    def goes_on(self):
        """Whether a comma follows, and not the end of the statement."""
        token = self.take()
        if token not in (",", ";"):
            raise self.fault(f", or ; is wanted, not {token}")
        return token == ","

    def listed(self, one):
        """What `one` takes, for each value behind an equals sign."""
        self.take("=")
        found = [one()]
        while self.goes_on():
            found.append(one())
        return found

    def read(self):
        self.take("netcdf")
        while self.take() != "{":
            pass
        sections = {"dimensions": self.dimension, "variables": self.declaration, "data": self.values}
        section = self.declaration
        while self.look() != "}":
            if self.look() in sections and self.look(1) == ":":
                section = sections[self.take()]
                self.take(":")
            elif self.look() in ("types", "group"):
                raise self.fault("types and groups are not of the classic format")
            else:
                section()
        return self

    def dimension(self):
        while True:
            name = self.take()
            self.take("=")
            length = self.take()
            if not re.fullmatch(r"\d+|unlimited", length, re.I):
                raise self.fault(f"{length} is no length")
            self.dims[name] = 0 if length.lower() == "unlimited" else int(length)
            if not self.goes_on():
                return

    def declaration(self):
        if ":" in (self.look(), self.look(1)):
            owner = "" if self.look() == ":" else self.take()
            self.take(":")
            return self.attribute(owner)
        kind = self.take()
        kind = {"long": "int", "real": "float"}.get(kind, kind)
        if kind not in SIZES:
            raise self.fault(f"{kind} is no type of the classic format")
        while True:
            name, shape = self.take(), []
            if self.look() == "(":
                while self.take() != ")":
                    shape.append(self.take())
            for it in shape:
                if it not in self.dims:
                    raise self.fault(f"{it} is no dimension")
            self.vars[name] = (kind, shape)
            if not self.goes_on():
                return None

    def attribute(self, owner):
        name, found = self.take(), self.listed(self.constant)
        kind = found[0][0]
        if any(it[0] != kind for it in found):
            raise self.fault(f"the values of {name} are of several types")
        self.attrs.append((owner, name, kind, [it for _, it in found]))

    def constant(self):
        """A value with the type that its form says."""
        token = self.take()
        if token.startswith('"'):
            return "char", unquoted(token)
        found = re.fullmatch(r"([+-]?)(\d+)(ub|us|ull|ll|u|b|s)?", token, re.I)
        if found:
            return SUFFIXES.get((found[3] or "").lower(), "int"), int(found[1] + found[2])
        found = re.fullmatch(r"([+-]?(?:nan|inf(?:inity)?|[\d.]+(?:e[+-]?\d+)?))(f)?", token, re.I)
        if not found:
            raise self.fault(f"{token} is no value")
        return self.floating("float" if found[2] else "double", found[1])

    def floating(self, kind, digits):
        """A float or double that its type has: a finite number is not rounded to infinity."""
        try:
            given = float(digits)
        except ValueError:
            raise self.fault(f"{digits} is no value") from None
        if math.isinf(given) and "inf" not in digits.lower() or kind == "float" and math.isfinite(given) and is_past_float(given):
            raise self.fault(f"{digits} is past the greatest {kind}")
        return kind, given

    def values(self):
        name = self.take()
        if name not in self.vars:
            raise self.fault(f"{name} is no variable")
        self.data[name] = self.listed(lambda: self.value(name, self.vars[name][0]))

    def value(self, name, kind):
        if self.look() == "_":
            self.take()
            return self.fill_of(name, kind)
        own, given = self.constant()
        if (own == "char") != (kind == "char") or isinstance(given, float) and kind not in ("float", "double"):
            raise self.fault(f"{given} is no {kind}")
        if kind == "float" and math.isfinite(given) and is_past_float(given):
            raise self.fault(f"{given} is past the greatest float")
        return float(given) if kind in ("float", "double") else given

    def fill_of(self, name, kind):
        own = [it[3][0] for it in self.attrs if it[:2] == (name, "_FillValue")]
        return own[0] if own else FILLS[kind]
