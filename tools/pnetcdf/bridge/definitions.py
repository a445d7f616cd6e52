"""The definitions of a traced dataset, as the scripts of its parts give them."""
from dataclasses import dataclass, field

from . import classic, words
from .attributes import DEFAULT_FILLS, attribute_values
from .traces import text_of

UNLIMITED = 0
FILL = 0        # PnetCDF's number for the mode in which variables are filled
BEFORE = -1     # the part of what an opened dataset had
DEFINES = {"def_dim", "def_var", "put_att", "del_att", "rename_dim", "rename_var", "rename_att", "set_fill", "def_var_fill"}
HINTS = {"cb_nodes": 64, "cb_buffer_size": 1 << 25, "ind_rd_buffer_size": 1 << 25, "ind_wr_buffer_size": 1 << 25,
         "striping_unit": 1 << 25}
ALIGNMENTS = ("nc_header_align_size", "nc_var_align_size", "nc_record_align_size")
GREATEST_ALIGNMENT = 1 << 20
MOST_DIMS = 32


class NoWord(Exception):
    """What a script has no word for."""


def name_word(name, what):
    if not words.is_name(name):
        raise NoWord("the name of %s, %r: it has other characters than a script's names" % (what, name.decode("utf-8", "replace")))
    return name.decode()


@dataclass
class Dimension:
    name: bytes
    length: int
    part: int


@dataclass
class Variable:
    name: bytes
    kind: int
    over: list
    part: int
    filled: bool = False


@dataclass
class Attribute:
    kind: int
    values: list
    part: int
    phase: int = field(default=0, compare=False)    # how many phases of definitions had ended when it was put first


@dataclass
class Part:
    """What is defined between two phases of calls: the answer of its enddef, and the variables that are filled then."""
    fresh: bool
    answer: dict = field(default_factory=dict)
    fills: list = field(default_factory=list)
    record_fills: list = field(default_factory=list)    # record variables that are filled where there are records


class Definitions:
    """Dimensions, variables and attributes by their numbers in PnetCDF, part by part."""

    def __init__(self, opened):
        self.fresh = opened.call == "create"
        self.dims, self.vars, self.attributes = [], [], {}
        self.order = []             # dimensions and variables as they were added
        self.remarks, self.left_out = [], []
        self.filling = self.renamed = False
        self.records = 0            # how many records an opened dataset had
        self.ended = 0              # how many variables there were at the last end of definitions
        self.phase = 0              # how many ends there were
        answer = opened.answer or {}
        self.version = answer.get("format")
        self.parts = [Part(self.fresh, answer)]
        if not self.fresh:
            self.take_contents(answer)

    def take_contents(self, answer):
        unlimited = answer.get("unlimited", -1)
        self.records = dict(enumerate(length for _, length in answer.get("dimensions", []))).get(unlimited, 0)
        for number, (name, length) in enumerate(answer.get("dimensions", [])):
            self.dims.append(Dimension(text_of(name), UNLIMITED if number == unlimited else length, BEFORE))
        self.vars = [Variable(text_of(name), kind, over, BEFORE) for name, kind, over in answer.get("variables", [])]

    @property
    def part(self):
        return len(self.parts) - 1

    def redefine(self):
        self.parts.append(Part(False, dict(self.parts[-1].answer)))

    def end(self, answer):
        """The end of a phase of definitions: new variables of one size are filled if they are to be."""
        part = self.parts[-1]
        part.answer = answer or part.answer
        filled = [n for n in range(self.ended, len(self.vars)) if self.vars[n].part == self.part and self.vars[n].filled]
        part.fills += [n for n in filled if not self.is_record(self.vars[n])]
        part.record_fills += [n for n in filled if self.is_record(self.vars[n])]
        self.ended = len(self.vars)
        self.phase += 1

    def take(self, event):
        getattr(self, event.call)(event.given)

    def remark(self, text):
        if text not in self.remarks:
            self.remarks.append(text)

    # ---- what a program defines

    def def_dim(self, given):
        self.order.append(("dim", len(self.dims)))
        self.dims.append(Dimension(text_of(given["dim"]), given["length"], self.part))

    def def_var(self, given):
        self.order.append(("var", len(self.vars)))
        self.vars.append(Variable(text_of(given["variable"]), given["type"], given.get("over", []), self.part, self.filling))

    def put_att(self, given):
        key = given["var"], text_of(given["attribute"])
        values = attribute_values(given["type"], given["memory"], given.get("values", []), self.version)
        old = self.attributes.get(key)
        if old and old.phase != self.phase and (old.kind, old.values) != (given["type"], values):
            self.remark("the attribute %s is changed later, and has its last value from the start" % self.shown(key))
        part, phase = (old.part, old.phase) if old else (self.part, self.phase)
        self.attributes[key] = Attribute(given["type"], values, part, phase)

    def del_att(self, given):
        key = given["var"], text_of(given["attribute"])
        if self.attributes.pop(key, None) is None:
            self.left_out.append("the attribute %s is deleted, and a script only adds" % self.shown(key))
        else:
            self.remark("the attribute %s is deleted later, and isn't there from the start" % self.shown(key))

    def rename_att(self, given):
        key, new = (given["var"], text_of(given["attribute"])), (given["var"], text_of(given["new"]))
        if key not in self.attributes:
            self.left_out.append("the attribute %s is renamed, and a script only adds" % self.shown(key))
            return
        self.attributes = {new if k == key else k: a for k, a in self.attributes.items()}
        self.remark("the attribute %s is renamed, and has its last name from the start" % self.shown(key))

    def rename_dim(self, given):
        self.rename("dimension", self.dims[given["dim"]], text_of(given["new"]))

    def rename_var(self, given):
        self.rename("variable", self.vars[given["var"]], text_of(given["new"]))

    def rename(self, what, own, new):
        """One that was added by this opening has its last name from the start; one that was there keeps its old one."""
        told = what, own.name.decode("utf-8", "replace"), new.decode("utf-8", "replace")
        self.renamed = True
        if own.part == BEFORE:
            self.left_out.append("the %s %s is renamed to %s, and a script only adds" % told)
            return
        self.remark("the %s %s is renamed to %s, and has that name from the start" % told)
        own.name = new

    def set_fill(self, given):
        self.filling = given["mode"] == FILL
        for var in self.vars:
            var.filled = self.filling

    def def_var_fill(self, given):
        var = self.vars[given["var"]]
        var.filled = not given["no_fill"]
        if given.get("values"):
            key = given["var"], b"_FillValue"
            old = self.attributes.get(key)
            self.attributes[key] = Attribute(var.kind, list(given["values"]), old.part if old else self.part)

    # ---- what is known of it

    def is_record(self, var):
        return bool(var.over) and self.dims[var.over[0]].length == UNLIMITED

    def shape(self, var):
        """The lengths of a variable's dimensions, 0 for the record dimension."""
        return [self.dims[d].length for d in var.over]

    def shown(self, key):
        var, name = key
        owner = "of the dataset" if var < 0 else "of " + self.vars[var].name.decode("utf-8", "replace")
        return "%s %s" % (name.decode("utf-8", "replace"), owner)

    def fill_value(self, number):
        own = self.attributes.get((number, b"_FillValue"))
        kind = self.vars[number].kind
        return own.values[0] if own and own.kind == kind and len(own.values) == 1 else DEFAULT_FILLS[kind]

    def filled_at_once(self):
        """Whether all variables of a new dataset begin with their fill values, as `fill` says it."""
        fixed = [n for n, v in enumerate(self.vars) if v.part == 0 and not self.is_record(v)]
        return self.fresh and bool(fixed) and self.parts[0].fills == fixed

    def variable_word(self, number):
        """A variable's name; for a number that none has a name that none has."""
        if 0 <= number < len(self.vars):
            return name_word(self.vars[number].name, "a variable")
        return "no_variable_%s" % str(number).replace("-", "_")

    def dimension_word(self, number):
        """The same for a dimension."""
        return name_word(self.dims[number].name, "a dimension") if 0 <= number < len(self.dims) else "no_dimension"

    def same_as(self, other):
        """Whether two ranks defined alike."""
        return (self.version, self.order, self.dims, self.vars, self.attributes) == (
            other.version, other.order, other.dims, other.vars, other.attributes)

    def first_difference(self, other):
        """In what two ranks' definitions that aren't alike differ, with what each has."""
        if self.version != other.version:
            return "the format: CDF-%s and CDF-%s" % (self.version, other.version)
        names = [[x.name for x in own] for own in (self.dims, other.dims, self.vars, other.vars)]
        for what, own, its in (("dimensions", *names[:2]), ("variables", *names[2:])):
            if own != its:
                return "%s: %s and %s" % (what, *(b", ".join(n).decode("utf-8", "replace") or "none" for n in (own, its)))
        if self.dims != other.dims:
            return "the lengths of dimensions"
        if self.vars != other.vars:
            return "the types or dimensions of variables"
        return "attributes" if self.attributes != other.attributes else "the order of dimensions and variables"

    # ---- the lines of a script

    def line_of(self, what, number):
        if what == "dim":
            dim = self.dims[number]
            name = name_word(dim.name, "a dimension")
            if dim.length >= (1 << 62 if self.version == 5 else 1 << 31):
                raise NoWord("dimension %s of length %d: it is below 2^%d there in CDF-%d" % (
                    name, dim.length, 62 if self.version == 5 else 31, self.version))
            return "dim %s %s" % (name, dim.length or "unlimited")
        var = self.vars[number]
        name = name_word(var.name, "a variable")
        if len(var.over) > MOST_DIMS:
            raise NoWord("variable %s of %d dimensions: a script's have at most %d" % (name, len(var.over), MOST_DIMS))
        return "var %s %s [%s]" % (words.TYPES[var.kind], name, ",".join(name_word(self.dims[d].name, "a dimension") for d in var.over))

    def attribute_line(self, key, attribute):
        var, name = key
        owner = ":" if var < 0 else self.variable_word(var)
        values, kind = attribute.values, attribute.kind
        given = words.script_values(kind, values) if values or kind != words.CHAR else '""'
        return ("att %s %s %s %s" % (owner, name_word(name, "an attribute"), words.TYPES[kind], given)).rstrip()

    def header(self):
        """The header that the first definitions make."""
        def attributes(owner):
            return {name: (own.kind, classic.attribute_bytes(own.kind, own.values))
                    for (var, name), own in self.attributes.items() if var == owner and own.part == 0}
        header = classic.Header(self.version, 0, [(d.name, d.length) for d in self.dims if d.part == 0])
        header.vars = [classic.Variable(v.name, v.over, v.kind, 0, attributes(n)) for n, v in enumerate(self.vars) if v.part == 0]
        header.attributes = attributes(-1)
        return header

    def alignments(self):
        """The alignments by which PnetCDF laid the dataset out, None where no two of a script do so."""
        answer = self.parts[0].answer
        begins, told = answer.get("begins"), answer.get("hints", {})
        if not begins:
            return 4, 4
        header = self.header()
        length = classic.header_length(header)
        hints = [int(told[n]) if told.get(n, "").isdigit() else 4 for n in ALIGNMENTS]
        tried = [(h, v) for h in dict.fromkeys([hints[0], answer.get("extent", 4), 4]) for v in dict.fromkeys([hints[1], hints[2], 4])]
        for sizes in tried:
            right = all(s > 0 and s % 4 == 0 and s <= GREATEST_ALIGNMENT for s in sizes)
            if right and classic.begins(header, length, *sizes) == begins:
                return sizes
        return None

    def hint_lines(self, part):
        """Hints that a script knows, and remarks on those that it doesn't."""
        told = self.parts[part].answer.get("hints", {})
        for name, most in HINTS.items():
            value = told.get(name, "")
            if value.isdigit() and int(value) > 0:
                yield ("hint %s %s" if int(value) <= most else "# hint %s %s is past what a script may ask for") % (name, value)
        if self.fresh and part == 0:
            sizes = self.alignments()
            if sizes:
                yield "hint nc_header_align_size %d" % sizes[0]
                yield "hint nc_var_align_size %d" % sizes[1]
            else:
                yield "# no alignments give PnetCDF's layout: the variables lie elsewhere in the proved file"

    def script_lines(self, part, ranks):
        if self.version not in (1, 2, 5):
            raise NoWord("a dataset that is none of the classic format")
        created = self.fresh and part == 0
        lines = ["create %d" % self.version if created else "open", "ranks %d" % ranks]
        lines += list(self.hint_lines(part)) + (["fill"] if created and self.filled_at_once() else [])
        lines += [self.line_of(what, n) for what, n in self.order if (self.dims if what == "dim" else self.vars)[n].part == part]
        return lines + [self.attribute_line(key, own) for key, own in self.attributes.items() if own.part == part]
