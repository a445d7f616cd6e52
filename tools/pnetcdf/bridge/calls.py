"""Calls of a program as lines of a script, with what PnetCDF answered."""
import re
from dataclasses import dataclass
from functools import lru_cache

from . import words

ACCESS = re.compile(r"(put|get|iput|iget|bput)_(var1|vara|vars|varm|varn|var)(?:_(?!all$)[a-z]+)?(_all)?")
MEMBERS = re.compile(r"m(put|get)_(var1|vara|vars|varm|varn|var)(?:_(?!all$)[a-z]+)?(_all)?")
BLOCKS = re.compile(r"(put|get)_vard(_all)?")
FORM = re.compile(r"(put|get|iput|iget|bput)_(var1|vara|vars|varm|varn|var)")
MEETINGS = {"begin_indep_data", "end_indep_data", "sync_numrecs", "fill_var_rec"}
LONGEST = 12            # how many words of a call are shown
MOST_SHOWN = 4          # how many lists of a region
KINDS = {"text": 2, "schar": 1, "uchar": 7, "short": 3, "ushort": 8, "int": 4, "uint": 9, "float": 5, "double": 6, "longlong": 10,
         "ulonglong": 11}


class Repeated:
    """The same value so many times."""
    __slots__ = ("count", "value")

    def __init__(self, count, value):
        self.count, self.value = count, value

    def load(self):
        return [self.value] * self.count

    def part(self, first, count):
        return Repeated(max(0, min(count, self.count - first)), self.value)


class Filled:
    """Whole numbers of memory, and in place of those that the variable's type doesn't hold its fill value, as PnetCDF writes them."""
    __slots__ = ("stored", "kind", "fill")

    def __init__(self, stored, kind, fill):
        self.stored, self.kind, self.fill = stored, kind, fill

    @property
    def count(self):
        return self.stored.count

    def load(self):
        return [v if words.fits(self.kind, v) else self.fill for v in self.stored.load()]

    def part(self, first, count):
        return Filled(self.stored.part(first, count), self.kind, self.fill)

    def beyond(self):
        """The place of the first value that the type doesn't hold, how many there are, and the first one; None where there is none."""
        found = [(place, v) for place, v in enumerate(self.stored.load()) if not words.fits(self.kind, v)]
        return (found[0][0], len(found), found[0][1]) if found else None


@lru_cache(maxsize=None)
def kind_of(call):
    """What kind of call a name of PnetCDF's is, and its verb, form and `_all`: an access, one of many members, one by blocks, or another."""
    for kind, pattern in (("access", ACCESS), ("members", MEMBERS), ("blocks", BLOCKS)):
        match = pattern.fullmatch(call)
        if match:
            return kind, match.groups()
    return "other", ()


@lru_cache(maxsize=None)
def form_of(word):
    match = FORM.match(word)
    return match.group(2) if match else None


@lru_cache(maxsize=None)
def word_of(verb, form, everyone):
    """A script's word for an access."""
    return "%s_%s%s" % (verb, form, everyone or "")


@dataclass(slots=True)
class Line:
    """A line of a script without its rank. Where `var` is None the verb is the whole line, or the region is the number of a dimension, whose
    name may change later."""
    verb: str
    id: int = None
    var: int = None
    region: str = ""
    values: object = None       # what a put gives, None where it gives what the variable's type doesn't take
    kind: int = None

    @property
    def word(self):
        return self.verb.split(" ", 1)[0]

    @property
    def form(self):
        return form_of(self.verb)

    @property
    def puts(self):
        return self.var is not None and self.word.startswith(("put_", "iput_", "bput_"))

    @property
    def meets(self):
        return self.word.endswith("_all") or self.word in MEETINGS

    def value_text(self, zeros):
        if not self.puts or self.kind is None:
            return ""
        if self.values is None:
            return "" if self.kind == words.CHAR else '""'
        return words.script_values(self.kind, [0] * self.values.count if zeros else self.values.load())

    def shown(self, definitions):
        """The line without its values, and of many boxes the first ones."""
        if self.var is None:
            told = self.alone(definitions).split(" ")
            return " ".join(told[:LONGEST]) + (" .." if len(told) > LONGEST else "")
        lists = self.region.split(" ") if self.region else []
        first = MOST_SHOWN + (self.form == "varn")
        return self.joined(definitions, " ".join(lists[:first]) + (" .." if len(lists) > first else ""), "")

    def text(self, definitions, zeros=False):
        return self.alone(definitions) if self.var is None else self.joined(definitions, self.region, self.value_text(zeros))

    def alone(self, definitions):
        return self.verb + " " + definitions.dimension_word(int(self.region)) if self.region else self.verb

    def joined(self, definitions, region, values):
        told = [self.verb, None if self.id is None else str(self.id), definitions.variable_word(self.var), region, values]
        return " ".join(filter(None, told))


@dataclass(slots=True)
class Item:
    """What a wait answered of one request: its code, and of a get its values with the type of the variable."""
    id: int
    code: str = "ok"
    values: object = None
    kind: int = None

    def text(self):
        return " ".join(filter(None, [str(self.id), self.code, got_text(self.values, self.kind)]))


@dataclass(slots=True)
class Call(Line):
    """A call of the program: its line, and before that the posts that it stands for where one line isn't enough."""
    number: int = 0             # its place among the program's calls after the definitions
    name: str = ""
    code: str = "ok"
    got: object = None          # what a get got, or the text behind the code
    items: list = ()
    requests: list = ()         # the ids that it completes
    before: tuple = ()
    took: float = None
    barriers: int = 0           # how many barriers its rank had passed
    changed: tuple = ()         # ids of puts whose memory was changed between post and wait
    beyond: tuple = None        # of values that the type doesn't hold the place of the first, how many they are, and the first one
    stands_in: bool = False     # it was refused, and takes part with nothing
    meeting: int = -1           # its number among the meetings of its rank in its part

    def lines(self):
        yield from self.before
        yield self

    def answers(self):
        """The lines of a run's text that say what PnetCDF answered, without their numbers."""
        for line in self.before:
            yield line.word + " ok"
        yield " ".join(filter(None, [self.word, self.code, self.got if isinstance(self.got, str) else got_text(self.got, self.kind)]))
        for item in self.items:
            yield "  " + item.text()

    def put_lines(self):
        return [line for line in self.lines() if line.puts]


def got_text(values, kind):
    """Values that a get got, in words: in the variable's type, or in the type of memory that they were converted to."""
    if values is None:
        return ""
    memory = KINDS[values.memory]
    same = kind is not None and (memory in words.FORMATS) == (kind in words.FORMATS) and words.SIZES[memory] == words.SIZES[kind]
    return words.value_words(kind if same else memory, values.load())


def as_posts(call, number):
    """The same access of all ranks as a post that is waited for at once: one step, as before."""
    verb = "i" + call.verb[:-len("_all")]
    post = Line(verb, number, call.var, call.region, call.values, call.kind)
    done = call.code == "ok"
    items = [Item(number, "ok", call.got if not isinstance(call.got, str) else None, call.kind)] if done else []
    call.before, call.items, call.requests = (post,), items, [number]
    call.verb, call.var, call.region, call.values, call.got = "wait_all %d" % number, None, "", None, None
