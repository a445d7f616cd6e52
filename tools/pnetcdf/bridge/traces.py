"""Trace files of ranks: the head, the calls one after another, and the values beside them."""
import json
import os
import sys
from array import array
from dataclasses import dataclass
from sys import intern

FORM = 2
SCAN = json.JSONDecoder().scan_once
# A type of memory, and how an array holds it; floats and doubles are their patterns.
CODES = {"text": "B", "schar": "b", "uchar": "B", "short": "h", "ushort": "H", "int": "i", "uint": "I", "float": "I",
         "longlong": "q", "ulonglong": "Q", "double": "Q"}


class TraceFault(Exception):
    """A trace that can't be read."""


@dataclass(slots=True)
class Event:
    """A call: what was given, and what came back (None where it never did)."""
    call: str
    given: dict
    answer: dict = None

    @property
    def ok(self):
        return self.answer is not None and self.answer.get("code") == 0

    @property
    def refused(self):
        return self.answer is not None and self.answer.get("code", 0) != 0

    @property
    def code(self):
        """PnetCDF's name of the answer; - where none came."""
        if self.answer is None or "code" not in self.answer:
            return "-"
        return "ok" if self.answer["code"] == 0 else self.answer.get("name", str(self.answer["code"]))


class Stored:
    """Values of one type that stand one after another in a rank's file of values."""
    __slots__ = ("trace", "at", "count", "memory")

    def __init__(self, trace, at, count, memory):
        self.trace, self.at, self.count, self.memory = trace, at, count, memory

    def load(self):
        return self.trace.values(self.at, self.count, CODES[self.memory])

    def part(self, first, count):
        """The values from place `first` on, as many as there are up to `count`."""
        count = max(0, min(count, self.count - first))
        return Stored(self.trace, self.at + first * array(CODES[self.memory]).itemsize, count, self.memory)


class Trace:
    """The trace of one rank. Whether it ends as a trace ends is known after its events were read."""

    def __init__(self, path):
        self.path, self.cut, self.ended, self.store = path, False, False, None
        lines = self.lines()
        self.head = next(lines, None)
        lines.close()
        if not isinstance(self.head, dict) or "nctrace" not in self.head:
            raise TraceFault("%s is no trace" % path)
        if self.head["nctrace"] != FORM:
            raise TraceFault("%s was made by another version of the tracer" % path)

    @property
    def rank(self):
        return self.head["rank"]

    @property
    def has_values(self):
        return self.head.get("values", True)

    def lines(self):
        """The objects of the file; a last line without its end is left out, and the trace counts as cut."""
        try:
            trace = open(self.path, encoding="ascii", errors="replace")
        except OSError as fault:
            raise TraceFault("%s: %s" % (self.path, fault.strerror)) from None
        with trace:
            for number, line in enumerate(trace, 1):
                if not line.endswith("\n"):
                    self.cut = True
                    return
                try:
                    found, end = SCAN(line, 0)
                except (StopIteration, ValueError):
                    end = 0
                if end != len(line) - 1:
                    raise TraceFault("%s: line %d is none of a trace" % (self.path, number))
                yield found

    def events(self):
        """Each call when it was answered, and at the end those that never were."""
        open_calls, lines = {}, self.lines()
        next(lines)
        for line in lines:
            number = line.get("n")
            if "call" in line:
                open_calls[number] = Event(intern(line["call"]), line)
            elif "code" in line:
                event = open_calls.pop(number)
                event.answer = line
                yield event
            elif "end" in line:
                self.ended = True
            elif number in open_calls:
                open_calls[number].given.update(line)
        yield from open_calls.values()

    def stored(self, pair, memory):
        """The values at a place of the file beside the trace; None where none were kept."""
        return Stored(self, pair[0], pair[1], intern(memory)) if pair and memory in CODES else None

    def values(self, at, count, code):
        if self.store is None:
            try:
                self.store = open(self.path + ".values", "rb")
            except OSError as fault:
                raise TraceFault("%s.values: %s" % (self.path, fault.strerror)) from None
        found = array(code)
        self.store.seek(at)
        found.frombytes(self.store.read(count * found.itemsize))
        if len(found) < count:
            raise TraceFault("%s.values ends before its values do" % self.path)
        if self.head.get("order", sys.byteorder) != sys.byteorder:
            found.byteswap()
        return found

    def close(self):
        if self.store is not None:
            self.store.close()
            self.store = None

    def copy(self, name):
        """The path of a copy of a dataset that the tracer made beside this trace."""
        return os.path.join(os.path.dirname(self.path), os.path.basename(path_of(name))) if name else None


def text_of(name):
    """The bytes of a name, which the trace gives as characters of the same numbers."""
    return name.encode("latin-1")


def path_of(name):
    """A path, which the trace gives in the same way."""
    return os.fsdecode(text_of(name))


def same_run(head, latest):
    """Whether a trace is of the same run as the latest one. Where the launcher names no runs, one of another size is another one."""
    if head.get("run") or latest.get("run"):
        return head.get("run") == latest.get("run")
    return head["ranks"] == latest["ranks"]


def read_heads(paths):
    """The traces of the latest run, by rank, and a remark for each that is of an earlier one."""
    traces = [Trace(path) for path in paths]
    latest = max(traces, key=lambda t: t.head.get("started", 0))
    own = [t for t in traces if same_run(t.head, latest.head)]
    remarks = ["%s is of an earlier run, and left out" % t.path for t in traces if t not in own]
    ranks = {t.head["ranks"] for t in own}
    if len(ranks) > 1:
        raise TraceFault("traces of one run have different numbers of ranks")
    by_rank = {}
    for trace in own:
        if by_rank.setdefault(trace.rank, trace) is not trace:
            raise TraceFault("%s and %s are both of rank %d" % (by_rank[trace.rank].path, trace.path, trace.rank))
    return [by_rank[r] for r in sorted(by_rank)], remarks
