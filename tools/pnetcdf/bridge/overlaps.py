"""Puts of one step that hold the same elements: which they are, how much they share, and whether their values differ."""
import re
from itertools import product

from .classic import read_header
from .regions import boxes_of, lists_of, runs

PAIR = re.compile(r"overlap (\d+) (\d+) (\d+) (\d+) (\d+)")
MOST_ELEMENTS = 1 << 24     # how many elements of one step are looked at one by one


class Step:
    """A step in which puts overlap: the call of one rank to which the run told it, and the numbers that it told."""

    def __init__(self, part, rank, call, numbers):
        self.part, self.rank, self.call = part, rank, call
        self.first, self.first_id, self.second, self.second_id, self.byte = numbers

    def met(self):
        """The calls of the step, with their ranks."""
        if not self.call.meets:
            return [(self.rank, self.call)]
        met = [(r.number, self.part.meeting(r.number, self.call.meeting)) for r in self.part.ranks]
        return [(rank, call) for rank, call in met if call is not None]

    def puts(self):
        """The lines of the puts that the step does, with rank and call, in the order of ranks and posts."""
        for rank, call in self.met():
            if call.puts and call.id is None:
                yield rank, call, call
            posts = self.part.ranks[rank].posts() if call.requests else {}
            for number in sorted(set(call.requests) & set(posts)):
                post, line = posts[number]
                if line.puts:
                    yield rank, post, line

    def putter(self, rank, number):
        for own, call, line in self.puts():
            if own == rank and (line.id is None or line.id == number):
                return call
        return self.call


class Overlaps:
    """The steps of a part in which puts overlap. `open` has the elements whose value is open by that, by variable: their places, or
    None for all."""

    def __init__(self, merged, part, done):
        self.definitions, self.part, self.open = merged.definitions, part, {}
        self.found = list(self.steps(part, done.text)) if done.text.tells("overlap") else []
        if self.found:
            with open(done.dataset, "rb") as file:
                self.header = read_header(file)

    @staticmethod
    def steps(part, text):
        told = set()
        for rank, answers in zip(part.ranks, text.answers()):
            lines = ((call, line) for call in rank.calls for line in call.lines())
            for answer, (call, _) in zip(answers, lines):
                said = "overlap " + answer.rest if answer.code == "overlap" else answer.rest
                pair = PAIR.fullmatch(said) if "overlap" in said else None
                key = call.meeting if call.meets else (rank.number, call.number)
                if pair and key not in told:
                    told.add(key)
                    yield Step(part, rank.number, call, map(int, pair.groups()))

    def lines(self, word):
        """For each step whether values differ, so that it is a race, and the line that tells it."""
        for step in self.found:
            place = self.header.find(step.byte)
            where = "byte %d" % step.byte
            if place:
                where = place[0].name.decode("utf-8", "replace") + ("[%s]" % ",".join(map(str, place[1])) if place[1] else "")
            first, second = step.putter(step.first, step.first_id), step.putter(step.second, step.second_id)
            shared, differing = self.share(step)
            race = shared is None or differing > 0
            line = "%s: %s and %s both put to %s" % (
                "overlap" if race else "overlap of equal values", word(step.first, first), word(step.second, second), where)
            if shared is not None and (shared > 1 or race and differing < shared):
                line += "; %d elements are put more than once in this step" % shared
                line += ", %d of them with different values" % differing if race and differing < shared else ""
            yield race, line

    def share(self, step):
        """How many elements the step's puts share, and to how many of these different values are put; None where they are too many,
        or values weren't traced."""
        if not all(rank.merger.trace.has_values for rank in self.part.ranks):
            return self.all_open(step)
        held, shared, differing = {}, set(), set()
        for count, (key, value) in enumerate(self.elements(step)):
            if count == MOST_ELEMENTS:
                return self.all_open(step)
            if key in held:
                shared.add(key)
                if held[key] != value:
                    differing.add(key)
            held[key] = value
        for var, place in differing:
            if self.open.setdefault(var, set()) is not None:
                self.open[var].add(place)
        return len(shared), len(differing)

    def all_open(self, step):
        self.open.update({line.var: None for _, _, line in step.puts()})
        return None, None

    def elements(self, step):
        """Every element that is put in a step, by variable and place, with its value."""
        for _, call, line in step.puts():
            if call.code == "ok" and line.values is not None:
                shape = self.definitions.shape(self.definitions.vars[line.var])
                places = (place + k for box in boxes_of(line.form, line.region, shape, self.header.records)
                          for place, run in runs(box, shape) for k in range(run))
                yield from zip(((line.var, place) for place in places), in_order(line))


def in_order(line):
    """The values of a put in the row-major order of its elements."""
    values = line.values.load()
    if line.form != "varm":
        return values
    _, count, _, imap = lists_of(line.region)
    return (values[sum(i * step for i, step in zip(index, imap))] for index in product(*map(range, count)))
