"""The dataset that a program left, or had before it defined more, beside the proved one: where they differ, in lines."""
from . import classic, comparing
from .definitions import BEFORE

SHOWN = 5       # how many elements of a variable are told one by one


def index_word(index):
    return "[%s]" % ",".join(map(str, index)) if index else ""


class FileFindings:
    """What is found of two datasets after a part of the run, the last one where none is named. `raced` has the elements whose value is open,
    by variable: their places, or None for all. Attributes are compared at the end alone, since the scripts give their last values."""

    def __init__(self, merged, raced, part=None):
        self.merged, self.raced, self.part = merged, raced, part
        self.found, self.remarks, self.state = [], [], "differs"
        self.when = "" if part is None else "before redefinition %d: " % (part + 1)

    def tell(self, line):
        self.found.append("the file: " + self.when + line)

    def compare(self, own, proved, name):
        """Compares the program's dataset, which lies at `own` and has that name, with the proved one."""
        try:
            compared = comparing.compare(own, proved, self.part is None)
        except classic.HeaderFault as fault:
            self.tell("%s %s" % (name, fault))
            return
        self.state = compared.state
        for line in compared.headers:
            self.tell(line)
        told = {self.tell_variable(variable) for variable in compared.variables}
        if told and not compared.headers and "differs" not in told:
            self.state = "overlap" if "overlap" in told else "layout"

    def number(self, variable):
        return next(n for n, v in enumerate(self.merged.definitions.vars) if comparing.shown(v.name) == variable.name)

    def coverage_of_puts(self, number, differences):
        """The elements of a variable that puts hold so far, as far as those that differ go."""
        coverage = self.merged.coverage(number, 1 + max((d.index[0] for d in differences if d.index), default=0))
        phases = (p for rank in self.merged.ranks for p in rank.phases[:None if self.part is None else self.part + 1])
        for line in (line for phase in phases for c in phase.calls for line in c.lines()):
            if line.var == number and (line.puts or line.word == "fill_var_rec"):
                coverage.add(line)
        return coverage

    def tell_variable(self, variable):
        """Tells which elements of a variable differ but those that puts race for, and what that says of the file."""
        number = self.number(variable)
        raced = self.raced.get(number, ())
        kept = [] if raced is None else [d for d in variable.kept if d.place not in raced]
        if not kept:
            return "overlap"
        coverage = self.coverage_of_puts(number, kept)
        put = [d for d in kept if coverage.holds(d.place) is not False]
        more = len(put) - SHOWN + variable.count - len(variable.kept)
        for difference in put[:SHOWN]:
            self.tell("%s%s is %s, and %s in the proved file" % (
                variable.name, index_word(difference.index), difference.first, difference.second))
        if more > 0:
            self.tell("%d more elements of %s differ" % (more, variable.name))
        left = [d for d in kept if coverage.holds(d.place) is False]
        return "differs" if self.tell_left(variable, left, self.merged.definitions.vars[number]) or put or more > 0 else "layout"

    def tell_left(self, variable, left, var):
        """Elements that no call put stay as they were where they were there or are filled; others may hold anything. Whether it is a finding."""
        kept = var.part == BEFORE or var.filled and not self.merged.definitions.is_record(var)
        if left:
            line = "%d elements of %s that no call put aren't %s, the first %s%s" % (
                len(left), variable.name, "as they were" if kept else "zeros", variable.name, index_word(left[0].index))
            self.tell(line) if kept else self.remarks.append("the file: " + self.when + line)
        return bool(left) and kept
