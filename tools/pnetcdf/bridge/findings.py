"""What the proved run of a traced program's scripts says of the program, in lines for its user."""
import os
import re
import tempfile

from . import words
from .advice import never_written
from .answers import compare_call
from .files import FileFindings
from .merging import Merged, ranks_word
from .overlaps import Overlaps
from .regions import boxes_of, runs
from .running import Runs

MISMATCH = re.compile(r"ncrun: script line \d+: ranks (\d+) and (\d+) differ at collective call (\d+)")
TOO_LONG = re.compile(r"ncrun: script line \d+: limit of (script|lines|values)")
UNORDERED_RECORDS = 1 << 10     # of record variables so many records are looked at for puts and gets that nothing orders
# How files are alike that have the same values.
SAME = {"same", "zeros", "layout"}
SERIAL = ["hint overlap serial"]


class Diagnosis:
    """The findings on one opening, and remarks that are no findings; a script that ncrun refuses is cut, and run again."""

    def __init__(self, opening, program, path=None, seconds=120):
        self.merged, self.program, self.seconds = Merged(opening), program, seconds
        self.path = path or opening.path
        self.found, self.remarks = [], []
        self.checked, self.compared = 0, 0      # calls, and datasets: one after each part
        self.state = "none"             # how the files are alike at the end
        self.open = {}                  # elements that puts race for
        self.wrong_files = False        # a run of the scripts was cut, so that the files aren't comparable

    @property
    def has_values(self):
        return all(rank.trace.has_values for rank in self.merged.ranks)

    def tell(self, line):
        self.found.append(line)

    def remark(self, line):
        self.remarks.append(line)

    def word(self, rank, call):
        return "call %d of rank %d (%s)" % (call.number, rank, self.shown(call))

    def shown(self, call):
        line = call.before[0] if call.before and call.name not in ("fill",) else call
        return line.shown(self.merged.definitions)

    def make(self):
        merged, opening = self.merged, self.merged.opening
        if merged.fault:
            (self.remark if merged.refused else self.tell)("no script: " + merged.fault)
            return
        for note in merged.notes():
            self.tell("not told: " + note)
        for remark in merged.remarks():
            self.remark(remark)
        if opening.how == "open" and not (opening.copy and os.path.exists(opening.copy)):
            (self.tell if self.has_values else self.remark)("no run: there is no copy of the dataset as it was opened")
            return
        with tempfile.TemporaryDirectory() as folder:
            runs = Runs(self.program, folder, self.seconds)
            runs.begin(opening.copy if opening.how == "open" else None)
            self.run_parts(runs)

    def verdict(self):
        """What to say where nothing was found."""
        if self.merged.fault:
            return "refused by PnetCDF"
        told = "%d calls as in the proved run" % self.checked
        if not self.has_values:
            return told + "; values were not traced"
        return told + (", and the same values in the file" if self.state in SAME else "")

    def record(self):
        """The same for programs."""
        merged, opening = self.merged, self.merged.opening
        return {
            "path": opening.path, "how": opening.how, "ranks": len(opening.world), "calls": self.checked, "whole": self.is_whole,
            "cut": merged.notes() or ([merged.fault] if merged.fault and not merged.refused else []),
            "refused": merged.ranks[0].opened.code if merged.refused else None, "script": not merged.fault, "scripts": len(merged.parts),
            "skipped": sum(count for rank in merged.ranks for count in rank.skipped.values()), "remarks": self.remarks, "file": self.state,
            "compared": self.compared,
            "found": [{"kind": line.split(":", 1)[0], "text": line} for line in self.found],
        }

    @property
    def is_whole(self):
        """Whether every call that PnetCDF accepted stands in the scripts."""
        return not self.merged.fault and not self.merged.notes()

    # ---- the parts, one after another

    def run_parts(self, runs):
        self.tell_hung()
        self.leave_changed_open()
        for part in self.merged.parts:
            if not self.run_part(part, runs):
                return
            self.tell_part_file(part, runs.dataset)
        self.tell_pending()
        self.tell_changed()
        if self.open and self.merged.whole:
            for line in never_written(self.merged):
                self.remark(line)
        if self.merged.whole and not self.wrong_files and self.has_values:
            self.tell_file(runs.dataset)

    def run_part(self, part, runs):
        """Runs a part and tells what its answers say; false where the parts after it can't be run."""
        kept = runs.keep() if part.number else runs.begun
        done, uncut = runs.run(part), True
        mismatch = MISMATCH.match(done.text.first_line())
        if mismatch:
            uncut = False
            self.tell_mismatch(part, *map(int, mismatch.groups()))
            done = runs.run(part)
        if done.status != 0:
            self.tell_refused(part, done)
            return False
        overlaps = Overlaps(self.merged, part, done)
        if overlaps.found:
            self.tell_overlaps(overlaps)
            for var, places in overlaps.open.items():
                self.leave_open(var, places)
            runs.begin(kept)
            done = runs.run(part, SERIAL)
        self.tell_answers(part, done.text)
        self.wrong_files = self.wrong_files or not uncut
        return uncut

    def tell_refused(self, part, done):
        said = done.text.first_line()
        number = " (part %d)" % (part.number + 1) if part.number else ""
        if said.startswith("ncrun: header") and part.number == 0:
            self.tell("no run: the dataset that was opened is one that ncrun doesn't take: %s" % said[len("ncrun: "):])
        elif TOO_LONG.match(said):
            self.tell("no run%s: the script is longer than ncrun takes: 2^26 bytes, 2^20 lines or 2^24 values" % number)
        else:
            self.tell("no run%s: ncrun ended with status %d: %s" % (number, done.status, said))

    # ---- calls that the ranks don't make alike, and that never came back

    def tell_hung(self):
        merged = self.merged
        lost = [rank for rank in merged.ranks if merged.lost(rank)]
        for rank in (rank for rank in merged.ranks if rank not in lost):
            if rank.hung and lost:
                self.remark("%s was under way when the trace of %s ended" % (
                    self.word(rank.number, rank.hung), ranks_word([r.number for r in lost])))
            elif rank.hung:
                self.tell("hangs: %s never came back" % self.word(rank.number, rank.hung))
        if not any(rank.hung for rank in merged.ranks if rank not in lost):
            for rank in merged.ranks:
                if not rank.closed and not rank.stopped and rank not in lost:
                    self.tell("not closed: rank %d didn't close the dataset" % rank.number)

    def tell_mismatch(self, part, first, other, number):
        """Tells where two ranks part, and cuts the script there."""
        met = [part.meeting(rank, number) for rank in (first, other)]
        told = [self.made(part, rank, call) for rank, call in zip((first, other), met)]
        end = "PnetCDF waits there for ever" if None in met else "what PnetCDF does there is open"
        shown = number - sum(call.number < 0 for call in part.ranks[first].meetings[:number])
        self.tell("ranks differ: as collective call %d (counted from 0) %s, and %s; %s" % (shown, *told, end))
        part.cut(number)

    def made(self, part, rank, call):
        if call:
            return "rank %d makes %s" % (rank, "call %d, %s" % (call.number, self.shown(call)))
        end = part.ranks[rank].end
        ends = {"close": " and closes the dataset", "abort": " and aborts the dataset", "redef": " and redefines the dataset",
                "put_att": " and puts an attribute"}
        return "rank %d makes none%s" % (rank, ends.get(end, " any more"))

    # ---- what the proved run tells

    def tell_pending(self):
        for rank, call in self.merged.pending():
            self.tell("never waited for: the request of %s" % self.word(rank, call))

    def changed(self):
        """Posted puts whose memory was changed before their wait: the rank, the wait, and the put."""
        for rank in self.merged.ranks:
            for call in (c for phase in rank.phases for c in phase.calls):
                yield from ((rank.number, call, post) for post in call.changed)

    def tell_changed(self):
        for rank, call, post in self.changed():
            self.tell("memory: the values of %s were changed before call %d (%s) completed it; PnetCDF may write either" % (
                self.word(rank, post), call.number, self.shown(call)))

    def tell_range(self, rank, call):
        place, count, value = call.beyond
        kind, more = words.TYPES[call.put_lines()[0].kind], " (and %d more)" % (count - 1) if count > 1 else ""
        gives = "%d as its value %d%s, which" % (value, place, more) if value is not None else "as its value %d%s what" % (place, more)
        self.tell("out of range: %s gives %s no %s holds; PnetCDF writes the fill value there" % (self.word(rank, call), gives, kind))

    def tell_overlaps(self, overlaps):
        for race, line in overlaps.lines(self.word):
            (self.tell if race else self.remark)(line)

    def leave_changed_open(self):
        """The elements of a put whose memory was changed may hold either value."""
        for line in (line for _, _, post in self.changed() for line in post.put_lines()):
            shape = self.merged.definitions.shape(self.merged.definitions.vars[line.var])
            for place, run in (r for box in boxes_of(line.form, line.region, shape, 0) for r in runs(box, shape)):
                self.leave_open(line.var, range(place, place + run))

    def leave_open(self, var, places):
        """The value of these elements is open; None stands for all of the variable."""
        own = self.open.setdefault(var, set())
        if places is None:
            self.open[var] = None
        elif own is not None:
            own.update(places)

    # ---- what PnetCDF did otherwise

    def tell_answers(self, part, text):
        for rank, answers in zip(part.ranks, text.answers()):
            place = 0
            for call in rank.calls:
                count = 1 + len(call.before)
                self.tell_answer(part, rank.number, call, answers[place:place + count])
                place += count

    def tell_answer(self, part, rank, call, answers):
        if call.beyond:
            self.tell_range(rank, call)
        if call.number < 0 or call.stands_in:
            return
        self.checked += 1
        for kind, what, own, proved in compare_call(part, rank, call, answers, self.word):
            if kind == "range":
                self.tell("out of range: %s got a value that its type of memory doesn't hold" % what)
            elif kind == "code":
                self.tell("code: %s answered %s, and %s in the proved run" % (what, own, proved))
            else:
                self.tell("values: %s got %s, and %s in the proved run%s" % (what, own, proved, self.unordered(part, rank, call)))

    def unordered(self, part, rank, call):
        """What to say of a get that another rank's independent put may have come before or after."""
        if call.meets or call.var is None:
            return ""
        own = self.merged.coverage(call.var, UNORDERED_RECORDS)
        own.add(call)
        puts = ((other.number, c) for other in part.ranks if other.number != rank for c in other.calls)
        number, put = next(((n, c) for n, c in puts if c.puts and not c.meets and c.var == call.var and own.meets(c)), (None, None))
        if put is None:
            return ""
        if put.barriers == call.barriers:
            return "; nothing orders it and " + self.word(number, put)
        return "; a barrier alone stands between it and %s, and MPI promises no order there without ncmpi_sync" % self.word(number, put)

    # ---- the dataset

    def program_file(self):
        """The dataset as the program left it: as it stands, or as it was when it was opened, created or deleted next."""
        after = self.merged.opening.after
        path = self.path if after is None else after.copy
        return path if path and os.path.exists(path) else None

    def tell_file(self, proved):
        own = self.program_file()
        if own is None:
            after = self.merged.opening.after
            why = "" if after is None else ", and no copy was kept when it was %s" % (
                {"create": "created anew", "open": "opened again", "delete": "deleted"}[after.how])
            self.remark("the file isn't compared: it isn't there as the program left it%s" % why)
            self.state = "gone"
            return
        self.state = self.compare(own, proved)

    def tell_part_file(self, part, proved):
        """Compares what stood in the file when the program went on to define more; names are those of the end, so not where any was changed."""
        own = self.merged.kept(part.number)
        if own and self.has_values and not self.merged.definitions.renamed:
            self.compare(own, proved, part.number)

    def compare(self, own, proved, part=None):
        """Compares the program's dataset with the proved one, and tells where they differ; the answer is how they are alike."""
        compared = FileFindings(self.merged, self.open, part)
        compared.compare(own, proved, self.path)
        self.found += compared.found
        self.remarks += compared.remarks
        self.compared += 1
        return compared.state
