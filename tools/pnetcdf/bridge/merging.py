"""The scripts of a dataset: one for each part of a run between two phases of definitions."""
import os

from . import classic, words
from .asked import MOST_ELEMENTS
from .calls import Call, Item, Line, Repeated, as_posts
from .definitions import NoWord
from .regions import Coverage, pieces, records_of

MOST_RANKS = 64
FILL_IDS = 3 << 30      # ids of posts that fill a variable
MOST_FILLED = 1 << 10   # records that are filled one by one


class PartRank:
    """A rank's calls in one part."""

    def __init__(self, merger, calls, end):
        self.merger, self.number, self.calls, self.end = merger, merger.number, calls, end
        self.meetings, self.by_id = [], None

    def count_meetings(self):
        self.meetings, self.by_id = [call for call in self.calls if call.meets], None
        for number, call in enumerate(self.meetings):
            call.meeting = number

    def posts(self):
        """The call and the line by which each request was posted, by its id in the script."""
        if self.by_id is None:
            self.by_id = {line.id: (call, line) for call in self.calls for line in call.lines() if line.id is not None}
        return self.by_id


class Part:
    """A script with the calls of all ranks, and what PnetCDF answered."""

    def __init__(self, merged, number, ranks):
        self.merged, self.number, self.ranks = merged, number, ranks
        self.definitions = merged.definitions
        self.head = self.definitions.script_lines(number, len(ranks))
        self.begin()
        self.count_meetings()
        self.agree_on_posts()
        self.count_meetings()

    def count_meetings(self):
        for rank in self.ranks:
            rank.count_meetings()

    # ---- what stands before the first call of the program

    def begin(self):
        filled, records = self.fill_lines(), self.record_fills()
        for rank in self.ranks:
            phase = rank.merger.phases[self.number]
            begun = [Call("fill_var_rec", var=var, region=str(record), number=-1, name="fill_var_rec") for var, record in records]
            if filled:
                own = filled if rank.number == 0 else ()
                ids = [line.id for line in own]
                begun.append(Call(" ".join(["wait_all"] + list(map(str, ids))), number=-1, name="fill", before=own, requests=ids,
                                  items=[Item(number) for number in ids]))
            if phase.attached is not None:
                begun.append(Call("buffer_attach %d" % phase.attached, number=-1, name="buffer_attach"))
            if phase.independent:
                begun.append(Call("begin_indep_data", number=-1, name="begin_indep_data"))
            rank.calls[:0] = begun

    def record_fills(self):
        """New record variables that are to be filled, each with every record that there is."""
        added = self.definitions.parts[self.number].record_fills
        records = self.merged.records_before(self.number) if added else 0
        if records > MOST_FILLED:
            raise NoWord("filling %d records of new variables" % records)
        return [(number, record) for number in added for record in range(records)]

    def fill_lines(self):
        """Posts that fill the new variables, where `fill` doesn't say it."""
        defined, lines = self.definitions, []
        if self.number == 0 and defined.filled_at_once():
            return ()
        for number in defined.parts[self.number].fills:
            var = defined.vars[number]
            for offset, count in pieces(defined.shape(var), MOST_ELEMENTS):
                region = " ".join(map(words.list_word, (offset, count)))
                values = Repeated(max(1, product(count)), defined.fill_value(number))
                lines.append(Line("iput_vara", FILL_IDS + len(lines), number, region, values, var.kind))
        return tuple(lines)

    # ---- meetings

    def agree_on_posts(self):
        """Where a rank's part of a collective call is several posts, the other ranks' are posts too."""
        for number in range(min(len(rank.meetings) for rank in self.ranks)):
            met = [rank.meetings[number] for rank in self.ranks]
            posted = next((call for call in met if call.before and call.number >= 0), None)
            if posted is None:
                continue
            for rank, call in zip(self.ranks, met):
                if not call.before and call.var is not None and call.name == posted.name:
                    as_posts(call, rank.merger.next_own)
                    rank.merger.next_own += 1

    def cut(self, meetings):
        """Ends each rank before its meeting of that number."""
        for rank in self.ranks:
            if len(rank.meetings) > meetings:
                place = next(k for k, call in enumerate(rank.calls) if call is rank.meetings[meetings])
                del rank.calls[place:]
        self.count_meetings()

    def meeting(self, rank, number):
        """A rank's meeting of that number, None where it has fewer."""
        own = self.ranks[rank].meetings
        return own[number] if number < len(own) else None

    def post(self, rank, number):
        """The call by which a rank posted the request of that id, None where it posted none."""
        return self.ranks[rank].posts().get(number, (None, None))[0]

    # ---- texts

    def write_script(self, out, extra=(), hints=None, zeros=False):
        """The script, with more hints or with others, and with zeros in place of values where they play no part."""
        out.write("# %s of a traced program\n" % self.merged.opening.shown)
        if len(self.merged.parts) > 1:
            out.write("# part %d of %d\n" % (self.number + 1, len(self.merged.parts)))
        for note in self.merged.notes() + self.merged.remarks():
            out.write("# %s\n" % note.replace("\n", " "))
        own = [line for line in self.head if line.split(" ")[1:2] not in [[name] for name in hints or {}]]
        for line in own + ["hint %s %s" % pair for pair in (hints or {}).items()] + list(extra) + ["data"]:
            out.write(line + "\n")
        for rank in self.ranks:
            for call in rank.calls:
                for line in call.lines():
                    out.write("%d %s\n" % (rank.number, line.text(self.definitions, zeros)))
        out.write("end\n")

    def pending(self, rank):
        """How many posts of a rank nothing in the script completes."""
        posted = {line.id for call in rank.calls for line in call.lines() if line.id is not None and call.code != "null"}
        return len(posted.difference(*(call.requests for call in rank.calls))) - sum(
            call.code not in ("ok", "null") for call in rank.calls if call.id is not None)

    def write_codes(self, out):
        out.write("ranks %d\n" % len(self.ranks))
        for rank in self.ranks:
            out.write("rank %d\n" % rank.number)
            place = 0
            for call in rank.calls:
                for line in call.answers():
                    out.write(line + "\n" if line.startswith("  ") else "%d %s\n" % (place, line))
                    place += not line.startswith("  ")
            out.write("pending %d\n" % self.pending(rank))


def product(sizes):
    result = 1
    for size in sizes:
        result *= size
    return result


class Merged:
    """The parts of an opening. Where there is no script, `fault` says why."""

    def __init__(self, opening):
        self.opening, self.fault, self.parts, self.ranks = opening, None, [], []
        self.definitions = None
        self.refused = False        # PnetCDF refused to create or open it
        try:
            self.fill(opening)
        except NoWord as fault:
            self.fault = "a script has no word for %s" % fault

    def fill(self, opening):
        missing = [r for r, merger in enumerate(opening.ranks) if merger is None]
        if missing:
            self.fault = "the trace of rank %d is missing" % opening.world[missing[0]]
            return
        self.ranks = opening.ranks
        first = self.ranks[0].opened
        if not first.ok:
            self.fault, self.refused = "%s answered %s" % (first.call, first.code), first.answer is not None
            return
        refused = [rank.number for rank in self.ranks if rank.opened.refused]
        if refused:
            raise NoWord("a dataset that PnetCDF refuses to some ranks: %s had %s" % (ranks_word(refused), self.ranks[refused[0]].opened.code))
        if len(self.ranks) > MOST_RANKS:
            raise NoWord("more than %d ranks" % MOST_RANKS)
        self.definitions = self.ranks[0].definitions
        self.compare_definitions()
        self.drop_what_is_there()
        counts = [len(rank.phases) for rank in self.ranks if not (rank.stopped or rank.hung or self.lost(rank))]
        if len(set(counts)) > 1:
            raise NoWord("definitions that ranks begin at different places")
        count = min(len(rank.phases) for rank in self.ranks)
        for number in range(count):
            own = [PartRank(rank, rank.phases[number].calls, rank.phases[number].end) for rank in self.ranks]
            try:
                self.parts.append(Part(self, number, own))
            except NoWord as fault:
                if number == 0:
                    raise
                self.definitions.left_out.append("after redefinition %d: a script has no word for %s" % (number, fault))
                break
        self.cut_where_stopped()

    def compare_definitions(self):
        """All ranks define alike, or the script would be that of rank 0 alone."""
        first = self.ranks[0]
        for rank in self.ranks[1:]:
            whole = len(rank.phases) == len(first.phases) and rank.defining == first.defining and not (rank.hung or first.hung)
            if whole and not rank.definitions.same_as(first.definitions):
                raise NoWord("definitions in which ranks differ: ranks 0 and %d in %s" % (
                    rank.number, first.definitions.first_difference(rank.definitions)))
            if whole:
                rank.definitions = first.definitions

    def drop_what_is_there(self):
        """Attributes that an opened dataset has already can't be added; where the value is another one that is told."""
        if self.opening.how == "create" or not self.opening.copy:
            return
        try:
            with open(self.opening.copy, "rb") as file:
                header = classic.read_header(file)
        except (OSError, classic.HeaderFault):
            return
        there = {(number, name): own for number, var in enumerate(header.vars) for name, own in var.attributes.items()}
        there.update({(-1, name): own for name, own in header.attributes.items()})
        for key in set(there) & set(self.definitions.attributes):
            own = self.definitions.attributes.pop(key)
            if (own.kind, classic.attribute_bytes(own.kind, own.values)) != there[key]:
                self.definitions.left_out.append("the attribute %s is changed, and a script only adds" % self.definitions.shown(key))

    def cut_where_stopped(self):
        """Ends every rank before the first meeting that a rank which stops, or whose trace breaks off, doesn't come to."""
        ends = [(len(r.phases) - 1, r) for r in self.ranks if r.stopped or self.lost(r)]
        if not ends:
            return
        last = min(min(part for part, _ in ends), len(self.parts) - 1)
        del self.parts[last + 1:]
        self.parts[last].cut(min(len(self.parts[last].ranks[r.number].meetings) for part, r in ends if part == last))

    def records_before(self, number):
        """How many records the dataset has when a part begins."""
        records = self.definitions.records
        calls = (c for part in self.parts[:number] for rank in part.ranks for c in rank.calls if c.code == "ok")
        for line in (line for call in calls for line in call.lines()):
            if line.puts:
                records = max(records, records_of(line.form, line.region, self.definitions.shape(self.definitions.vars[line.var])))
            elif line.word == "fill_var_rec":
                records = max(records, int(line.region) + 1)
        return records

    def kept(self, number):
        """The copy of the dataset as it was when all ranks had come to the end of a part, None where there is none."""
        path = self.ranks[0].phases[number].kept
        whole = all(len(rank.phases) > number + 1 for rank in self.ranks)
        return path if whole and path and os.path.exists(path) else None

    def coverage(self, number, records):
        """A mark for each element of a variable that has that many records."""
        return Coverage(self.definitions.shape(self.definitions.vars[number]), records)

    @staticmethod
    def lost(rank):
        """Whether a rank's trace breaks off: it was killed, it crashed, or nothing more could be written."""
        return not rank.closed and not rank.stopped and (rank.trace.cut or not rank.hung and not rank.trace.ended)

    @staticmethod
    def break_off(rank):
        """Where a rank's trace breaks off, and what may be behind it."""
        calls = rank.phases[-1].calls
        last = "call %d, %s" % (calls[-1].number, calls[-1].shown(rank.definitions)) if calls else "its definitions"
        if rank.trace.cut:
            return "its trace breaks off amid a line after %s: the disk was full, or the rank was killed" % last
        return "its trace ends after %s: the rank was killed, or it crashed outside of PnetCDF" % last

    @property
    def whole(self):
        return not any(r.stopped or r.hung or not r.closed for r in self.ranks) and not (self.definitions and self.definitions.left_out)

    def notes(self):
        """What of the program the scripts leave out, each cause once."""
        causes = {}
        for rank in self.ranks:
            if rank.stopped:
                causes.setdefault(rank.stopped, []).append(rank.number)
        told = ["%s: call %d, %s: a script has no word for %s; the script ends before it" % (ranks_word(ranks), *cause)
                for cause, ranks in causes.items()]
        told += ["rank %d: %s" % (rank.number, self.break_off(rank)) for rank in self.ranks if self.lost(rank)]
        return told + (self.definitions.left_out if self.definitions else [])

    def remarks(self):
        """What stands in the scripts in another form, and calls that PnetCDF refused."""
        refused = {}
        for rank in self.ranks:
            for (call, code), count in rank.skipped.items():
                refused.setdefault((call, code, count), []).append(rank.number)
        alike = {}
        for (call, code, count), ranks in refused.items():
            alike.setdefault((ranks_word(ranks), code), []).append(call + (" is left out" if count == 1 else " is left out %d times" % count))
        told = ["%s: %s, which PnetCDF refused with %s" % (ranks, refused_word(calls), code) for (ranks, code), calls in alike.items()]
        return told + (self.definitions.remarks if self.definitions else [])

    def pending(self):
        """The posts that nothing completes, where the trace is whole."""
        return [(rank.number, post.call) for rank in self.ranks for post in rank.posts.values()] if self.whole else []


def refused_word(calls):
    """Calls that are left out, the first one by its name."""
    return calls[0] if len(calls) == 1 else "%s, and %d others" % (calls[0], len(calls) - 1)


def ranks_word(ranks):
    """Numbers of ranks in words: `rank 2`, `ranks 0 to 3`, `ranks 0, 2 and 5`."""
    if len(ranks) == 1:
        return "rank %d" % ranks[0]
    if ranks == list(range(ranks[0], ranks[-1] + 1)) and len(ranks) > 2:
        return "ranks %d to %d" % (ranks[0], ranks[-1])
    return "ranks %s and %d" % (", ".join(map(str, ranks[:-1])), ranks[-1])
