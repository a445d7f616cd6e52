"""The calls of one rank on one dataset, turned into words as they come."""
from array import array
from dataclasses import dataclass, field
from itertools import accumulate

from . import asked, words
from .calls import Call, Filled, Item, Line, Repeated, kind_of, word_of
from .definitions import DEFINES, Definitions, NoWord
from .traces import CODES, Stored

PLAIN = {"begin_indep_data", "end_indep_data", "sync_numrecs", "buffer_detach"}
NO_CALLS = {"inq_dimname", "flush"}
# What may stand before definitions in one script with them.
EARLY = {"inq_dimlen", "buffer_attach"}
ENDS = {"close", "abort"}
# Answers of a collective call that PnetCDF gives before it meets the other ranks.
ALONE = {"NC_EPERM", "NC_EINDEFINE", "NC_EBADID", "NC_EINDEP", "NC_ENOTINDEP"}
# Answers that a run has a cause for, too; a call that was refused for another one is left out.
CAUSES = {"NC_ENOTINDEP", "NC_EINDEP", "NC_ENOTVAR", "NC_EINVALCOORDS", "NC_ESTRIDE", "NC_EEDGE", "NC_ECHAR", "NC_EBADTYPE", "NC_ERANGE",
          "NC_ENULLABUF", "NC_EINSUFFBUF", "NC_EPENDINGBPUT", "NC_EPREVATTACHBUF", "NC_ENULLBUF", "NC_EINVAL_REQUEST", "NC_EBADDIM",
          "NC_ENOTRECVAR"}
# The answers of a wait that completed nothing.
UNDONE = {"NC_EINDEP", "NC_ENOTINDEP", "NC_EINVAL_REQUEST", "-"}
ALL, ALL_GETS, ALL_PUTS, NULL = -1, -2, -3, -1
NO_ID = (1 << 32) - 1
OWN_IDS = 1 << 31       # ids of posts that stand for a part of a call


@dataclass
class Phase:
    """The calls of a rank between two phases of definitions, and what ended it."""
    calls: list = field(default_factory=list)
    attached: int = None        # the buffer that was attached before it
    independent: bool = False   # it begins in independent mode
    end: str = None
    kept: str = None            # a copy of the dataset as it was at the end


@dataclass(slots=True)
class Post:
    """A pending request: its call, and the ids that it has in the script with the part of its values."""
    call: object
    verb: str
    kind: int
    memory: str
    parts: list


class RankMerger:
    """Takes the events of one rank on one dataset."""

    def __init__(self, opened, trace, number):
        self.opened, self.trace, self.number = opened, trace, number
        self.definitions = Definitions(opened)
        self.phases, self.defining = [Phase()], opened.call == "create"
        self.stopped = self.hung = None
        self.closed = False
        self.posts = {}             # pending requests by PnetCDF's numbers, in order of posting
        self.next, self.next_own = 0, OWN_IDS
        self.attached, self.independent, self.barriers, self.count = None, False, 0, 0
        # In safe mode a collective call that one rank does wrongly is refused on all ranks, and nothing of it is done.
        self.safe = bool((opened.answer or {}).get("safe_mode"))
        self.skipped = {}           # calls that PnetCDF refused and that have no word: how often, by call and code

    # ---- events

    def take(self, event):
        if self.stopped or self.closed or self.hung:
            return
        if event.call in ENDS:
            self.closed, self.phases[-1].end = True, event.call
            self.end_definitions(None)
            return
        before = len(self.phases[-1].calls)
        try:
            self.tell(event)
        except NoWord as fault:
            del self.phases[-1].calls[before:]
            self.skip_or_stop(event, fault)
        if event.answer is None and not self.stopped:
            calls = self.phases[-1].calls
            self.hung = calls[-1] if len(calls) > before else Call(event.call, number=self.count, name=event.call, code="-")

    def barrier(self, over, world):
        if set(world) <= set(over):
            self.barriers += 1

    def skip_or_stop(self, event, fault):
        if not event.refused:
            self.stopped = self.count, event.call, str(fault)
            return
        self.skip(event)
        kind, told = kind_of(event.call)
        if kind != "other" and told[-1] and event.code not in ALONE:
            self.add(event, self.nothing(event.given, told[0]) if kind != "members" else Line("wait_all"), stands_in=True)

    def skip(self, event):
        key = event.call, event.code
        self.skipped[key] = self.skipped.get(key, 0) + 1

    def nothing(self, given, verb):
        """By this line a refused collective call takes part with nothing."""
        dims, number = given.get("dims", 0), given["var"]
        region = " ".join([words.list_word([0] * dims)] * 2)
        return Line(verb + "_vara_all", None, number if dims else -1, region, Repeated(0, 0), self.kind(number) if dims else None)

    def add(self, event, line, **more):
        call = Call(line.verb, line.id, line.var, line.region, line.values, line.kind, self.count, event.call, event.code,
                    barriers=self.barriers, took=event.answer.get("took") if event.answer else None, **more)
        self.count += 1
        self.phases[-1].calls.append(call)
        return call

    def tell(self, event):
        call = event.call
        kind, told = kind_of(call)
        if call in NO_CALLS:
            return
        if call in DEFINES or call in ("redef", "enddef"):
            self.define(event)
        elif event.refused and (event.code not in CAUSES or self.safe and kind != "other" and told[-1]):
            raise NoWord("a call that PnetCDF refused")
        elif kind == "other":
            self.plain(event)
        else:
            getattr(self, kind)(event, *told)

    def plain(self, event):
        call, given = event.call, event.given
        if call in PLAIN or call == "sync":
            self.add(event, Line("sync_numrecs" if call == "sync" else call))
            if event.ok and call.endswith("_indep_data"):
                self.independent = call.startswith("begin")
            if event.ok and call == "buffer_detach":
                self.attached = None
        elif call == "buffer_attach":
            self.add(event, Line("buffer_attach %d" % asked.size(given["size"])))
            self.attached = given["size"] if event.ok else self.attached
        elif call in ("wait", "wait_all", "cancel"):
            self.wait(event)
        elif call == "inq_dimlen":
            self.dim_length(event)
        elif call == "fill_var_rec":
            line = Line("fill_var_rec", None, given["var"], str(asked.size(given["record"])), None, None)
            self.add(event, line)
        else:
            raise NoWord("this call")

    # ---- definitions

    def define(self, event):
        if event.call == "redef":
            if event.refused:
                self.skip(event)
            else:
                self.new_phase("redef", self.trace.copy((event.answer or {}).get("before")))
                self.defining, self.independent = True, False
        elif event.call == "enddef":
            self.end_definitions(event)
        elif event.refused and not (event.call == "put_att" and event.code == "NC_ERANGE"):
            self.skip(event)
        else:
            if not self.defining:
                self.define_amid(event)
            self.definitions.take(event)

    def define_amid(self, event):
        """A definition outside of the phases of definitions: a new attribute begins a part, a changed one has its last value."""
        known = (event.given.get("var"), event.given.get("attribute", "").encode("latin-1")) in self.definitions.attributes
        if event.call == "put_att" and not known:
            independent = self.independent
            self.new_phase("put_att")
            self.phases[-1].independent = independent

    def end_definitions(self, event):
        if not self.defining:
            if event is not None:
                self.skip(event)
        elif event is None or not event.refused:
            self.definitions.end(event.answer if event else None)
            self.defining = False
        else:
            self.skip(event)

    def new_phase(self, why, kept=None):
        """The calls from here on are of a script of their own; what is posted and not waited for is posted there."""
        old = self.phases[-1]
        carried = {id(p.call) for p in self.posts.values()}
        if why == "redef" and all(c.name in EARLY or id(c) in carried for c in old.calls):
            return
        old.end, old.kept = why, kept
        moved = [c for c in old.calls if id(c) in carried]
        old.calls = [c for c in old.calls if id(c) not in carried]
        self.phases.append(Phase(moved, self.attached))
        self.definitions.redefine()

    # ---- values

    def kind(self, number):
        known = 0 <= number < len(self.definitions.vars)
        return self.definitions.vars[number].kind if known else None

    def shape(self, number):
        return self.definitions.shape(self.definitions.vars[number])

    def own_values(self, stored, given, kind):
        """Values of memory in the type of the variable; None where text meets numbers, which PnetCDF refuses."""
        memory = given.get("memory")
        if memory == "other" and given.get("elements", 0) > 0:
            raise NoWord("an MPI type in memory that isn't made of one basic type")
        if (memory == "text") != (kind == words.CHAR):
            return None
        if stored is None:
            return Repeated(0 if self.trace.has_values else asked.reached(given), 0)
        return self.signed(stored, kind)

    def put_values(self, event, given, kind):
        """The values of a put as PnetCDF writes them; the type's fill value stands for those that it doesn't hold."""
        values = self.own_values(self.trace.stored(given.get("stored"), given.get("memory")), given, kind)
        if event.code == "NC_ERANGE" and isinstance(values, Stored) and kind in words.FORMATS and "converted" not in given:
            return Filled(values, kind, self.definitions.fill_value(given["var"]))
        return values

    def signed(self, stored, kind):
        """Unsigned chars of a byte variable are its negative numbers in CDF-1 and CDF-2."""
        if stored is not None and stored.memory == "uchar" and kind == words.BYTE and self.definitions.version != 5:
            return Stored(stored.trace, stored.at, stored.count, "schar")
        return stored

    # ---- puts, gets and posts

    def access(self, event, verb, form, everyone):
        given, number = event.given, event.given["var"]
        kind = self.kind(number)
        puts = verb not in ("get", "iget")
        values = None
        if kind is not None and puts:
            values = self.put_values(event, given, kind)
        split = None if kind is None or asked.in_one_line(given, form) else asked.split(given, form, self.shape(number))
        if split:
            self.parted(event, (verb, everyone), number, values, split)
        else:
            self.single(event, (verb, form, everyone), number, kind, values)

    def single(self, event, told, number, kind, values):
        verb, form, everyone = told
        given, post = event.given, self.next if told[0] in ("iput", "iget", "bput") else None
        line = Line(word_of(verb, form, everyone), post, number, asked.region(given, form), values, kind)
        call = self.add(event, line, beyond=self.beyond(given, values))
        if verb == "get" and kind is not None and event.answer:
            call.got = self.signed(self.trace.stored(event.answer.get("stored"), given.get("memory")), kind)
        if post is not None:
            self.next += 1
            self.posted(event, call, verb, [(post, 0, None)])

    @staticmethod
    def beyond(given, values):
        if isinstance(values, Filled):
            return values.beyond()
        return (given["beyond"][0], given.get("beyond_count", len(given["beyond"])), None) if given.get("beyond") else None

    def posted(self, event, call, verb, parts):
        """An accepted post takes its ids; the code of a request without an element is `null`."""
        request = (event.answer or {}).get("request")
        if request == NULL:
            call.code = "null" if call.code == "ok" else call.code
        elif request is not None and (call.code == "ok" or call.beyond):
            self.posts[request] = Post(call, verb, call.kind, event.given.get("memory"), parts)

    # ---- calls that one line has no room for

    def parted(self, event, told, number, values, split):
        """A call as several posts: a blocking one waits for them at once."""
        verb, everyone = told
        given, kind, post = event.given, self.kind(number), verb in ("iput", "iget", "bput")
        parts = [(self.next_own + k, first, length) for k, (_, _, first, length) in enumerate(split)]
        self.next_own += len(split)
        lines = [Line("%s_%s" % (verb if post else "i" + verb, form), own, number, region,
                      values.part(first, length) if values is not None else None, kind)
                 for (own, _, _), (form, region, first, length) in zip(parts, split)]
        if post:
            call = self.add(event, lines[-1], before=tuple(lines[:-1]), beyond=self.beyond(given, values))
            self.posted(event, call, verb, parts)
            return
        got = self.trace.stored((event.answer or {}).get("stored"), given.get("memory"))
        items = [Item(own, "ok", self.part_of(got, first, length, kind), kind) for own, first, length in parts]
        self.waited(event, everyone, lines, items, self.beyond(given, values))

    def part_of(self, stored, first, length, kind):
        return self.signed(stored.part(first, length), kind) if stored is not None else None

    def waited(self, event, everyone, lines, items, beyond=None):
        ids = [line.id for line in lines]
        line = Line(" ".join(["wait" + (everyone or "")] + list(map(str, ids))))
        self.add(event, line, before=tuple(lines), items=items if event.code in ("ok", "NC_ERANGE") else [], requests=ids,
                 beyond=beyond)

    def members(self, event, verb, form, everyone):
        """Many puts or gets in one call: PnetCDF posts them and waits for them."""
        members = event.given.get("members", [])
        self.posted_members(event, (verb, form, everyone), members, (event.answer or {}).get("members") or [None] * len(members))

    def posted_members(self, event, told, members, answers):
        verb, form, everyone = told
        lines, items = [], []
        for member, answer in zip(members, answers):
            kind, number = self.kind(member["var"]), member["var"]
            got = self.trace.stored(answer, member.get("memory"))
            values = None
            if verb == "put" and kind is not None:
                values = self.put_values(event, member, kind)
            if member.get("elements", 0) == 0 and kind is not None:
                continue
            whole = [(form, asked.region(member, form), 0, asked.reached(member))]
            for shape, region, first, length in (asked.split(member, form, self.shape(number)) if kind is not None else None) or whole:
                part = values.part(first, length) if values is not None else None
                lines.append(Line("i%s_%s" % (verb, shape), self.next_own, number, region, part, kind))
                items.append(Item(self.next_own, "ok", self.part_of(got, first, length, kind), kind))
                self.next_own += 1
        self.waited(event, everyone, lines, items)

    def blocks(self, event, verb, everyone):
        """A region by an MPI type of the file, which the trace gives as boxes."""
        given = event.given
        if "members" in given:
            members = [dict(m, memory=given.get("memory"), stored=pair) for m, pair in zip(given["members"], self.cut_up(given, given))]
            self.posted_members(event, (verb, "varn", everyone), members, self.cut_up(given, event.answer or {}))
        elif "starts" not in given:
            many = "its file type, which makes %d boxes: a script's call has at most %d" % (given.get("boxes", 0), asked.MOST_PARTS)
            raise NoWord(many if "boxes" in given else given.get("why", "this file type"))
        else:
            self.access(event, verb, "varn", everyone)

    @staticmethod
    def cut_up(given, line):
        """The places of each member's values in those of the whole call; None where there are none."""
        if "stored" not in line:
            return [None] * len(given["members"])
        size, ends = array(CODES[given["memory"]]).itemsize, [0, *accumulate(m["elements"] for m in given["members"])]
        return [[line["stored"][0] + first * size, m["elements"]] for first, m in zip(ends, given["members"])]

    # ---- waits

    def chosen(self, given):
        """The word of the choice, and PnetCDF's numbers that it stands for."""
        count = given["count"]
        if count == ALL:
            return "all", list(self.posts)
        if count in (ALL_GETS, ALL_PUTS):
            listed = [r for r, post in self.posts.items() if (post.verb == "iget") == (count == ALL_GETS)]
        else:
            listed = [r for r in given.get("requests", []) if r != NULL]
        return " ".join(str(own) for r in listed for own in self.ids(r)), listed

    def ids(self, request):
        return [own for own, _, _ in self.posts[request].parts] if request in self.posts else [NO_ID]

    def wait(self, event):
        word, listed = self.chosen(event.given)
        answer = event.answer or {}
        names = {r: self.status_name(answer, code) for r, code in zip(event.given.get("requests", []), answer.get("statuses", []))}
        gets = {request: pair for request, *pair in answer.get("gets", [])}
        refused = event.code in UNDONE
        items = [] if refused else [i for r in listed for i in self.items(r, names.get(r, "ok"), gets.get(r))]
        requests = [] if refused else [own for r in listed for own in self.ids(r)]
        changed = [self.posts[r].call for r in event.given.get("changed", []) if r in self.posts]
        self.add(event, Line((event.call + " " + word).rstrip()), items=items, requests=requests, changed=tuple(changed))
        for request in [] if refused else listed:
            self.posts.pop(request, None)

    @staticmethod
    def status_name(answer, code):
        return "ok" if code == 0 else answer.get("names", {}).get(str(code), str(code))

    def items(self, request, name, pair):
        post = self.posts.get(request)
        if post is None:
            return [Item(NO_ID, name)]
        got = self.trace.stored(pair, post.memory)
        return [Item(own, name, self.signed(got.part(first, got.count if length is None else length), post.kind) if got else None, post.kind)
                for own, first, length in post.parts]

    def dim_length(self, event):
        length, number = (event.answer or {}).get("length"), event.given["dim"]
        self.definitions.dimension_word(number)
        self.add(event, Line("inq_dimlen", region=str(number)), got="" if length is None else str(length))
