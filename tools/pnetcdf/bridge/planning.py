"""Plans by ncplan of the scripts of a dataset: what each call does to the disk, and what other hints would change."""
import json
import os
import subprocess
from dataclasses import dataclass, field

from .running import RunFault, Runs

FORM = 1        # of plans
MOST_VALUES, MOST_LINES = 1 << 24, 1 << 20      # what one script may hold


@dataclass
class Spread:
    """The least and the most of some numbers, and their sum."""
    least: int = 0
    most: int = 0
    total: int = 0
    count: int = 0

    @classmethod
    def of(cls, numbers):
        numbers = list(numbers)
        return cls(min(numbers), max(numbers), sum(numbers), len(numbers)) if numbers else cls()


@dataclass
class Step:
    """A step of the plan: a collective call of all ranks, or an independent one of one rank."""
    mark: str
    part: int
    direction: str              # put or get
    name: str                   # PnetCDF's name of the call
    variables: list
    calls: list                 # numbers of the program's calls, by rank
    pieces: Spread              # of the ranks that ask for something
    bytes: Spread
    aggregators: Spread         # bytes of each
    by_aggregator: dict
    windows: int = 0
    holes: int = 0
    reads: Spread = field(default_factory=Spread)
    writes: Spread = field(default_factory=Spread)
    seconds: float = None       # the longest that a rank was in the call

    @property
    def collective(self):
        return self.mark.startswith("m")


def count_values(part):
    """How many values and lines a part's script has up to each meeting, and in all."""
    counts = {}
    for rank in part.ranks:
        meeting = 0
        for call in rank.calls:
            values = sum(line.values.count for line in call.put_lines() if line.values is not None)
            old = counts.get(meeting, (0, 0))
            counts[meeting] = old[0] + values, old[1] + 1 + len(call.before)
            meeting += call.meets
    return counts


def fit(part):
    """Cuts a part to what one script holds; the number of meetings that are left, or None where all are."""
    values = lines = 0
    for meeting, (own, told) in sorted(count_values(part).items()):
        values, lines = values + own, lines + told
        if values > MOST_VALUES or lines > MOST_LINES:
            part.cut(meeting)
            return meeting
    return None


class Planner:
    """Plans the parts of a merged opening; where a part opens what the one before left, that one is run first."""

    def __init__(self, merged, program, find_ncrun, folder, seconds):
        self.merged, self.program, self.seconds = merged, program, seconds
        self.find_ncrun, self.folder = find_ncrun, folder
        self.datasets = []

    def prepare(self):
        """The dataset that each part opens, None for one that it creates."""
        opening = self.merged.opening
        begun = None if opening.how == "create" else next((p for p in (opening.copy, opening.path) if p and os.path.exists(p)), None)
        if opening.how == "open" and begun is None:
            raise RunFault("there is no copy of %s as it was opened" % opening.shown)
        self.datasets = [begun]
        if len(self.merged.parts) == 1:
            return
        runs = Runs(self.find_ncrun(), self.folder, self.seconds)
        runs.begin(begun)
        for number, part in enumerate(self.merged.parts[:-1]):
            runs.run(part)
            kept = os.path.join(self.folder, "part%d.nc" % number)
            os.rename(runs.keep(), kept)
            self.datasets.append(kept)

    def plan(self, part, hints=()):
        """The plan of a part, with other hints than it has."""
        script = os.path.join(self.folder, "script")
        with open(script, "w") as out:
            part.write_script(out, hints=dict(hints), zeros=True)
        command = [self.program, "--json"] + [d for d in [self.datasets[part.number]] if d]
        with open(script, "rb") as source:
            done = subprocess.run(command, stdin=source, stdout=subprocess.PIPE, timeout=self.seconds, check=False)
        if done.returncode != 0:
            raise RunFault("ncplan ended with status %d: %s" % (done.returncode, done.stdout[:200].decode("utf-8", "replace").strip()))
        plan = json.loads(done.stdout)
        if plan.get("plan") != FORM:
            raise RunFault("%s prints plans of another form" % self.program)
        return plan


def lines_of(rank):
    """The call behind each line of a rank's script."""
    return [call for call in rank.calls for _ in call.lines()]


def hull(window):
    return window["to"] - window["from"]


def moved(step, direction, windows):
    """The reads and the writes for what a step puts, or for what it gets. A put's window with a hole is read before it is written."""
    if direction == "get":
        return Spread.of(map(hull, windows)), Spread()
    return Spread.of(hull(w) for w in windows if w["hole"]), Spread.of(c["length"] for c in step["device"] if c["call"] == "write")


def steps_of(part, plan):
    """The steps of a plan with the program's calls behind them."""
    behind = [lines_of(rank) for rank in part.ranks]
    for step in plan["steps"]:
        for direction in ("put", "get"):
            asked = step[direction]["asked"]
            if asked:
                yield step_of(part, behind, step, direction, asked)


def step_of(part, behind, step, direction, asked):
    calls = [(call["rank"], behind[call["rank"]][call["call"]]) for call in step["calls"]]
    domains = step[direction]["domains"]
    windows = [w for domain in domains for w in domain["windows"]]
    by_aggregator = {}
    for domain in domains:
        served = sum(share["bytes"] for w in domain["windows"] for share in w["shares"])
        by_aggregator[domain["aggregator"]] = by_aggregator.get(domain["aggregator"], 0) + served
    took = [call.took for _, call in calls if call.took is not None]
    names = {call.name for _, call in calls if call.number >= 0}
    reads, writes = moved(step, direction, windows)
    return Step(
        step["mark"], part.number, direction, " ".join(sorted(names)) or "fill", variables_of(part, calls, direction),
        [(rank, call.number) for rank, call in calls], Spread.of(own["pieces"] for own in asked),
        Spread.of(own["bytes"] for own in asked), Spread.of(by_aggregator.values()), by_aggregator,
        len(windows), sum(w["hole"] for w in windows), reads, writes, max(took, default=None))


def variables_of(part, calls, direction):
    """The names of the variables that the calls of a step put or get, in the order of definition."""
    numbers = set()
    for rank, call in calls:
        lines, posts = list(call.lines()), part.ranks[rank].posts() if call.requests else {}
        lines += [posts[number][1] for number in call.requests if number in posts and not call.before]
        numbers.update(line.var for line in lines if line.var is not None and line.word.lstrip("ib").startswith(direction))
    return [part.definitions.variable_word(number) for number in sorted(numbers)]
