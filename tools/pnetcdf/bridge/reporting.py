"""A report on each dataset of a traced program: what its calls do to the disk, the time they took, and what other hints change."""
import json
import os
import subprocess
import tempfile

from .advice import advice
from .merging import Merged
from .planning import Planner, fit, steps_of
from .running import REPOSITORY, RunFault, find_program

# Hints that a plan knows; the two alignments act when a dataset is made.
KNOWN = {"cb_nodes", "cb_buffer_size", "ind_rd_buffer_size", "ind_wr_buffer_size", "striping_unit", "nc_header_align_size",
         "nc_var_align_size"}
SUMS = ("grows", "reads", "read bytes", "writes", "written bytes", "off striping_unit")
SLOWEST = 5


class Report:
    """What is told of one opening. Where it has no script or no plan, `fault` says why."""

    def __init__(self, opening):
        self.merged = Merged(opening)
        self.fault = self.merged.fault
        self.remarks = [] if self.fault else self.merged.notes() + self.merged.remarks()
        self.steps, self.plans, self.hint_sets = [], [], []

    @property
    def shown(self):
        return self.merged.opening.shown

    def make(self, hint_sets, seconds):
        """Plans the parts under the run's own hints, then under each of the sets, which are dictionaries."""
        try:
            self.make_plans(hint_sets, seconds)
        except (KeyError, TypeError) as fault:
            raise RunFault("ncplan prints plans of another form: %r" % fault) from None

    def make_plans(self, hint_sets, seconds):
        with tempfile.TemporaryDirectory() as folder:
            planner = Planner(self.merged, find_program("ncplan", "NCPLAN"), find_program, folder, seconds)
            self.fit()
            planner.prepare()
            self.plans = [planner.plan(part) for part in self.merged.parts]
            self.steps = [step for part, plan in zip(self.merged.parts, self.plans) for step in steps_of(part, plan)]
            self.hint_sets = [("as it ran", sums_of(self.plans))]
            for hints in hint_sets if hint_sets is not None else self.own_sets():
                name = " ".join("%s=%s" % pair for pair in hints.items())
                self.hint_sets.append((name, sums_of([planner.plan(part, hints.items()) for part in self.merged.parts])))

    def fit(self):
        for number, part in enumerate(self.merged.parts):
            left = fit(part)
            if left is not None:
                del self.merged.parts[number + 1:]
                self.remarks.append("the plan ends after %d collective calls: a script holds no more values" % left)
                return

    def own_sets(self):
        """Sets that are worth a look where none is named: one aggregator, one for each rank, stripes of a mebibyte."""
        force, ranks = self.hints()[0], len(self.merged.ranks)
        sets = [{"cb_nodes": 1}, {"cb_nodes": min(ranks, 64)}, {"cb_buffer_size": 1 << 20}, {"striping_unit": 1 << 20}]
        return [hints for hints in sets if any(force.get(name) != value for name, value in hints.items())]

    # ---- what is told

    def hints(self):
        """The hints in force in the plan, and those that the run had and the plan doesn't know."""
        told = self.merged.definitions.parts[-1].answer.get("hints", {})
        planned = {h["name"]: h["value"] for h in self.plans[0]["hints"]}
        unknown = {name: value for name, value in told.items() if name not in KNOWN}
        return {name: value for name, value in planned.items() if name in KNOWN}, unknown

    def advice(self):
        return advice(self.merged, self.steps, [plan["sums"] for plan in self.plans], self.hints()[0].get("striping_unit", 1))

    def slowest(self):
        timed = [step for step in self.steps if step.seconds is not None]
        return sorted(timed, key=lambda step: -step.seconds)[:SLOWEST]

    def pictures(self):
        """The pictures of the plans, as SVG, where the drawing tool stands beside these tools."""
        draw = os.path.join(REPOSITORY, "tools", "draw")
        return [svg for svg in map(picture, [draw] * len(self.plans), self.plans) if svg] if os.access(draw, os.X_OK) else []


def picture(draw, plan):
    """One picture, or None where the tool can't draw this plan."""
    with tempfile.TemporaryDirectory() as folder:
        source = os.path.join(folder, "plan.json")
        with open(source, "w") as out:
            json.dump(plan, out)
        done = subprocess.run([draw, "--svg", source], stdout=subprocess.PIPE, stderr=subprocess.DEVNULL, check=False)
    text = done.stdout.decode("utf-8", "replace")
    return text[text.index("<svg"):] if done.returncode == 0 and "<svg" in text else None


def sums_of(plans):
    """The device calls of plans together, in the order of SUMS."""
    sums = [plan["sums"] for plan in plans]
    odd = sum(s["reads"]["unaligned"] + s["writes"]["unaligned"] for s in sums)
    return [sum(s["grows"] for s in sums)] + [sum(s[kind][what] for s in sums) for kind in ("reads", "writes") for what in ("calls", "bytes")] + [odd]
