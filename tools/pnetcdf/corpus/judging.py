"""What became of a program under the bridge, counted from ncdiagnose's account of its datasets, and the tables of it."""
import glob
import json
import os
import subprocess
from collections import Counter
from dataclasses import dataclass, field

SCRIPT_SECONDS, SECONDS = 600, 3000      # for one script, and for a program
FILES = {"same": "same", "zeros": "same but for zeros at the end", "layout": "same values, other layout", "overlap": "overlapping puts",
         "gone": "nothing to compare", "differs": "differ", "none": "not run"}


@dataclass
class Row:
    program: object
    status: list = field(default_factory=list)      # of the traced run; of the plain one, and whether both left the same files
    datasets: list = None                           # None where ncdiagnose gave no account
    fault: str = ""

    @property
    def judged(self):
        return self.datasets is not None

    @property
    def made(self):
        """The datasets that PnetCDF created or opened."""
        return [d for d in self.datasets or [] if not d["refused"]]

    @property
    def traced(self):
        return bool(self.datasets)

    @property
    def whole(self):
        return self.traced and all(d["whole"] for d in self.made)

    def ends(self):
        """Why scripts end before the program's calls do."""
        return list(dict.fromkeys(reason for d in self.made for reason in d["cut"]))

    def told(self):
        return Counter(found["kind"] for d in self.datasets or [] for found in d["found"] if found["kind"] not in ("not told", "no script"))

    def files(self):
        return Counter(d["file"] for d in self.made)

    def scripts(self):
        """How many datasets are whole, cut, and without a script."""
        whole = sum(d["whole"] for d in self.made)
        cut = sum(not d["whole"] and d["script"] for d in self.made)
        return whole, cut, len(self.made) - whole - cut

    def line(self):
        if not self.judged:
            return "%s: %s" % (self.program.name, self.fault)
        if not self.traced:
            return "%s: no PnetCDF call" % self.program.name
        words = ["%d/%d/%d" % self.scripts(), counted(self.files()), counted(self.told()), "; ".join(self.ends())]
        return "%s: %s" % (self.program.name, " | ".join(words))


def counted(counts):
    return ", ".join("%d %s" % (n, what) for what, n in counts.items())


def judge(program, place, tools, again):
    """The row of a program whose traces stand in that folder."""
    row, account = Row(program), os.path.join(place, "account.json")
    with open(os.path.join(place, "status")) as status:
        row.status = status.read().split()
    traces = sorted(t for t in glob.glob(os.path.join(place, "t.*")) if t.rsplit(".", 1)[1].isdigit() and ".before." not in t)
    if not traces:
        row.datasets = []
        return row
    if again or not os.path.exists(account):
        command = [os.path.join(tools, "ncdiagnose"), "--json", account, "--seconds", str(SCRIPT_SECONDS)] + traces
        try:
            done = subprocess.run(command, stdout=subprocess.DEVNULL, stderr=subprocess.PIPE, timeout=SECONDS, check=False)
        except subprocess.TimeoutExpired:
            row.fault = "ncdiagnose took more than %d seconds" % SECONDS
            return row
        if done.returncode not in (0, 1):
            row.fault = done.stderr.decode("utf-8", "replace").strip()[-300:]
            return row
    with open(account) as text:
        row.datasets = json.load(text)
    return row


# ---- tables

def folder_row(folder, rows):
    files = sum((r.files() for r in rows), Counter())
    whole, cut, none = (sum(r.scripts()[k] for r in rows) for k in range(3))
    cells = [folder, len(rows), sum(r.whole for r in rows), "%d, %d, %d" % (whole, cut, none)]
    cells += [files[kind] for kind in FILES] + [sum(not r.told() for r in rows)]
    return "| %s |" % " | ".join(map(str, cells))


def table(rows):
    """The tables of BRIDGE.md."""
    rows = [r for r in rows if r.judged]
    traced = [r for r in rows if r.traced]
    folders = list(dict.fromkeys(r.program.name.split("/")[0] for r in traced))
    lines = ["| Folder | Programs | Whole | Datasets: whole, cut, none | %s | Nothing told |" % " | ".join(FILES.values()),
             "|---|" + "---|" * (len(FILES) + 4)]
    lines += [folder_row(f, [r for r in traced if r.program.name.startswith(f + "/")]) for f in folders]
    lines += [folder_row("all", traced), "", "| Not whole | What ends its scripts |", "|---|---|"]
    lines += ["| %s | %s |" % (r.program.name, "; ".join(r.ends())) for r in traced if not r.whole]
    lines += ["", "| Something is told | What |", "|---|---|"]
    lines += ["| %s | %s |" % (r.program.name, counted(r.told())) for r in traced if r.told()]
    quiet = [r.program.name for r in rows if not r.traced]
    lines += ["", "Without a PnetCDF call: %s." % (", ".join(quiet) or "none")]
    ended = ["%s (%s)" % (r.program.name, r.status[0]) for r in rows if r.status[0] != "0"]
    lines += ["Ended with another status than 0: %s." % (", ".join(ended) or "none")]
    changed = [r.program.name for r in rows if len(r.status) == 3 and (r.status[0] != r.status[1] or r.status[2] != "same")]
    if any(len(r.status) == 3 for r in rows):
        lines += ["Otherwise without the trace, by status or file: %s." % (", ".join(changed) or "none")]
    return "\n".join(lines) + "\n"
