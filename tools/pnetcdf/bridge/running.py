"""Runs of ncrun on the scripts of a dataset, and the answers in their text."""
import os
import shutil
import subprocess
from dataclasses import dataclass, field

SECONDS = 120
BLOCK = 1 << 20
REPOSITORY = os.path.join(os.path.dirname(__file__), "..", "..", "..")


class RunFault(Exception):
    """A run that can't be made."""


def find_program(name="ncrun", variable="NCRUN"):
    """The program of that name: what the variable names, else the one of this repository, else one beside these tools or on the path."""
    named = os.environ.get(variable)
    own = os.path.join(REPOSITORY, "crates", name, "out", name)
    program = named or (own if os.access(own, os.X_OK) else shutil.which(name)) or own
    if not os.access(program, os.X_OK):
        raise RunFault("there is no program %s: build it as README.md says, or name it in %s" % (os.path.normpath(program), variable))
    return program


def copy(source, target):
    """Copies a file; blocks of zeros are left as holes."""
    with open(source, "rb") as own, open(target, "wb") as out:
        for block in iter(lambda: own.read(BLOCK), b""):
            if block.count(0) == len(block):
                out.seek(len(block), os.SEEK_CUR)
            else:
                out.write(block)
        out.truncate(own.tell())


@dataclass(slots=True)
class Answer:
    """What a line of a script answered: its code, what stands behind that, and the lines of a wait's items."""
    code: str
    rest: str
    items: list = field(default_factory=list)


class Text:
    """The text of a run in a file: the answers of its ranks, one after another."""

    def __init__(self, path):
        self.path = path

    def answers(self):
        """For each rank its answers in order. A rank's answers are read when they are asked for, and the ranks in order."""
        with open(self.path, encoding="utf-8", errors="replace") as lines:
            own = []
            for line in lines:
                if line[0].isdigit():
                    own.append(answer_of(line))
                elif line.startswith("  "):
                    own[-1].items.append(line[2:-1])
                elif line.startswith("rank "):
                    own = []
                elif line.startswith("pending "):
                    yield own
                elif line.startswith("//"):
                    return

    def tells(self, word):
        """Whether the word stands anywhere in the text."""
        with open(self.path, encoding="utf-8", errors="replace") as lines:
            return any(word in line for line in lines)

    def first_line(self):
        with open(self.path, encoding="utf-8", errors="replace") as lines:
            return lines.readline().strip()


def answer_of(line):
    """The answer in a line of a number, a call, a code and what stands behind that."""
    parts = line[:-1].split(" ", 3)
    return Answer(parts[2], parts[3] if len(parts) > 3 else "")


@dataclass
class Run:
    """A run of one script: its status, its text, and the dataset that it left."""
    status: int
    text: Text
    dataset: str


class Runs:
    """Runs of the parts of one dataset, one after another on one file in a folder."""

    def __init__(self, program, folder, seconds):
        self.program, self.folder, self.seconds = program, folder, seconds
        self.dataset, self.begun = os.path.join(folder, "proved.nc"), None

    def begin(self, before):
        """The dataset as it was before a part: none, or a copy of one."""
        self.begun = before
        if os.path.exists(self.dataset):
            os.remove(self.dataset)
        if before is not None:
            copy(before, self.dataset)

    def keep(self):
        """A copy of the dataset as it is now, or None where there is none."""
        kept = os.path.join(self.folder, "kept.nc")
        if not os.path.exists(self.dataset):
            return None
        copy(self.dataset, kept)
        return kept

    def run(self, part, extra=()):
        script, text = os.path.join(self.folder, "script"), os.path.join(self.folder, "text")
        with open(script, "w") as out:
            part.write_script(out, ["hint threads off", *extra])
        try:
            with open(script, "rb") as source, open(text, "wb") as out:
                done = subprocess.run([self.program, self.dataset], stdin=source, stdout=out, stderr=subprocess.DEVNULL, timeout=self.seconds, check=False)
        except subprocess.TimeoutExpired:
            raise RunFault("%s didn't end in %d seconds; --seconds gives it more" % (self.program, self.seconds)) from None
        return Run(done.returncode, Text(text), self.dataset)
