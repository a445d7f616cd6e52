"""The device calls of a run of the real program, as strace sees them."""
import collections, re, shutil, subprocess

# A call: its number in the trace, the thread that made it, its name, its bytes, and its place or the size that it asked for.
Call = collections.namedtuple("Call", "number thread name data place")

CALL = re.compile(r"(\d+) +(ftruncate|pwrite64|pread64)\(\d+, (?:\"((?:\\x..)*)\"(?:\.\.\.)?, )?(\d+)(?:, (\d+))?\) += (\d+)")
# A call that another thread's came between: its front and its back.
FRONT, BACK = re.compile(r"(\d+) .*<unfinished \.\.\.>$"), re.compile(r"(\d+) +<\.\.\. \w+ resumed>(.*)$")


def can_be_seen():
    return shutil.which("strace") and subprocess.run(["strace", "-o", "trace", "true"], stderr=subprocess.DEVNULL).returncode == 0


def traced(words, dataset="d.nc"):
    """The words that run these under strace. The dataset must be there."""
    return ["strace", "-f", "-qq", "-xx", "-s", "10000000", "-o", "trace", "-P", dataset, "-e", "trace=ftruncate,pwrite64,pread64", *words]


def whole_lines(lines):
    """The lines of a trace, each in one piece."""
    fronts = {}
    for line in map(str.rstrip, lines):
        front, back = FRONT.match(line), BACK.match(line)
        if front:
            fronts[front[1]] = line[:line.rindex("<unfinished")].rstrip()
        else:
            yield fronts.pop(back[1]) + " " * back[2].startswith('"') + back[2] if back else line


def calls():
    """The calls of the last run that was traced."""
    found = []
    with open("trace", encoding="ascii") as lines:
        for line in whole_lines(lines):
            seen = CALL.match(line)
            if seen:
                thread, name, text, first, second, _ = seen.groups()
                data = bytes.fromhex((text or "").replace("\\x", ""))
                found.append(Call(len(found), int(thread), name, data, int(first if name == "ftruncate" else second)))
    return found
