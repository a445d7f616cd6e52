"""The plans that `ncplan --json` prints: read, and looked over member by member."""
import json

PAIR = {"ranks": [int], "ids": [int], "byte": int}
DEVICE_CALL = {"call": str, "length": int}
WINDOW = {"from": int, "to": int, "hole": bool, "shares": [{"rank": int, "bytes": int}], "pieces": [[int]]}
DOMAIN = {"aggregator": (int, None), "from": int, "to": int, "windows": [WINDOW]}
PHASE = {"asked": [{"rank": int, "bytes": int, "pieces": int}], "domains": [DOMAIN]}
CALL = {"rank": int, "call": int, "name": str, "answer": str}
STEP = {"mark": str, "collective": bool, "calls": [CALL], "overlap": (PAIR, None), "put": PHASE, "get": PHASE, "device": [DEVICE_CALL]}
MOVED = {"calls": int, "bytes": int, "least": int, "most": int, "unaligned": int}
NAIVE = {"calls": int, "bytes": int}
CELL = {"rank": int, "aggregator": int, "put": int, "got": int}
SUMS = {"grows": int, "reads": MOVED, "writes": MOVED, "naive_reads": NAIVE, "naive_writes": NAIVE, "read_beside": int, "written_beside": int, "matrix": [CELL]}
VARIABLE = {"name": str, "type": str, "begin": int, "size": int, "record": bool}
DATASET = {"version": int, "header": int, "records": int, "record_size": int, "length": int, "variables": [VARIABLE]}
HINT = {"name": str, "value": (int, str), "default": (int, str)}
PLAN = {"plan": int, "ranks": int, "order": [str], "dataset": DATASET, "hints": [HINT], "opening": [DEVICE_CALL], "steps": [STEP],
        "close": [DEVICE_CALL], "sums": SUMS}
WORDS = {int: "no whole number", str: "no text", bool: "neither true nor false", None: "not null"}
FORM = 1


class Fault(Exception):
    """Why a plan or a command can't be taken, in one line."""


def look_over(value, form, at):
    """Raises a fault at the first member that is missing or of another kind."""
    if isinstance(form, dict):
        look_over_members(value, form, at)
    elif isinstance(form, list):
        if not isinstance(value, list):
            raise Fault(f"{at} is no list")
        for number, one in enumerate(value):
            look_over(one, form[0], f"{at}[{number}]")
    elif isinstance(form, tuple):
        look_over_choices(value, form, at)
    elif type(value) is not (form if form else type(None)) or form is int and value < 0:
        raise Fault(f"{at} is {WORDS[form]}")


def look_over_members(value, form, at):
    if not isinstance(value, dict):
        raise Fault(f"{at} is no object")
    for name, inner in form.items():
        if name not in value:
            raise Fault(f"{at} has no {name}")
        look_over(value[name], inner, f"{at}.{name}" if at else name)


def look_over_choices(value, forms, at):
    """One of these forms must fit; the fault is that of the first one."""
    first = None
    for form in forms:
        try:
            look_over(value, form, at)
            return
        except Fault as fault:
            first = first or fault
    raise first


def look_over_numbers(plan):
    """Device calls have their places, ranks are below their number, and places stand in order."""
    for at, calls in (("opening", plan["opening"]), ("close", plan["close"]), *((f"step {it['mark']}", it["device"]) for it in plan["steps"])):
        look_over_calls(calls, at)
    for step in plan["steps"]:
        for name in ("put", "get"):
            look_over_phase(step[name], plan["ranks"], f"step {step['mark']}")
    for cell in plan["sums"]["matrix"]:
        look_over_rank(cell, plan["ranks"], "matrix")


def look_over_calls(calls, at):
    for call in calls:
        if call["call"] not in ("grow", "read", "write"):
            raise Fault(f"{at}: there is no device call {call['call']}")
        if call["call"] != "grow":
            look_over(call, {"place": int}, at)


def look_over_rank(entry, ranks, at):
    if entry["rank"] >= ranks:
        raise Fault(f"{at}: there is no rank {entry['rank']}")


def look_over_phase(phase, ranks, at):
    for entry in phase["asked"]:
        look_over_rank(entry, ranks, at)
    for domain in phase["domains"]:
        for window in domain["windows"]:
            look_over_window(window, ranks, at)


def look_over_window(window, ranks, at):
    if window["from"] >= window["to"]:
        raise Fault(f"{at}: a window from {window['from']} to {window['to']} has no byte")
    for piece in window["pieces"]:
        if len(piece) != 3 or piece[0] >= ranks or not window["from"] <= piece[1] < piece[2] <= window["to"]:
            raise Fault(f"{at}: a piece {piece} is none of the window from {window['from']} to {window['to']}")
    for share in window["shares"]:
        look_over_rank(share, ranks, at)


def read_plan(path):
    """The plan in this file."""
    try:
        with open(path, encoding="utf-8") as file:
            plan = json.load(file)
    except OSError as error:
        raise Fault(f"{path}: {error.strerror}") from None
    except (ValueError, RecursionError):
        raise Fault(f"{path}: it is no JSON; ncplan --json prints a plan") from None
    try:
        look_over(plan, PLAN, "")
        if plan["plan"] != FORM:
            raise Fault(f"it is of form {plan['plan']}, and not {FORM}")
        look_over_numbers(plan)
    except Fault as fault:
        raise Fault(f"{path}: it is no plan of ncplan --json: {str(fault).strip()}") from None
    return plan


def text_of_name(name):
    """A name of a dataset, whose bytes stand as a character each."""
    try:
        return name.encode("latin-1").decode()
    except UnicodeError:
        return name


def hint(plan, name):
    return next((it["value"] for it in plan["hints"] if it["name"] == name), None)


def changed_hints(plan):
    """The hints that the script changed, as one text."""
    return ", ".join(f"{it['name']} {it['value']}" for it in plan["hints"] if it["value"] != it["default"])


def windows_of(phase):
    """All windows of a phase."""
    return [window for domain in phase["domains"] for window in domain["windows"]]


def phases_of(step):
    """The phases of a step that have a domain, each by its word."""
    return [(word, step[word]) for word in ("put", "get") if step[word]["domains"]]
