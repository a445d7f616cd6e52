"""The steps of one plan, or of two over one axis, one under another."""
from plan_axis import merged
from plan_document import phases_of, windows_of
from plan_picture import GREYS, HUES, INK, LEFT, PALE, RIGHT, count, hue, letter, width_of
from plan_rows import draw_calls, draw_domains, draw_rank_rows, draw_windows, pieces_by_rank

# A matrix has numbers up to so many columns and rows, and shades beyond.
MOST_NUMBERS = 16
SHADE = "#0072B2"


# ---- headings

def names_of(step):
    """The words of a step's calls, each once."""
    return ", ".join(dict.fromkeys(call["name"] for call in step["calls"]))


def told_calls(calls):
    """Device calls as a text: what is grown, read and written."""
    words = [f"grow to {it['length']}" for it in calls if it["call"] == "grow"]
    for word in "read", "write":
        lengths = [it["length"] for it in calls if it["call"] == word]
        if lengths:
            words.append(f"{count(len(lengths), word)} of {count(sum(lengths), 'byte')}")
    return ", ".join(words) or "no device call"


def draw_heading(picture, number, step, told):
    """The step by its number and mark, its calls, and what is told of it."""
    picture.line(8, 0, RIGHT, 0, "#bbbbbb")
    together = f"{len(step['calls'])} ranks together" if len(step["calls"]) > 1 else "1 rank"
    kind = together if step["collective"] else f"rank {step['mark'][1:].split('.')[0]} alone"
    picture.text(8, 17, f"step {number}: {step['mark']}", 14, bold=True)
    picture.text(LEFT, 17, f"{names_of(step)}, {kind}{told}", 13)
    if step["overlap"]:
        pair = step["overlap"]
        picture.row(18)
        picture.text(LEFT, 17, f"ranks {pair['ranks'][0]} and {pair['ranks'][1]} both put to byte {pair['byte']}: nothing is put", 12, colour="#a03000")
    picture.row(26)


# ---- a step

def ranks_height(phase):
    """How high the row of a rank is."""
    return 15 if len(phase["asked"]) <= 20 else 7


def is_quiet(step):
    """Whether a step makes no device call."""
    return not step["device"] and not phases_of(step)


def draw_step(picture, axis, number, steps, names):
    """One step of each plan; a plan that has no such step has None."""
    first = next(it for it in steps if it)
    if all(it and is_quiet(it) for it in steps):
        draw_heading(picture, number, first, ": no device call")
        return
    draw_heading(picture, number, first, "")
    drawn = None
    for step, name in zip(steps, names):
        if step:
            drawn = draw_side(picture, axis, step, name if len(steps) > 1 else "", drawn)
        else:
            picture.text(LEFT, 13, f"{name}: no such step", 12, colour=PALE)
            picture.row(22)


def asked_for(step):
    """What the ranks ask for, by which two steps are told to ask for the same."""
    return [(word, {rank: merged(extents) for rank, extents in pieces_by_rank(windows_of(phase)).items()}) for word, phase in phases_of(step)]


def draw_side(picture, axis, step, name, drawn):
    """What one plan does in the step. The rows of the ranks are left out where those that were drawn are the same."""
    asked = asked_for(step)
    if name:
        picture.box(8, 8 + 1.15 * width_of(name, 12) + 10, 0, 18, "#eeeeee")
        picture.text(13, 13, name, 12, bold=True)
    picture.text(LEFT, 13, told_calls(step["device"]), 12, colour=PALE)
    picture.row(24)
    for word, phase in phases_of(step):
        if asked != drawn:
            draw_rank_rows(picture, axis, phase, ranks_height(phase))
            picture.row(4)
        draw_phase(picture, axis, step, word, phase)
    if count_call(step):
        picture.text(8, 13, "record count", 12)
        picture.box(*axis.header_span(), 0, 18, GREYS[1], "the record count is written into the header", INK)
        picture.text(sum(axis.header_span()) / 2, 13, "W", 11, "middle")
        picture.row(26)
    return asked


def count_call(step):
    """Whether the record count is written."""
    return any(it["call"] == "write" and it["place"] == 4 for it in step["device"])


def draw_phase(picture, axis, step, word, phase):
    if step["collective"]:
        draw_domains(picture, axis, phase, word)
        draw_windows(picture, axis, phase, word, f"windows of the {word}")
        draw_matrix(picture, phase, word)
    else:
        draw_windows(picture, axis, phase, word, f"sieving windows, {word}")


# ---- who gives how much to whom

def matrix_of(phase):
    """How many bytes each rank and aggregator exchange."""
    cells = {}
    for domain in phase["domains"]:
        for window in domain["windows"]:
            for share in window["shares"]:
                key = share["rank"], domain["aggregator"]
                cells[key] = cells.get(key, 0) + share["bytes"]
    return cells


def draw_matrix(picture, phase, word):
    """A row for each rank, a column for each aggregator."""
    cells = matrix_of(phase)
    ranks, nodes = sorted({rank for rank, _ in cells}), sorted({node for _, node in cells})
    most, has_numbers = max(cells.values()), len(ranks) <= MOST_NUMBERS and len(nodes) <= MOST_NUMBERS
    wide, high = (max(46, width_of(str(most), 11) + 14), 17) if has_numbers else (13, 9)
    picture.text(8, 12, "bytes from rank to" if word == "put" else "bytes to rank from", 12)
    picture.text(8, 26, "aggregator", 12)
    for column, node in enumerate(nodes):
        picture.text(LEFT + 54 + wide * (column + 0.5), 12, letter(node), 12 if has_numbers else 8, "middle", bold=True)
    picture.row(17)
    for rank in ranks:
        picture.box(LEFT, LEFT + 10, 3 if has_numbers else 1, high - 7 if has_numbers else high - 2, hue(rank))
        if has_numbers or rank % 4 == 0:
            picture.text(LEFT + 15, high - 4 if has_numbers else high, str(rank), 11 if has_numbers else 8)
        for column, node in enumerate(nodes):
            draw_cell(picture, LEFT + 54 + wide * column, wide, high, cells.get((rank, node), 0), most, has_numbers)
        picture.row(high)
    picture.row(12)


def draw_cell(picture, left, wide, high, number, most, has_numbers):
    picture.box(left, left + wide - 1, 0, high - 1, SHADE, f"{number} bytes", opacity=0.45 * number / most if has_numbers else number / most)
    if has_numbers and number:
        picture.text(left + wide / 2 - 0.5, high - 4.5, str(number), 11, "middle")


# ---- opening, close, legend

def draw_opening(picture, axis, plans, names, member, title):
    """Device calls before the first step or after the last one."""
    if not any(plan[member] for plan in plans):
        return
    picture.line(8, 0, RIGHT, 0, "#bbbbbb")
    picture.text(8, 17, title, 14, bold=True)
    for plan, name in zip(plans, names):
        calls = plan[member]
        told = f"{name}: " if len(plans) > 1 else ""
        picture.text(LEFT, 17, told + told_calls(calls), 12)
        picture.row(24)
        if any("place" in it and it["place"] + it["length"] > axis.header for it in calls):
            draw_calls(picture, axis, calls, "in order")
    picture.row(6)


def draw_legend(picture, plans):
    """What the signs mean."""
    x = 8
    for rank in range(min(max(plan["ranks"] for plan in plans), len(HUES))):
        picture.box(x, x + 12, 2, 12, hue(rank))
        picture.text(x + 16, 12, f"rank {rank}", 11)
        x += 66
    picture.box(x, x + 20, 2, 12, "url(#hole)", stroke=INK)
    picture.text(x + 25, 12, "hole", 11)
    x += 62
    picture.line(x, 8, x + 30, 8, width=2.4)
    picture.text(x + 36, 12, "A, B ..: domains of aggregators 0, 1 ..", 11)
    x += 250
    picture.text(x, 12, "A0, A1 ..: their windows.  R read, W written, RW read, overlaid and written", 11)
    picture.row(24)
