"""The rows of a picture over its axis: places and variables, what a rank asks for, domains, windows, and device calls."""
from plan_axis import merged
from plan_document import text_of_name, windows_of
from plan_picture import GREYS, INK, LEFT, PALE, Labels, count, dash, hue, letter, width_of

# Below this width a window's parts can't be told apart.
NARROW = 2.5
# Of a variable no more records than these are drawn by themselves.
MOST_RECORDS = 200


# ---- places and variables

def draw_places(picture, axis, plan):
    """The axis with its numbers, and the variables below it."""
    picture.text(8, 14, "byte of the file", 11, colour=PALE)
    labels = Labels()
    for part in axis.parts:
        picture.line(part.left, 20, part.right, 20)
        for place in part.ticks():
            x = part.x(place)
            picture.line(x, 16, x, 24)
            put_place(picture, labels, part, place)
    left, right = axis.header_span()
    picture.box(left, right, 12, 32, GREYS[0], f"header: bytes 0 to {axis.header}")
    picture.text((left + right) / 2, 25, "header", 11, "middle")
    picture.text((left + right) / 2, 38, f"0 to {axis.header}", 9 if axis.header < 1000 else 8, "middle")
    for x in axis.breaks():
        picture.zigzag(x, 10, 36)
    draw_variables(picture, axis, plan)
    picture.row(52)


def put_place(picture, labels, part, place):
    """The number of a place: at the ends of a part within it, where it would reach far out of it."""
    is_long = width_of(str(place), 11) > 44
    anchor = "start" if is_long and place == part.lo else "end" if is_long and place == part.hi else "middle"
    labels.put(picture, part.x(place), 12, str(place), anchor=anchor)


def variable_extents(axis, plan, variable):
    """The extents of a variable that the axis shows, each with its name."""
    begin, size, name = variable["begin"], variable["size"], text_of_name(variable["name"])
    if not variable["record"]:
        return [(begin, begin + size, name)]
    apart = max(1, plan["dataset"]["record_size"])
    numbers = sorted({number for part in axis.parts for number in range(max(0, (part.lo - begin) // apart), min(max(0, (part.hi - begin) // apart + 1), 1 << 31))
                      } if records_shown(axis, begin, apart) <= MOST_RECORDS else ())
    return [(begin + number * apart, begin + number * apart + size, f"{name}, record {number}") for number in numbers]


def records_shown(axis, begin, apart):
    return sum(max(0, part.hi - max(begin, part.lo)) // apart + 1 for part in axis.parts)


def draw_variables(picture, axis, plan):
    picture.text(8, 40, "variables", 11, colour=PALE)
    labels = Labels()
    for number, variable in enumerate(sorted(plan["dataset"]["variables"], key=lambda it: it["begin"])):
        for lo, hi, name in variable_extents(axis, plan, variable):
            for left, right in axis.spans(lo, hi):
                picture.box(left, right, 27, 17, GREYS[number % 2], f"{variable['type']} {name}: bytes {lo} to {hi}")
                for text in (name, text_of_name(variable["name"])):
                    if width_of(text, 11) + 4 <= right - left and labels.put(picture, (left + right) / 2, 40, text):
                        break


# ---- what ranks ask for

def pixel_runs(axis, extents):
    """Extents as they are drawn: (left, right, how much of it is covered), those that can't be told apart as one."""
    runs = []
    for left, right in (span for lo, hi in extents for span in axis.spans(lo, hi)):
        if runs and left - runs[-1][1] < 0.7 and (right - left < 1.4 or runs[-1][1] - runs[-1][0] < 1.4 or left - runs[-1][1] < 0.05):
            runs[-1][1] = max(runs[-1][1], right)
            runs[-1][2] += right - left
        else:
            runs.append([left, right, right - left])
    return [(left, right, min(1.0, inner / max(right - left, 1e-9))) for left, right, inner in runs]


def pieces_by_rank(windows):
    found = {}
    for window in windows:
        for rank, lo, hi in window["pieces"]:
            found.setdefault(rank, []).append((lo, hi))
    return found


def draw_rank_rows(picture, axis, phase, height):
    """A row for each rank that asks for something."""
    pieces = pieces_by_rank(windows_of(phase))
    for asked in phase["asked"]:
        rank = asked["rank"]
        if height >= 10:
            picture.text(8, height - 2, f"rank {rank}", 12)
            picture.text(66, height - 2, f"{asked['bytes']} B, {count(asked['pieces'], 'piece')}", 11, colour=PALE)
        elif rank % 4 == 0:
            picture.text(8, height + 2, f"rank {rank}", 9)
        for left, right, cover in pixel_runs(axis, merged(pieces.get(rank, []))):
            picture.box(left, right, 0, height - 1, hue(rank), f"rank {rank}: {asked['bytes']} bytes in {asked['pieces']} pieces", opacity=max(0.3, cover))
        picture.row(height + 2)


# ---- domains

def draw_domains(picture, axis, phase, word):
    """A line with a letter for each domain, and the numbers of its borders."""
    picture.text(8, 14, f"domains of the {word}", 12)
    labels = Labels()
    for domain in phase["domains"]:
        spans = list(axis.spans(domain["from"], domain["to"]))
        for left, right in spans:
            picture.line(left, 10, right, 10, width=2.4, dashes=dash(domain["aggregator"]))
        if spans:
            draw_domain_ends(picture, axis, domain, spans, labels)
    picture.row(34)


def draw_domain_ends(picture, axis, domain, spans, labels):
    """The letter in the widest part, the borders where they are shown, and their numbers."""
    left, right = max(spans, key=lambda it: it[1] - it[0])
    middle, name = (left + right) / 2, letter(domain["aggregator"])
    if right - left >= width_of(name, 13) + 6:
        half = width_of(name, 13) / 2 + 4
        picture.box(middle - half, middle + half, 1, 18, "white", f"aggregator {domain['aggregator']}: bytes {domain['from']} to {domain['to']}", INK)
        picture.text(middle, 15, name, 13, "middle", bold=True)
    low, high = spans[0][0], spans[-1][1]
    for x, place, is_low in (low, domain["from"], True), (high, domain["to"], False):
        if axis.is_shown(place):
            picture.line(x, 3, x, 17, width=1.6)
            labels.put(picture, x, 29, str(place))
        else:
            text = f"\u2190 {place}" if is_low else f"{place} \u2192"
            labels.put(picture, x, 29, text, anchor="start" if is_low else "end")


# ---- windows

def code_of(word, window):
    return "R" if word == "get" else "RW" if window["hole"] else "W"


def draw_windows(picture, axis, phase, word, first_label):
    """Each window by its hull: the bytes by rank, the holes hatched, and below it its number and what is done with it."""
    picture.text(8, 13, first_label, 12)
    labels = Labels()
    for domain in phase["domains"]:
        groups = window_groups(axis, domain["windows"])
        for group in groups:
            draw_group(picture, axis, domain, group, word, labels)
    picture.row(40)


def window_groups(axis, windows):
    """The windows as they are drawn: (number, window) by itself where it is wide enough, and else with its neighbours."""
    groups, is_open = [], False
    for number, window in enumerate(windows):
        is_narrow = sum(right - left for left, right in axis.spans(window["from"], window["to"])) < NARROW
        if is_narrow and is_open:
            groups[-1].append((number, window))
        else:
            groups.append([(number, window)])
        is_open = is_narrow
    return groups


def draw_group(picture, axis, domain, group, word, labels):
    windows = [window for _, window in group]
    lo, hi = windows[0]["from"], windows[-1]["to"]
    name = "" if domain["aggregator"] is None else letter(domain["aggregator"])
    if len(group) == 1:
        draw_window(picture, axis, windows[0], f"window {name}{group[0][0]}: hull {lo} to {hi}{', with a hole' if windows[0]['hole'] else ''}")
        told = f"{name}{group[0][0]} {code_of(word, windows[0])}"
    else:
        for left, right in axis.spans(lo, hi):
            picture.box(left, right, 0, 18, GREYS[1], f"{len(group)} windows from {lo} to {hi}", INK)
        told = f"{len(group)} windows, {sum(it['hole'] for it in windows)} RW" if word == "put" else f"{len(group)} windows"
    tell_window(picture, list(axis.spans(lo, hi)), lo, hi, told, labels)


def draw_window(picture, axis, window, title):
    for left, right in axis.spans(window["from"], window["to"]):
        picture.box(left, right, 0, 18, "url(#hole)" if window["hole"] else "white", title, INK)
    for lo, hi, ranks in layers(window["pieces"]):
        for number, rank in enumerate(ranks):
            for left, right in axis.spans(lo, hi):
                picture.box(left, right, 1 + 16 * number / len(ranks), 16 / len(ranks), hue(rank), title)


def layers(pieces):
    """The bytes of a window that the same ranks have: (from, to, ranks)."""
    events = sorted({edge for _, lo, hi in pieces for edge in (lo, hi)})
    if len(events) > 4000 or all(before[2] <= after[1] for before, after in zip(pieces, pieces[1:])):
        return [(lo, hi, [rank]) for rank, lo, hi in pieces]
    found = []
    for lo, hi in zip(events, events[1:]):
        ranks = sorted({rank for rank, a, b in pieces if a <= lo and hi <= b})
        if ranks:
            found.append((lo, hi, ranks))
    return found


def tell_window(picture, spans, lo, hi, told, labels):
    """Below a window what is done, and its ends where there is room."""
    left, right = spans[0][0], spans[-1][1]
    width = width_of(told, 11)
    is_told = labels.put(picture, (left + right) / 2, 31, told)
    if is_told and right - left >= width + width_of(f"{lo}{hi}", 10) + 24:
        picture.text(left + 2, 31, str(lo), 10, colour=PALE)
        picture.text(right - 2, 31, str(hi), 10, "end", PALE)


# ---- device calls by themselves

def draw_calls(picture, axis, calls, label):
    """Device calls in the order in which they are made: reads above, writes below, each with its number."""
    picture.text(8, 14, label, 12)
    labels = {"read": Labels(), "write": Labels()}
    for number, call in enumerate(calls):
        if call["call"] == "grow":
            continue
        lo, hi = call["place"], call["place"] + call["length"]
        dy = 0 if call["call"] == "read" else 18
        spans = list(axis.spans(lo, hi)) + ([axis.header_span()] if lo < axis.header else [])
        for left, right in spans:
            picture.box(left, right, dy, 14, "white" if call["call"] == "read" else GREYS[1], f"{call['call']} {call['length']} bytes at {lo}", INK)
        left, right = spans[-1] if spans else (LEFT, LEFT)
        labels[call["call"]].put(picture, (left + right) / 2, dy + 11, f"{number} {'R' if call['call'] == 'read' else 'W'}", 10)
    picture.row(40)
