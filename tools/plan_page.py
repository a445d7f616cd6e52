"""The whole picture of one or two plans, as SVG or as an HTML page that stands alone."""
from html import escape

from plan_axis import Axis
from plan_document import changed_hints
from plan_picture import LEFT, PALE, RIGHT, Picture, count
from plan_rows import draw_places
from plan_steps import draw_legend, draw_opening, draw_step
from plan_sums import draw_sums, hint_rows, table_of

MOST_STEPS = 60
# Of a step so many device calls stand on the page.
MOST_CALLS = 1000
STYLE = """body { font-family: sans-serif; color: #222; max-width: 1200px; margin: 1em auto; }
table { border-collapse: collapse; } td, th { padding: 2px 14px 2px 0; text-align: left; } td.number, th.number { text-align: right; font-variant-numeric: tabular-nums; }
svg { max-width: 100%; height: auto; } pre { margin: 0.3em 0 0.8em 1em; }"""


# ---- the picture

def draw_title(picture, plan, name):
    dataset = plan["dataset"]
    picture.text(8, 16, name, 15, bold=True)
    told = f"{count(plan['ranks'], 'rank')}, CDF-{dataset['version']}, {count(dataset['length'], 'byte')}; " + (changed_hints(plan) or "hints as they are by default")
    picture.text(LEFT, 16, told, 13, colour=PALE)
    picture.row(26)


def paired(plans, chosen):
    """The steps of the plans by their number: (number, a step for each plan or None), those that are chosen."""
    longest = max(len(plan["steps"]) for plan in plans)
    for number in range(longest):
        steps = [plan["steps"][number] if number < len(plan["steps"]) else None for plan in plans]
        if not chosen or any(it and it["mark"] in chosen for it in steps):
            yield number, steps


def picture_of(plans, names, chosen):
    """The picture as SVG."""
    picture, axis = Picture(), Axis(plans, LEFT, RIGHT)
    for plan, name in zip(plans, names):
        draw_title(picture, plan, name)
    draw_legend(picture, plans)
    draw_places(picture, axis, plans[0])
    if not chosen:
        draw_opening(picture, axis, plans, names, "opening", "opening")
    shown = list(paired(plans, chosen))
    for number, steps in shown[:MOST_STEPS]:
        draw_step(picture, axis, number, steps, names)
    if len(shown) > MOST_STEPS:
        picture.text(8, 14, f"{len(shown) - MOST_STEPS} more steps are not drawn: --steps names those that are", 12)
        picture.row(26)
    if not chosen:
        draw_opening(picture, axis, plans, names, "close", "close")
    draw_sums(picture, plans, names)
    return picture.svg()


# ---- the page

def row_of(cells, tag="td"):
    first, *others = cells
    return f"<tr><{tag}>{escape(first)}</{tag}>" + "".join(f'<{tag} class="number">{escape(it)}</{tag}>' for it in others) + "</tr>"


def table(head, rows):
    return "\n".join(["<table>", row_of(head, "th"), *map(row_of, rows), "</table>"])


def told_call(call):
    return f"grow to {call['length']}" if call["call"] == "grow" else f"{call['call']} {call['length']} bytes at {call['place']}"


def calls_of(title, calls):
    """The device calls below a line that opens them."""
    if not calls:
        return ""
    told = [told_call(it) for it in calls[:MOST_CALLS]] + [f"and {len(calls) - MOST_CALLS} more"] * (len(calls) > MOST_CALLS)
    return f"<details><summary>{escape(title)}: {count(len(calls), 'device call')}</summary><pre>{escape(chr(10).join(told))}</pre></details>"


def all_calls(plan, name):
    parts = [calls_of("opening", plan["opening"]), *(calls_of(it["mark"], it["device"]) for it in plan["steps"][:MOST_STEPS]), calls_of("close", plan["close"])]
    return "\n".join([f"<h2>Device calls of {escape(name)}</h2>", *filter(None, parts)])


def page_of(plans, names, chosen):
    """The page as HTML, with the picture in it."""
    difference = ["difference"] if len(plans) == 2 else []
    return "\n".join([
        "<!DOCTYPE html>", '<html lang="en"><head><meta charset="utf-8">', f"<title>{escape(' and '.join(names))}</title>", f"<style>{STYLE}</style></head><body>",
        picture_of(plans, names, chosen),
        "<h2>Sums</h2>", table(["", *names, *difference], ([name, *numbers] for name, numbers in table_of(plans))),
        "<h2>Hints</h2>", table(["", *names, "default"], ([name, *values, default] for name, values, default in hint_rows(plans))),
        *(all_calls(plan, name) for plan, name in zip(plans, names)),
        "</body></html>", ""])
