"""A report as text, and as a page of HTML that stands alone."""
import html

from .advice import size_word
from .reporting import SUMS

COLUMNS = ("step", "call", "variables", "ranks", "pieces a rank", "bytes a rank", "aggregators", "bytes of one", "windows", "holes", "reads",
           "writes", "bytes moved", "seconds")
STYLE = """body { font: 15px/1.45 sans-serif; margin: 2em auto; max-width: 75em; color: #222; padding: 0 1em }
table { border-collapse: collapse; margin: 1em 0; font-size: 13px } th, td { padding: 3px 9px; text-align: right; border-bottom: 1px solid #ddd }
th { background: #f3f3f3 } .word { text-align: left } h2 { margin-top: 2em }
.advice li { margin: .4em 0 } .scroll { overflow-x: auto } svg { max-width: 100%; height: auto }"""


def spread_word(spread, show=str):
    if spread.count == 0:
        return "-"
    return show(spread.least) if spread.least == spread.most else "%s to %s" % (show(spread.least), show(spread.most))


def step_row(step, parts):
    mark = step.mark if parts == 1 else "%d:%s" % (step.part + 1, step.mark)
    aggregators = str(step.aggregators.count) if step.collective else "-"
    return [mark, step.name, ", ".join(step.variables), str(step.bytes.count), spread_word(step.pieces), spread_word(step.bytes), aggregators,
            spread_word(step.aggregators) if step.collective else "-", str(step.windows), str(step.holes), str(step.reads.count),
            str(step.writes.count), str(step.reads.total + step.writes.total), "-" if step.seconds is None else "%.6f" % step.seconds]


def tables(report):
    """The tables of a report: a title, the names of columns, and the rows."""
    parts = len(report.plans)
    yield "Each call, in order", COLUMNS, [step_row(step, parts) for step in report.steps]
    yield "Device calls under other hints", ("hints",) + SUMS, [[name] + list(map(str, sums)) for name, sums in report.hint_sets]
    slowest = report.slowest()
    if slowest:
        yield "The slowest calls", ("step", "call", "variables", "seconds", "bytes"), [
            [s.mark, s.name, ", ".join(s.variables), "%.6f" % s.seconds, str(s.bytes.total)] for s in slowest]


def lists(report):
    """Lists of lines with their titles."""
    yield "Advice", report.advice() or ["Nothing of note."]
    planned, unknown = report.hints()
    lines = ["in the plan: " + ", ".join("%s %s" % pair for pair in planned.items())]
    if unknown:
        lines.append("in force in the run, and unknown to the plan: " + ", ".join("%s %s" % pair for pair in unknown.items()))
    yield "Hints", lines
    if report.remarks:
        yield "Remarks", report.remarks


def summary(report):
    sums = dict(zip(SUMS, report.hint_sets[0][1]))
    asked = sum(step.bytes.total for step in report.steps)
    return "%d steps ask for %s; the disk sees %d reads of %s and %d writes of %s." % (
        len(report.steps), size_word(asked), sums["reads"], size_word(sums["read bytes"]), sums["writes"], size_word(sums["written bytes"]))


# ---- text

def table_text(columns, rows):
    widths = [max(map(len, column)) for column in zip(columns, *rows)]
    for row in [columns] + rows:
        yield "  " + "  ".join(word.ljust(w) if k < 3 else word.rjust(w) for k, (word, w) in enumerate(zip(row, widths))).rstrip()


def text_of(report):
    lines = [report.shown + ":"]
    if report.fault:
        return "\n".join(lines + ["  no report: " + report.fault, ""])
    lines += ["  " + summary(report)]
    for title, told in lists(report):
        lines += ["", title] + ["  " + line for line in told]
    for title, columns, rows in tables(report):
        lines += ["", title] + list(table_text(columns, rows))
    return "\n".join(lines + [""])


# ---- HTML

def table_html(title, columns, rows):
    numeric = [all(row[k][:1].isdigit() or row[k] == "-" for row in rows) for k in range(len(columns))]

    def row(words, cell):
        kinds = [cell if number else cell + " class=word" for number in numeric]
        return "<tr>%s</tr>" % "".join("<%s>%s</%s>" % (kind, html.escape(word), cell) for kind, word in zip(kinds, words))
    return "<h3>%s</h3><div class=scroll><table>%s</table></div>" % (
        html.escape(title), "\n".join([row(columns, "th")] + [row(words, "td") for words in rows]))


def list_html(title, told):
    return "<h3>%s</h3><ul class=advice>%s</ul>" % (html.escape(title), "".join("<li>%s</li>" % html.escape(line) for line in told))


def report_html(report):
    head = "<h2>%s</h2>" % html.escape(report.shown)
    if report.fault:
        return head + "<p>No report: %s</p>" % html.escape(report.fault)
    body = ["<p>%s</p>" % html.escape(summary(report))]
    body += [list_html(title, told) for title, told in lists(report)]
    body += [table_html(title, columns, rows) for title, columns, rows in tables(report)]
    body += ["<h3>The plan, drawn</h3><div class=scroll>%s</div>" % svg for svg in report.pictures()]
    return head + "\n".join(body)


def page_of(reports):
    return "<!DOCTYPE html>\n<html lang=en><head><meta charset=utf-8><title>Report of a traced run</title><style>%s</style></head><body>\n" \
        "<h1>What a traced run does to the disk</h1>\n%s\n</body></html>\n" % (STYLE, "\n".join(map(report_html, reports)))
