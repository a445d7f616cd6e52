"""The tables of the benchmark: how numbers stand in them, what they depend on, and the page that they go to."""
import os, platform, statistics, subprocess, sys


class Differs(Exception):
    """A program did not end well, or two did not do the same."""


def plain(number):
    """A number with three digits, or with all in front of the point; one below a tenth with two that are not 0, as far as thousandths."""
    if 0.001 <= number < 0.1:
        return f"{number:.2g}"
    return f"{number:.{max(0, 2 - max(0, len(str(int(number))) - 1))}f}"


def median(numbers):
    return plain(statistics.median(numbers)) if numbers else "-"


def spread(numbers):
    """The median, and the least and the greatest where there are several."""
    middle = median(numbers)
    return f"{middle} ({plain(min(numbers))} to {plain(max(numbers))})" if len(numbers) > 1 else middle


def ratio(numbers, others):
    """How many times the median of others that of numbers is."""
    return statistics.median(numbers) / max(statistics.median(others), 0.001) if numbers and others else None


def told(number):
    return "-" if number is None else plain(number)


class Table:
    """Lines of cells below titles. The first column stands to the left."""

    def __init__(self, caption, titles, widths):
        self.widths = [max(len(title), width) for title, width in zip(titles, widths)]
        self.lines = [f"**{caption}**", "", self.line(titles), "|---|" + "---:|" * (len(titles) - 1)]

    def line(self, cells):
        first, *rest = zip(cells, self.widths)
        return "| " + " | ".join([first[0].ljust(first[1])] + [cell.rjust(width) for cell, width in rest]) + " |"

    def add(self, cells):
        self.lines.append(self.line(cells))


def machine(room, runs):
    """What the numbers depend on."""
    model = "a processor"
    if os.path.exists("/proc/cpuinfo"):
        with open("/proc/cpuinfo", encoding="utf-8", errors="replace") as lines:
            model = next((it.split(":", 1)[1].strip() for it in lines if it.startswith("model name")), model)
    kind = subprocess.run(["df", "--output=fstype", room], stdout=subprocess.PIPE, encoding="utf-8", check=False).stdout.split()
    return (f"Runs of each: {runs}. Machine: {os.cpu_count()} processors, {model}; {platform.system()} {platform.release()}; "
            f"datasets on {kind[-1] if kind else 'a file system'}; load at the end {os.getloadavg()[0]:.1f}.")


def around_table(page, marks):
    """The page's text up to the first of the two marks, and from the second one on."""
    if os.path.isfile(page):
        with open(page, encoding="utf-8") as file:
            text = file.read()
        if text.count(marks[0]) == 1 and marks[1] in text.split(marks[0])[1]:
            front, rest = text.split(marks[0])
            _, found, back = rest.partition(marks[1])
            return front + marks[0], found + back
    sys.exit(f"bench: {page} is no page with the two marks")


def put_on_page(page, marks, lines):
    front, back = around_table(page, marks)
    with open(page, "w", encoding="utf-8") as file:
        file.write("\n".join([front, "", *lines, "", back]))


def begins_as(path, whole):
    """Whether a file is a beginning of the other one, or all of it."""
    with open(path, "rb") as one, open(whole, "rb") as other:
        while block := one.read(1 << 20):
            if block != other.read(len(block)):
                return False
    return True
