"""The sums of one plan, or of two with what the second has more."""
from plan_document import hint
from plan_picture import INK, LEFT, PALE, RIGHT, width_of

# How wide the names of sums are, and each column of numbers at least.
NAMES, COLUMN = 280, 110


def rows_of(sums):
    """The sums by name."""
    reads, writes, naive_reads, naive_writes = (sums[it] for it in ("reads", "writes", "naive_reads", "naive_writes"))
    return [
        ("reads", reads["calls"]), ("bytes read", reads["bytes"]), ("shortest read", reads["least"]), ("longest read", reads["most"]),
        ("writes", writes["calls"]), ("bytes written", writes["bytes"]), ("shortest write", writes["least"]), ("longest write", writes["most"]),
        ("reads and writes that begin off the striping unit", reads["unaligned"] + writes["unaligned"]),
        ("bytes read beside what is got", sums["read_beside"]), ("bytes written beside what is put", sums["written_beside"]),
        ("naive reads, one for each piece", naive_reads["calls"]), ("bytes of naive reads", naive_reads["bytes"]),
        ("naive writes, one for each piece", naive_writes["calls"]), ("bytes of naive writes", naive_writes["bytes"]),
        ("times that the file grows", sums["grows"]),
    ]


def table_of(plans):
    """The rows of the table: a name, a number for each plan, and of two plans the difference."""
    columns = [rows_of(plan["sums"]) for plan in plans]
    for named in zip(*columns):
        numbers = [number for _, number in named]
        yield named[0][0], [str(it) for it in numbers] + ([f"{numbers[1] - numbers[0]:+d}" if numbers[1] != numbers[0] else "0"] if len(plans) == 2 else [])


def hint_rows(plans):
    """The hints in force, and their defaults in the first plan."""
    for it in plans[0]["hints"]:
        yield it["name"], [str(hint(plan, it["name"])) for plan in plans], str(it["default"])


def draw_sums(picture, plans, names):
    """The table of sums without the rows of zeros: of one plan in two columns, of two with the difference."""
    picture.line(8, 0, RIGHT, 0, "#bbbbbb")
    picture.text(8, 17, "sums", 14, bold=True)
    rows = [(name, numbers) for name, numbers in table_of(plans) if any(it != "0" for it in numbers)]
    if len(plans) == 2:
        heads = [*names, "difference"]
        column = max(COLUMN, *(1.15 * width_of(it) + 16 for it in heads))
        draw_row(picture, LEFT, 17, column, "", heads, True)
        picture.row(24)
        draw_rows(picture, LEFT, column, rows)
    else:
        picture.row(6)
        half, top = len(rows) // 2, picture.y
        draw_rows(picture, LEFT + NAMES + COLUMN + 90, COLUMN, rows[len(rows) - half:])
        picture.y = top
        draw_rows(picture, LEFT, COLUMN, rows[:len(rows) - half])
    picture.row(6)


def draw_rows(picture, left, column, rows):
    for name, numbers in rows:
        draw_row(picture, left, 12, column, name, numbers)
        picture.row(17)


def draw_row(picture, left, dy, column, name, texts, bold=False):
    picture.text(left, dy, name, 12)
    for number, text in enumerate(texts):
        picture.text(left + NAMES + column * (number + 1), dy, text, 12, "end", PALE if text == "0" else INK, bold)
