"""The rows of the benchmark, and their sizes."""
import dataclasses
from typing import Callable, Optional

import scripts

GENERATE = "generate"      # the one whose script the program makes itself
SEED = "0"


@dataclasses.dataclass(frozen=True)
class Row:
    sizes: tuple                        # those of docs/SPEED.md
    small: int                          # one that takes little time
    lines: Optional[Callable] = None    # the script up to its end, of n and of the number of ranks
    is_alone: bool = False              # it has one rank
    opens: bool = False                 # its script opens a dataset
    changes: bool = False               # and changes it
    is_beside: bool = True              # PnetCDF does it, too
    any_order: bool = False             # on threads the steps come in any order


ROWS = {
    GENERATE: Row((12, 64), 1, is_beside=False),
    "fields": Row((1, 64), 2, scripts.fields),
    "blocks": Row((10,), 1, scripts.blocks),
    "cyclic_rows": Row((2 ** 15,), 2 ** 6, scripts.cyclic_rows),
    "cyclic_columns": Row((2 ** 16, 2 ** 20), 2 ** 12, scripts.cyclic_columns),
    "aggregators": Row((16,), 2, scripts.aggregators),
    "varn": Row((10,), 1, scripts.varn),
    "fill": Row((64,), 1, scripts.fill),
    "small": Row((100, 1000), 16, scripts.small),
    "variables": Row((512,), 16, scripts.variables),
    "steps": Row((1000,), 16, scripts.steps),
    "posted": Row((20,), 1, scripts.posted),
    "independent": Row((1000,), 16, scripts.independent, any_order=True),
    "calls": Row((2 ** 15,), 2 ** 6, scripts.calls, is_alone=True),
    "waits": Row((2 ** 15,), 2 ** 6, scripts.waits, is_alone=True, is_beside=False),
    "numbers": Row((4,), 1, scripts.numbers, is_alone=True),
    "attributes": Row((2 ** 12,), 2 ** 6, scripts.attributes, is_alone=True, opens=True, changes=True),
    "header": Row((2 ** 13,), 2 ** 6, scripts.header, is_alone=True, opens=True),
    "reads": Row((64, 256), 2, scripts.reads, opens=True),
    "reads_by_mib": Row((64,), 2, scripts.reads_by_mib, opens=True),
    "block_reads": Row((1,), 1, scripts.block_reads, opens=True),
    "column": Row((2 ** 18,), 2 ** 6, scripts.column, is_alone=True, opens=True),
}


def script(row, n, ranks, threads):
    """The script of a row, with ranks and aggregators on threads or in turn."""
    lines = ROWS[row].lines(n, ranks)
    lines.insert(lines.index("data"), f"hint threads {threads}")
    return "\n".join([*lines, "end", ""])
