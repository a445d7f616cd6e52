"""Files in the netCDF classic format, from the command line.

  python -m ncclassic check FILE..                   says what each file's header holds, or what is wrong with it
  python -m ncclassic references FILE [TARGET]       writes the byte ranges of its variables as kerchunk's JSON, for a file that lies at TARGET (FILE)

The status is 0 where all is well, 1 where a header is not sound, 2 where a file can't be read or the words are others.
"""
from __future__ import annotations

import json
import sys
from typing import Callable, Optional, Sequence

from .faults import HeaderError
from .header import Header
from .references import references


def check(path: str) -> None:
    header = Header.read(path)
    counts = f"{len(header.dimensions)} dimensions, {len(header.variables)} variables, {header.records} records"
    print(f"{path}: CDF-{header.version}, {counts}, {header.layout().end} bytes")


def write_references(path: str, target: str) -> None:
    json.dump(references(Header.read(path), target), sys.stdout, indent=1)
    print()


def status_of(path: str, action: Callable[[], None]) -> int:
    try:
        action()
        return 0
    except HeaderError as error:
        print(f"{path}: {error}", file=sys.stderr)
        return 1
    except OSError as error:
        print(f"{path}: {error.strerror or error}", file=sys.stderr)
        return 2


def main(words: Optional[Sequence[str]] = None) -> int:
    verb, *paths = list(sys.argv[1:] if words is None else words) or [""]
    if verb == "check" and paths:
        return max(status_of(path, lambda: check(path)) for path in paths)
    if verb == "references" and 1 <= len(paths) <= 2:
        return status_of(paths[0], lambda: write_references(paths[0], paths[-1]))
    print(__doc__.strip() if __doc__ else "", file=sys.stderr)
    return 2


if __name__ == "__main__":
    sys.exit(main())
