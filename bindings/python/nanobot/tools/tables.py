"""Tables of text for people."""

from __future__ import annotations

import csv
import io
import json
import os
from typing import Dict, Iterator, List, Sequence


def aligned(rows: List[List[str]]) -> Iterator[str]:
    """Yields the lines of a table: the first column is aligned to the left, the others to the right."""
    widths = [max(map(len, column)) for column in zip(*rows)]
    for row in rows:
        yield "  ".join(
            [row[0].ljust(widths[0]), *(cell.rjust(width) for cell, width in zip(row[1:], widths[1:]))]
        ).rstrip()


def share(part: int, whole: int) -> str:
    """Returns a part of a whole in per cent."""
    return f"{100 * part / whole:.1f} %" if whole else "-"


def as_json(records: Sequence[Dict[str, object]]) -> str:
    """Returns the records as a list of JSON."""
    return json.dumps(records, indent=2)


def as_csv(records: Sequence[Dict[str, object]]) -> str:
    """Returns the records as lines with commas, below the names of their fields."""
    out = io.StringIO()
    writer = csv.DictWriter(out, list(records[0]) if records else [], lineterminator="\n")
    writer.writeheader()
    writer.writerows(records)
    return out.getvalue().rstrip("\n")


def printable(text: str) -> str:
    """Returns the text with a mark for each byte of a file's name that is no text."""
    return os.fsencode(text).decode(errors="replace")
