"""Tables in the forms that they have in common: comma separated values, and HTML for a notebook."""

from __future__ import annotations

import csv
import io
from collections.abc import Iterable, Mapping, Sequence
from datetime import datetime
from html import escape
from itertools import islice
from typing import Any

from ._units import written

# How many rows a notebook shows.
MOST_ROWS = 60


def cell_of(value: Any) -> Any:
    """A value as it is printed: moments in ISO 8601, and nothing for none."""
    if isinstance(value, datetime):
        return written(value)
    return "" if value is None else value


def csv_of(names: Iterable[str], rows: Iterable[Iterable[Any]]) -> str:
    """Comma separated values."""
    lines = io.StringIO()
    writer = csv.writer(lines, lineterminator="\n")
    writer.writerow(names)
    writer.writerows([cell_of(cell) for cell in row] for row in rows)
    return lines.getvalue()


def html_of(columns: Mapping[str, Iterable[Any]], most: int | None = MOST_ROWS) -> str:
    """The first rows of a table in HTML, or all."""
    rows = list(islice(zip(*columns.values()), None if most is None else most + 1))
    head = "".join(f"<th>{escape(str(name))}</th>" for name in columns)
    shown = "".join(
        "<tr>" + "".join(f"<td>{escape(str(cell_of(cell)))}</td>" for cell in row) + "</tr>" for row in rows[:most]
    )
    more = f"<tr><td colspan='{len(columns)}'>&#8230;</td></tr>" if most is not None and len(rows) > most else ""
    return f"<table><thead><tr>{head}</tr></thead><tbody>{shown}{more}</tbody></table>"


def fields_html(fields: Mapping[str, Any]) -> str:
    """A table of names and values in HTML."""
    rows = "".join(
        f"<tr><th>{escape(name)}</th><td>{escape(str(cell_of(value)))}</td></tr>" for name, value in fields.items()
    )
    return f"<table><tbody>{rows}</tbody></table>"


def listed(words: Sequence[str], most: int = 10) -> str:
    """Some words, the first of them where they are many."""
    shown = ", ".join(words[:most])
    return shown if len(words) <= most else f"{shown} and {len(words) - most} more"
