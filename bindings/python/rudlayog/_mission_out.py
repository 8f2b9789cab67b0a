"""A mission as the text of a TOML file, and its tables as comma separated values. Both are read as the same mission."""

from __future__ import annotations

import csv
import io
import json
from collections.abc import Iterable, Iterator
from datetime import datetime
from typing import TYPE_CHECKING, Any

from ._units import Rate, Volume, fault, written

if TYPE_CHECKING:
    from .mission import Mission

# The tables, by their names in a mission: the key in a file, and the columns.
TABLES = {
    "stores": ("store", ("id", "size", "type", "channel", "holds", "packet")),
    "stations": ("station", ("name", "rate", "channels")),
    "passes": ("pass", ("station", "begin", "end", "rate", "channels", "name")),
    "observations": ("observation", ("store", "begin", "end", "rate", "volume", "name")),
}
PLAIN = ("name", "begin", "end", "packet", "block", "overlap", "unit")


def _value(given: Any) -> str:
    """A value as TOML."""
    if isinstance(given, (Volume, Rate)):
        return json.dumps(given.text())
    if isinstance(given, datetime):
        return written(given)
    if isinstance(given, str):
        return json.dumps(given, ensure_ascii=False).replace("\x7f", "\\u007F")
    if isinstance(given, dict):
        return "{ " + ", ".join(f"{key} = {_value(value)}" for key, value in given.items()) + " }"
    return str(given)


def _lines(part: Any, names: Iterable[str]) -> Iterator[str]:
    """The keys of a part that say something."""
    for name in names:
        value = getattr(part, name)
        if value not in (None, "", {}, ()) and (name != "unit" or value):
            yield f"{name} = {_value(value)}\n"


def toml_of(mission: Mission) -> str:
    """The text of a mission."""
    parts = ["".join(_lines(mission, PLAIN))]
    for name, (key, columns) in TABLES.items():
        parts += [f"[[{key}]]\n" + "".join(_lines(part, columns)) for part in getattr(mission, name)]
    parts += [
        "[[route]]\n" + "".join(_lines(route, ("apid", "service", "subtype", "store"))) for route in mission.routes
    ]
    return "\n".join(parts)


def csv_table_of(mission: Mission, table: str) -> str:
    """A table of a mission."""
    if not isinstance(table, str) or table not in TABLES:
        raise fault("", f"the table {table!r}", f"one of {', '.join(TABLES)}")
    parts = getattr(mission, table)
    names = [name for name in TABLES[table][1] if name != "channels"]
    channels = sorted({channel for part in parts for channel in getattr(part, "channels", ())})
    lines = io.StringIO()
    writer = csv.writer(lines, lineterminator="\n")
    writer.writerow([*names, *(f"channel:{channel}" for channel in channels)])
    for part in parts:
        rates = [part.channels.get(channel) for channel in channels]
        writer.writerow([_cell(value) for value in (*(getattr(part, name) for name in names), *rates)])
    return lines.getvalue()


def _cell(value: Any) -> Any:
    if isinstance(value, (Volume, Rate)):
        return value.text()
    return written(value) if isinstance(value, datetime) else "" if value is None else value
