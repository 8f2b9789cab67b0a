"""Missions in TOML, CSV and data frames; each fault has its file and line, or its row."""

from __future__ import annotations

import csv
import io
import os
import re
import tomllib
from collections.abc import Callable, Iterable, Mapping
from dataclasses import fields
from functools import partial
from pathlib import Path
from typing import Any, TypeVar

from ._data import is_text, rows
from ._units import Fault, MissionError, fault, moment_of, whole_of
from .mission import Mission, Observation, PacketStore, Pass, Station
from .setups import Route

Part = TypeVar("Part", PacketStore, Station, Pass, Observation)

# The tables of a mission by their keys in a file, with the fields of a mission and what their rows are.
TABLES: dict[str, tuple[str, type[Any]]] = {
    "store": ("stores", PacketStore),
    "station": ("stations", Station),
    "pass": ("passes", Pass),
    "observation": ("observations", Observation),
}
PLAIN = ("name", "begin", "end", "packet", "block", "overlap", "unit")
# What reads the keys at the top that are no names.
READ: dict[str, Callable[[Any, str], Any]] = {
    "begin": moment_of,
    "end": moment_of,
    "packet": whole_of,
    "block": whole_of,
    "unit": whole_of,
}
# Columns for the rates of channels.
CHANNEL = re.compile(r"channel:([0-7])\Z")


def mission_in(path: str | os.PathLike[str]) -> Mission:
    """The mission that a TOML file says."""
    try:
        file = Path(os.fsdecode(path))
    except TypeError as error:
        raise fault("", path, "the path of a TOML file") from error
    try:
        text = file.read_bytes().decode("utf-8-sig")
        given = tomllib.loads(text)
    except OSError as error:
        raise fault(str(file), error.strerror or "no file", "a file that can be read") from error
    except UnicodeDecodeError as error:
        raise fault(str(file), "octets that are no UTF-8", "a TOML document in UTF-8") from error
    except tomllib.TOMLDecodeError as error:
        raise fault(str(file), str(error), "a TOML document (toml.io)") from error
    places = _Places(file, text)
    faults: list[Fault] = []
    files = [plural for plural, _ in TABLES.values()]
    for key in given:
        if key not in (*PLAIN, *TABLES, "route", *files):
            meant = f"one of {', '.join((*PLAIN, *TABLES))}, or the name of a CSV file as {', '.join(files)}"
            faults.append(Fault(places.key(key), f"the key {key}", meant))
    plain = {key: given[key] for key in PLAIN if key in given}
    for key, make in READ.items():
        if key in plain:
            try:
                plain[key] = make(plain[key], places.key(key))
            except MissionError as error:
                faults += error.faults
                del plain[key]
    parts: dict[str, list[Any]] = {}
    for key, (plural, kind) in TABLES.items():
        found = given.get(key, [])
        if not isinstance(found, list) or not all(isinstance(row, dict) for row in found):
            faults.append(Fault(places.key(key), f"{key} = {found!r}", f"tables, each below [[{key}]]"))
            found = []
        placed = [(places.row(key, number), row) for number, row in enumerate(found, 1)]
        parts[plural] = list(_parts(kind, placed, faults, partial(places.inside, key)))
        if plural in given:
            parts[plural] += _named_file(kind, file.parent, given[plural], places.key(plural), faults)
    routes = tuple(_routes(given.get("route", []), places, faults))
    return _made({**parts, **plain, "routes": routes}, faults, str(file), places.found)


def mission_of(**given: Any) -> Mission:
    """The mission of tables."""
    faults: list[Fault] = []
    made = dict(given)
    for plural, kind in TABLES.values():
        table = given.get(plural, ())
        if isinstance(table, (str, os.PathLike)):
            made[plural] = _csv_parts(kind, Path(os.fsdecode(table)), faults)
        else:
            try:
                listed = [*table] if _is_list(table) else rows(table)
            except ValueError as error:
                faults.append(
                    Fault(
                        plural,
                        str(error),
                        f"a table: a list of {kind.__name__} or of dicts, a dict of columns, or a data frame",
                    )
                )
                listed = []
            placed = [(f"row {number} of {plural}", row) for number, row in enumerate(listed, 1)]
            made[plural] = list(_parts(kind, placed, faults, lambda place, name: f"{place}, {name}"))
    return _made(made, faults, "the mission")


def _is_list(table: Any) -> bool:
    """Whether a table is a list of its rows, and no text, columns or data frame."""
    is_other = is_text(table) or isinstance(table, Mapping) or hasattr(table, "columns")
    return isinstance(table, Iterable) and not is_other


def _made(fields: dict[str, Any], faults: list[Fault], place: str, found: Callable[[str], str] = str) -> Mission:
    """The mission of these parts. What is wrong with all of it is told after the faults of its parts, at the places
    that are `found` for theirs."""
    try:
        made = Mission(**fields, place=place)
    except MissionError as error:
        # a part that is left out for its fault makes others seem wrong
        more = [Fault(found(each.place), each.found, each.meant) for each in error.faults]
        raise MissionError([*faults, *(more if not faults else ())]) from None
    if faults:
        raise MissionError(faults)
    return made


def _named_file(kind: type[Part], folder: Path, given: Any, place: str, faults: list[Fault]) -> list[Part]:
    if not isinstance(given, str):
        faults.append(Fault(place, repr(given), "the name of a CSV file"))
        return []
    return _csv_parts(kind, folder / given, faults)


def _csv_parts(kind: type[Part], path: Path, faults: list[Fault]) -> list[Part]:
    """The parts that a CSV file has, a row for each."""
    try:
        text = path.read_bytes().decode("utf-8-sig")
    except (OSError, UnicodeDecodeError) as error:
        faults.append(
            Fault(
                str(path),
                getattr(error, "strerror", None) or "octets that are no UTF-8",
                "a CSV file in UTF-8 that can be read",
            )
        )
        return []
    reader = csv.reader(io.StringIO(text, newline=""))
    header = [name.strip() for name in next(reader, [])]
    twice = sorted({name for name in header if header.count(name) > 1})
    if twice:
        faults.append(Fault(f"{path}, line 1", f"the column {', '.join(twice)} twice", "each column once"))
        return []
    placed: list[tuple[str, dict[str, Any]]] = []
    for cells in reader:
        place = f"{path}, line {reader.line_num}"
        if not any(cell.strip() for cell in cells):
            continue
        if len(cells) != len(header):
            faults.append(Fault(place, f"{len(cells)} cells", f"{len(header)}, as in the header {','.join(header)}"))
            continue
        placed.append((place, {name: cell.strip() for name, cell in zip(header, cells) if cell.strip()}))
    if not header:
        faults.append(Fault(str(path), "no header", f"a header with the columns {', '.join(_columns(kind))}"))
    return list(_parts(kind, placed, faults, lambda place, name: f"{place}, column {name}"))


def _columns(kind: type[Any]) -> list[str]:
    return [field.name for field in fields(kind) if field.name != "place"]


def _parts(
    kind: type[Part], placed: list[tuple[str, Any]], faults: list[Fault], inside: Callable[[str, str], str]
) -> Iterable[Part]:
    """The parts of these rows that are right; the faults of the others are added. A key that is none is named once."""
    named: set[str] = set()
    for place, row in placed:
        if isinstance(row, kind):
            yield row
            continue
        if not isinstance(row, Mapping):
            faults.append(Fault(place, repr(row), f"a {kind.__name__} or its fields"))
            continue
        found = {str(key): value for key, value in row.items() if not _is_missing(value)}
        strange = [
            key
            for key in found
            if key not in _columns(kind) and not (CHANNEL.match(key) and "channels" in _columns(kind))
        ]
        for key in strange:
            if key not in named:
                faults.append(Fault(inside(place, key), f"the key {key}", f"one of {', '.join(_columns(kind))}"))
            named.add(key)
            del found[key]
        try:
            part = _part(kind, found, place, inside)
        except MissionError as error:
            faults += error.faults
            continue
        if not strange:
            yield part


def _part(kind: type[Part], found: dict[str, Any], place: str, inside: Callable[[str, str], str]) -> Part:
    """One part of its fields."""
    rates = {match[1]: found.pop(key) for key in list(found) if (match := CHANNEL.match(key))}
    needed = {
        "PacketStore": ("id", "size"),
        "Station": ("name",),
        "Pass": ("station", "begin", "end"),
        "Observation": ("store", "begin", "end"),
    }
    for name in needed[kind.__name__]:
        if name not in found:
            raise fault(
                place, f"no {name}", f"{name}, beside {', '.join(key for key in _columns(kind) if key != name)}"
            )
    for name in ("id", "type", "name", "station", "store"):
        if name in found and not isinstance(found[name], str):
            raise fault(inside(place, name), repr(found[name]), "a text in quotes")
    if rates:
        channels = found.get("channels", {})
        if not isinstance(channels, Mapping):
            raise fault(inside(place, "channels"), repr(channels), 'the rates of channels, as {1 = "20 kbit/s"}')
        found["channels"] = {**channels, **rates}
    try:
        return kind(**found, place=place)
    except MissionError as error:
        raise MissionError(_placed(each, place, inside) for each in error.faults) from None


def _placed(each: Fault, place: str, inside: Callable[[str, str], str]) -> Fault:
    """The fault with the place of its key."""
    name = each.place.removeprefix(f"{place}, ").split(",")[0]
    return Fault(inside(place, name), each.found, each.meant) if each.place != place else each


def _is_missing(value: Any) -> bool:
    """Whether a data frame has nothing here: None, or what is not itself, as nan, or neither is nor is not, as NA of
    pandas."""
    if value is None or isinstance(value, (str, Mapping)):
        return value is None
    try:
        return bool(value != value)
    except TypeError:
        return True


def _routes(given: Any, places: _Places, faults: list[Fault]) -> Iterable[Route]:
    for number, row in enumerate(given if isinstance(given, list) else [given], 1):
        try:
            yield Route(**row)
        except TypeError:
            faults.append(Fault(places.row("route", number), repr(row), "apid, service, subtype and store"))


class _Places:
    """Where the tables and keys of a TOML text stand."""

    def __init__(self, file: Path, text: str) -> None:
        self._file = file
        self._keys: dict[tuple[str, int, str], int] = {}
        self._rows: dict[str, list[int]] = {}
        table, number = "", 0
        for line, words in enumerate(text.splitlines(), 1):
            head = re.match(r"\s*\[\[\s*([\w-]+)\s*\]\]", words)
            key = re.match(r"\s*\"?([\w-]+)\"?\s*(?:\.|=)", words)
            if head:
                table = head[1]
                self._rows.setdefault(table, []).append(line)
                number = len(self._rows[table])
            elif key:
                self._keys.setdefault((table, number, key[1]), line)

    def row(self, table: str, number: int) -> str:
        """The place of a table of an array."""
        lines = self._rows.get(table, [])
        return f"{self._file}, line {lines[number - 1]}" if number <= len(lines) else f"{self._file}, {table} {number}"

    def key(self, key: str) -> str:
        """The place of a key at the top."""
        line = self._keys.get(("", 0, key)) or next(iter(self._rows.get(key, [])), None)
        return f"{self._file}, line {line}, {key}" if line else f"{self._file}, {key}"

    def found(self, place: str) -> str:
        """The place of a key of the file, or of one of its tables, which is named after that of the file or of the
        table."""
        whole, _, key = place.rpartition(", ")
        if not whole:
            return place
        if whole == str(self._file) and key.isidentifier():
            return self.key(key)
        for table in self._rows:
            found = self.inside(table, whole, key)
            if found != place:
                return found
        return place

    def inside(self, table: str, place: str, key: str) -> str:
        """The place of a key of the table that has this place."""
        for number, line in enumerate(self._rows.get(table, []), 1):
            if place == f"{self._file}, line {line}":
                at = self._keys.get((table, number, key))
                return f"{self._file}, line {at}, {key}" if at else f"{place}, {key}"
        return f"{place}, {key}"
