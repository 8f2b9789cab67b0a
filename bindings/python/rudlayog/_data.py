"""Texts as octets, and plain data as numbers, columns and rows. What is no such data raises an error that names its
place and its value."""

from __future__ import annotations

import csv
import io
import operator
import os
from collections.abc import ItemsView, Iterable, Iterator, Mapping
from functools import cached_property
from pathlib import Path
from types import MappingProxyType
from typing import Any, Protocol, SupportsFloat, SupportsIndex

from ._brief import cut

# A text: its octets, its characters, or the file that has it. A str with a line end in it is the text itself; one
# without names a file.
Text = bytes | bytearray | memoryview | str | os.PathLike[str]

# A packet: its octets, whatever holds them.
Packet = bytes | bytearray | memoryview

# The columns of a forecast that are no stores: the steps' numbers, their windows, and what the names of columns with
# limits and with sizes begin with.
STEP = "step"
WINDOW = "window"
LIMIT = "limit:"
SIZE = "size:"


class Frame(Protocol):
    """A data frame, as of pandas or polars: columns with names, each of which is had by its name."""

    @property
    def columns(self) -> Iterable[Any]:
        """The names of the columns."""

    def __getitem__(self, name: Any, /) -> Any:
        ...


# A table of numbers: a column for each name, a data frame, or rows with the same keys.
Table = Mapping[str, Iterable[SupportsIndex]] | Frame | Iterable[Mapping[str, SupportsIndex]]

# A table of numbers and words, in the same forms.
Records = Mapping[str, Iterable[object]] | Frame | Iterable[Mapping[str, object]]


class Column(tuple[int, ...]):
    """Whole numbers, with their texts."""

    @cached_property
    def texts(self) -> list[str]:
        """The text of each number."""
        return list(map(str, self))

    def __reduce__(self) -> tuple[object, ...]:
        return Column, (tuple(self),)


class Columns(Mapping[str, Column]):
    """Columns of whole numbers, by their names and in their order. They stay as they are."""

    def __init__(self, named: Mapping[str, Iterable[int]]) -> None:
        self._named = MappingProxyType(
            {name: column if type(column) is Column else Column(column) for name, column in named.items()}
        )
        self._forms: dict[tuple[str, ...], bytes] = {}

    def __getitem__(self, name: str) -> Column:
        return self._named[name]

    def __contains__(self, name: object) -> bool:
        return name in self._named

    def __iter__(self) -> Iterator[str]:
        return iter(self._named)

    def __len__(self) -> int:
        return len(self._named)

    def with_others(self, others: Mapping[str, Column]) -> Columns:
        """These columns, with others added, or in the place of those with their names."""
        made = Columns({})
        made._named = MappingProxyType(self._named | others)
        return made

    def __hash__(self) -> int:
        return hash(frozenset(self._named.items()))

    def __repr__(self) -> str:
        return cut(repr(dict(self._named)))

    def __reduce__(self) -> tuple[object, ...]:
        return Columns, (dict(self._named),)

    def items(self) -> ItemsView[str, Column]:
        return self._named.items()

    def form(self, steps: int, open_names: tuple[str, ...] = ()) -> bytes:
        """The text of a forecast with that many steps, with `%d` for each window, and `%%d` for each number of the
        columns that are named. It is kept: forecasts that differ in these alone are made from it."""
        if open_names not in self._forms:
            header = io.StringIO()
            csv.writer(header, lineterminator="\n").writerow([STEP, WINDOW, *self._named])
            columns = [["%%d"] * steps if name in open_names else column.texts for name, column in self._named.items()]
            records = zip(map(str, range(1, steps + 1)), ["%d"] * steps, *columns, strict=True)
            text = header.getvalue().replace("%", "%%%%") + "".join([",".join(record) + "\n" for record in records])
            self._forms[open_names] = text.encode()
        return self._forms[open_names]


def is_text(given: object) -> bool:
    """Whether this is a text."""
    return isinstance(given, (bytes, bytearray, memoryview, str, os.PathLike))


class NoFile(FileNotFoundError, ValueError):
    """A text that is the name of a file which is not there."""


def octets(given: Text) -> bytes:
    """The octets of a text."""
    if isinstance(given, os.PathLike) or (isinstance(given, str) and given and "\n" not in given):
        try:
            return Path(given).read_bytes()
        except FileNotFoundError as error:
            words = f"{os.fspath(given)!r}: there is no such file; a str without a line end is the name of one"
            raise NoFile(words[:400]) from error
    if isinstance(given, str):
        return given.encode()
    if not is_text(given):
        raise ValueError(f"{given!r} is no text: octets, a str, or a path")
    return bytes(given)


def packet_octets(given: Packet, name: str = "packet") -> bytes:
    """The octets of a packet."""
    try:
        return bytes(memoryview(given))
    except TypeError as error:
        raise TypeError(f"{name} is {given!r}, and not the octets of a packet") from error


def whole(given: object, place: str) -> int:
    """A whole number of any kind: an int, what numpy and its like have, or a float that is whole. `place` says where it
    stands."""
    if type(given) is int:
        return given
    if not isinstance(given, bool) and isinstance(given, SupportsIndex):
        return operator.index(given)
    if isinstance(given, SupportsFloat) and hasattr(given, "is_integer") and given.is_integer():
        return int(float(given))
    raise ValueError(f"{place}: {given!r} is no whole number")


def numbers(values: Iterable[object], name: str) -> Column:
    """The whole numbers of a column."""
    column = values_of(values, name)
    if type(column) is Column:
        return column
    if set(map(type, column)) <= {int}:
        return Column(column)
    return Column(whole(value, f"column {name}, row {row}") for row, value in enumerate(column, 1))


def values_of(given: Any, name: str) -> tuple[Any, ...]:
    """The values of a column, in their order."""
    if isinstance(given, tuple):
        return given
    if (
        is_text(given)
        or isinstance(given, (Mapping, set, frozenset))
        or hasattr(given, "columns")
        or not hasattr(given, "__iter__")
    ):
        raise ValueError(f"column {name}: {given!r} is no list of values")
    return tuple(given)


def columns(given: Any) -> dict[str, tuple[Any, ...]]:
    """The columns of a table by their names: of a mapping from names to values, of a data frame, or of rows that are
    mappings with the same keys."""
    if not isinstance(given, Mapping) and not hasattr(given, "columns"):
        return _columns_of_rows(rows(given))
    keys: dict[str, Any] = {}
    for key in given if isinstance(given, Mapping) else given.columns:
        if str(key) in keys:
            raise ValueError(f"there are two columns {key}")
        keys[str(key)] = key
    found = {name: values_of(given[key], name) for name, key in keys.items()}
    # A data frame of pandas may have its steps as its index.
    index = getattr(given, "index", None)
    if getattr(index, "name", None) == STEP and STEP not in found:
        found[STEP] = values_of(index, STEP)
    for name, column in found.items():
        first = next(iter(found))
        if len(column) != len(found[first]):
            raise ValueError(f"column {name} has {len(column)} rows, and column {first} has {len(found[first])}")
    return found


def _columns_of_rows(given: list[dict[str, Any]]) -> dict[str, tuple[Any, ...]]:
    names = list(given[0]) if given else []
    for place, row in enumerate(given, 1):
        for name in (*names, *row):
            if name not in row or name not in names:
                raise ValueError(
                    f"column {name} is in row {place if name in row else 1}, "
                    f"and not in row {1 if name in row else place}"
                )
    return {name: tuple(row[name] for row in given) for name in names}


def rows(given: Any) -> list[dict[str, Any]]:
    """The rows of a table: of rows that are mappings, of a mapping from names to columns, or of a data frame."""
    if isinstance(given, Mapping) or hasattr(given, "columns"):
        named = columns(given)
        return [dict(zip(named, values, strict=True)) for values in zip(*named.values(), strict=True)]
    return [named_values(row, place) for place, row in enumerate(listed(given), 1)]


def listed(given: Any) -> list[Any]:
    """The rows of a table that is a list of them."""
    if is_text(given) or not hasattr(given, "__iter__"):
        raise ValueError(f"{given!r} is no table")
    return list(given)


def named_values(row: Any, place: int) -> dict[str, Any]:
    """The values of a row, by the names of their columns."""
    if not isinstance(row, Mapping):
        raise ValueError(f"row {place} of the table is {row!r}, and has no columns with names")
    return {str(name): value for name, value in row.items()}
