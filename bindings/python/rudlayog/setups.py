"""The packet stores of a memory, its routes and its limits."""

from __future__ import annotations

import json
import tomllib
from collections.abc import Iterable, Mapping
from dataclasses import MISSING, asdict, dataclass, fields, replace
from functools import cached_property
from typing import Any, SupportsIndex, TypeVar, Union

from . import _library
from ._brief import brief
from ._data import Records, Text, is_text, listed, named_values, octets, rows, whole
from .refusals import Refusal

Row = TypeVar("Row", "Store", "Route", "Limit")

# When the arrivals of a step come where a setup does not say it.
BEFORE = "before"


@brief
@dataclass(frozen=True)
class Store:
    """A packet store: its identifier `id`, its `size` in blocks, its `type`, `bounded` or `circular`, its virtual
    `channel`, and at its `start` the blocks that it holds as the first step begins."""

    id: str
    size: int
    type: str = "bounded"
    channel: int = 0
    start: int = 0


@brief
@dataclass(frozen=True)
class Route:
    """Telemetry of this `apid`, `service` and `subtype` goes into the `store`."""

    apid: int
    service: int
    subtype: int
    store: str


@brief
@dataclass(frozen=True)
class Limit:
    """At most this many `blocks` leave the stores of the `channel` together in one step."""

    channel: int
    blocks: int


# What is taken as the stores, the routes or the limits of a setup.
Stores = Union[Records, Iterable[Store]]
Routes = Union[Records, Iterable[Route]]
Limits = Union[Records, Iterable[Limit]]


@brief
@dataclass(frozen=True)
class Setup:
    """A setup: its `stores`, its `routes` and its `limits`, and whether the `arrivals` of a step come `before` its
    dumps or `during` them. The library judges it when it is used: a setup that is not allowed can be written here, and
    is refused there."""

    stores: tuple[Store, ...]
    routes: tuple[Route, ...] = ()
    limits: tuple[Limit, ...] = ()
    arrivals: str = BEFORE

    def __post_init__(self) -> None:
        for name in ("stores", "routes", "limits"):
            object.__setattr__(self, name, tuple(getattr(self, name)))

    @classmethod
    def of(cls, stores: Stores, routes: Routes = (), limits: Limits = (), arrivals: str = BEFORE) -> Setup:
        """The setup of these stores, routes and limits, each a table: a list of `Store`s or of dicts, a dict of
        columns, or a data frame. `arrivals` is `before`, or `during` where what arrives in a step may be sent while it
        arrives."""
        return cls(_table(Store, stores), _table(Route, routes), _table(Limit, limits), arrivals)

    @classmethod
    def read(cls, text: Text) -> Setup:
        """The setup that a text says. Raises the library's `Refusal` where it is none."""
        given = octets(text)
        _library.accept(given)
        found = tomllib.loads(given.decode("utf-8-sig"))
        return cls.of(found["store"], found.get("route", ()), found.get("limit", ()), found.get("arrivals", BEFORE))

    def text(self) -> str:
        """The text of the setup, a TOML document."""
        return self._octets.decode()

    @property
    def _top(self) -> dict[str, str]:
        """The key at the top of the text, which is written where it does not have its default."""
        return {} if self.arrivals == BEFORE else {"arrivals": self.arrivals}

    @cached_property
    def _form(self) -> bytes:
        """The text with `%d` for the start volumes: setups that differ in these alone are made from it."""
        stores = tuple(replace(store, start=0) for store in self.stores)
        named: dict[str, Any] = {**self._top, "store": stores, "route": self.routes, "limit": self.limits}
        return _document(named).replace(b"%", b"%%").replace(b"\nstart = 0\n", b"\nstart = %d\n")

    @cached_property
    def _octets(self) -> bytes:
        starts = [whole(store.start, f"column start, row {row} of store") for row, store in enumerate(self.stores, 1)]
        return self._form % tuple(starts)

    def __bytes__(self) -> bytes:
        return self._octets

    def __reduce__(self) -> tuple[object, ...]:
        return Setup, (self.stores, self.routes, self.limits, self.arrivals)

    def holding(self, held: Mapping[str, SupportsIndex]) -> Setup:
        """The same setup with other start volumes: those of the stores that are named."""
        strange = set(held) - {store.id for store in self.stores}
        if strange:
            raise ValueError(f"the setup has no store {', '.join(sorted(map(str, strange)))}")
        starts = [whole(held.get(store.id, store.start), f"store {store.id}") for store in self.stores]
        stores = tuple(
            Store(store.id, store.size, store.type, store.channel, start) for store, start in zip(self.stores, starts)
        )
        setup = Setup(stores, self.routes, self.limits, self.arrivals)
        vars(setup)["_form"] = self._form
        return setup

    def to_dict(self) -> dict[str, Any]:
        """The tables of the setup, and `arrivals` where they come during dumps, as the text has them."""
        return {
            **self._top,
            "store": [asdict(store) for store in self.stores],
            "route": [asdict(route) for route in self.routes],
            "limit": [asdict(limit) for limit in self.limits],
        }


# What is taken as a setup.
SetupLike = Union[Text, Setup, Stores, Mapping[str, Records]]


def _table(kind: type[Row], given: Any) -> tuple[Row, ...]:
    """The rows of a table, each as one of these."""
    table = rows(given) if isinstance(given, Mapping) or hasattr(given, "columns") else listed(given)
    return tuple(
        row if isinstance(row, kind) else _row(kind, named_values(row, place), place)
        for place, row in enumerate(table, 1)
    )


def _row(kind: type[Row], given: dict[str, Any], place: int) -> Row:
    """One of these with these values."""
    known = {field.name: field for field in fields(kind)}
    where = f"row {place} of the {kind.__name__}s"
    for key, value in given.items():
        if key not in known:
            raise ValueError(f"{where} has a column {key}, and there can be {', '.join(known)}")
        if known[key].type == "int":
            given[key] = whole(value, f"column {key}, {where}")
        elif not isinstance(value, str):
            raise ValueError(f"column {key}, {where}: {value!r} is no text")
    missing = [name for name, field in known.items() if field.default is MISSING and name not in given]
    if missing:
        raise ValueError(f"{where} has no column {missing[0]}")
    return kind(**given)


def _value(given: Any, place: str) -> str:
    """A value as TOML."""
    if isinstance(given, bool):
        return str(given).lower()
    if isinstance(given, str):
        return json.dumps(given, ensure_ascii=False).replace("\x7f", "\\u007F")
    if isinstance(given, float):
        return repr(given)
    return str(whole(given, place))


def _document(tables: Mapping[str, Any]) -> bytes:
    """A TOML document of these tables; what is no table is written as it is."""
    top: list[str] = []
    below: list[str] = []
    for name, given in tables.items():
        if isinstance(given, (str, bool, float)) or hasattr(given, "__index__"):
            top.append(f"{name} = {_value(given, name)}\n")
            continue
        for place, row in enumerate(map(vars, given) if isinstance(given, tuple) else rows(given), 1):
            lines = [f"{key} = {_value(value, f'column {key}, row {place} of {name}')}\n" for key, value in row.items()]
            below.append(f"[[{name}]]\n" + "".join(lines))
    return ("".join(top) + "\n".join(below)).encode()


def setup_with(names: list[str]) -> Setup:
    """A setup with stores of these identifiers; or with some store, where a setup cannot have them."""
    setup = Setup.of([Store(name, 1) for name in names])
    try:
        _library.accept(bytes(setup))
    except Refusal as refusal:
        if refusal.number == _library.NO_MEMORY:
            raise
        return Setup.of([Store("0", 1)])
    return setup


def setup_octets(given: Any) -> bytes:
    """The octets of a setup: of a text, a `Setup`, a dict of its tables, or a table of stores."""
    if isinstance(given, Setup):
        return bytes(given)
    if is_text(given):
        return octets(given)
    keys = {field.name for field in fields(Store)}
    if isinstance(given, Mapping) and not keys & set(given):
        return _document(given)
    return bytes(Setup.of(given))
