"""The calls: plan, check, draw and ask."""

from __future__ import annotations

import csv
import ctypes
import io
import os
from collections.abc import Callable, Iterable
from dataclasses import dataclass
from pathlib import Path
from typing import Any, TypeVar

from . import _library
from ._brief import brief
from ._data import Packet, Text
from .forecasts import Forecast, ForecastLike, forecast_octets
from .plans import Plan, PlanLike, plan_octets, request_octets
from .setups import Setup, SetupLike, setup_octets

Made = TypeVar("Made")
KINDS = (
    "",
    "least",
    "does not fit",
    "loss is",
    "bad stretch",
    "bad count",
    "bound is",
    "not shown",
    "least in order",
    "first not shown",
)
PLACED = ("bad stretch", "bad count")
LEAST = tuple(KINDS[kind] for kind in _library.LEAST)


@brief
@dataclass(frozen=True)
class Verdict:
    """A verdict on a plan: its `kind`, and its `line`. It is true where the plan loses least, and also where of its
    first stores it loses least (`least in order`). `step` is the first step at which the plan does not fit, `place` the
    place of the first bad stretch or count, from 1; `stores` is how many of the first stores it does not show to lose
    least, though all together do; `loss` and `bound` are in blocks. Each is `None` where it says nothing."""

    kind: str
    line: str
    step: int | None = None
    place: int | None = None
    loss: int | None = None
    bound: int | None = None
    stores: int | None = None

    def __bool__(self) -> bool:
        return self.kind in LEAST


@brief
@dataclass(frozen=True)
class Chart:
    """A chart, which a notebook shows: `svg` is a document of Scalable Vector Graphics (SVG) 1.1."""

    svg: str

    def _repr_svg_(self) -> str:
        return self.svg

    def save(self, path: str | os.PathLike[str]) -> None:
        """Writes the document into a file."""
        Path(path).write_text(self.svg, encoding="utf-8", newline="")


@brief
@dataclass(frozen=True)
class PlanTable:
    """What each step of a plan does to each store: `text`, comma separated values."""

    text: str

    def to_dict(self) -> dict[str, list[Any]]:
        """The columns: whole numbers, and the identifiers in `store`."""
        names, *rows = csv.reader(io.StringIO(self.text))
        columns = zip(names, *rows, strict=True)
        return {name: cells if name == "store" else list(map(int, cells)) for name, *cells in columns}

    def to_frame(self, make: Callable[[dict[str, list[Any]]], Made]) -> Made:
        """The table as a data frame, made by `make`, as `pandas.DataFrame`."""
        return make(self.to_dict())

    def save(self, path: str | os.PathLike[str]) -> None:
        """Writes the text into a file."""
        Path(path).write_text(self.text, encoding="utf-8", newline="")


@brief
@dataclass(frozen=True)
class Worth:
    """What a number of a problem is worth, in blocks: the window of the `step`, or the size of the store `name` or the
    limit of the channel `name`, of the setup or in the `step`, as `item` says. The number is `now`; `next` is how many
    blocks fewer the least plan loses if it is one larger, `most` if it is 1,000,000, and `without` how many blocks more
    it loses if it is 0, or 1 for a size of the setup. A window that is larger by e saves `min(e, most)`."""

    item: str
    name: str
    step: int | None
    now: int
    next: int
    most: int
    without: int


@brief
@dataclass(frozen=True)
class Replies:
    """What answers requests, or says packets in words: `text`, and `all_done`, whether nothing was refused."""

    all_done: bool
    text: str

    @property
    def lines(self) -> tuple[str, ...]:
        """The lines of the text."""
        return tuple(self.text.splitlines())


def plan(setup: SetupLike, forecast: ForecastLike, *, in_order: bool = False) -> Plan:
    """A plan that loses least, with the cut that shows it. With `in_order` the first store of the setup loses least
    too, the first two together, and so on, with a cut for each (`Plan.firsts`).

    A setup is a text (octets, a str of several lines, or a path), a `Setup`, a dict of its tables, or a table of
    stores. A forecast is a text, a `Forecast`, or a table: dicts with `window` and the stores, a dict of columns, or a
    data frame. Raises `Refusal`."""
    problem = texts(setup=setup, forecast=forecast)
    call = _library.rudlayog_plan_in_order if in_order else _library.rudlayog_plan
    return Plan._made(_library.told(call, texts=problem), problem)


def check(setup: SetupLike, forecast: ForecastLike, plan: PlanLike) -> Verdict:
    """The verdict on a plan, whoever made it: a text, a `Plan`, or a table of dumps. Raises `Refusal`."""
    given, told = texts(setup=setup, forecast=forecast, plan=plan), _library.VerdictTold()
    line = _library.told(_library.rudlayog_check, texts=given, more=(told,)).decode("ascii").rstrip("\n")
    kind = KINDS[told.kind]
    return Verdict(
        kind,
        line,
        step=told.place if kind == "does not fit" else None,
        place=told.place if kind in PLACED else None,
        loss=told.loss if kind in (*LEAST, "loss is", "not shown") else None,
        bound=told.bound if kind in ("bound is", "not shown") else None,
        stores=told.place if kind == "first not shown" else None,
    )


def chart(setup: SetupLike, forecast: ForecastLike, plan: PlanLike, *, worth: bool = False) -> Chart:
    """The chart of a plan. With `worth` its windows are shaded by what they are worth at most, which takes up to some
    hundred times as long. Raises `Refusal`."""
    call = _library.rudlayog_chart_worth if worth else _library.rudlayog_chart
    return Chart(_library.told(call, texts=texts(setup=setup, forecast=forecast, plan=plan)).decode("utf-8"))


def table(setup: SetupLike, forecast: ForecastLike, plan: PlanLike) -> PlanTable:
    """The table of a plan: what each step does to each store. Raises `Refusal`."""
    given = texts(setup=setup, forecast=forecast, plan=plan)
    return PlanTable(_library.told(_library.rudlayog_table, texts=given).decode("ascii"))


def sensitivity(setup: SetupLike, forecast: ForecastLike) -> list[Worth]:
    """What each window, store size and limit is worth. Raises `Refusal`."""
    text = _library.told(_library.rudlayog_sensitivity, texts=texts(setup=setup, forecast=forecast)).decode("ascii")
    _, *records = csv.reader(io.StringIO(text))
    return [
        Worth(item, name, int(step) if step else None, *map(int, numbers)) for item, name, step, *numbers in records
    ]


def read(packets: Text | Iterable[Packet]) -> Replies:
    """What requests and reports are, in words: packets, or a text with one in hexadecimal digits a line, as that of
    `Replies`."""
    outcome = ctypes.c_uint32()
    text = _library.told(_library.rudlayog_read, texts=(request_octets(packets),), more=(outcome,))
    return Replies(outcome.value == 1, text.decode("ascii"))


def ask(setup: SetupLike, requests: Text | Iterable[Packet]) -> Replies:
    """The lines that answer telecommands of the storage service: a text with one in hexadecimal digits a line, or the
    packets. Raises `Refusal` where the setup is refused; a line that is refused is told in the replies."""
    outcome = ctypes.c_uint32()
    text = _library.told(_library.rudlayog_ask, texts=(*texts(setup=setup), request_octets(requests)), more=(outcome,))
    return Replies(outcome.value == 1, text.decode("ascii"))


def version() -> str:
    """The version of the library."""
    return _library.told(_library.rudlayog_version).decode("ascii")


_KINDS: dict[str, tuple[type, Callable[[Any], bytes]]] = {
    "setup": (Setup, setup_octets),
    "forecast": (Forecast, forecast_octets),
    "plan": (Plan, plan_octets),
}


def texts(**given: object) -> tuple[bytes, ...]:
    """The octets of what is given as a setup, a forecast and a plan. Raises `TypeError` where they stand in another
    order."""
    return tuple([_octets(name, value) for name, value in given.items()])


def _octets(name: str, value: object) -> bytes:
    kind, octets = _KINDS[name]
    if isinstance(value, (Setup, Forecast, Plan)) and not isinstance(value, kind):
        raise TypeError(f"the {name} is a {type(value).__name__}; the order is {', '.join(_KINDS)}")
    return octets(value)
