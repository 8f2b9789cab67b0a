"""What-ifs: many variants of a mission, each planned anew or flown with one plan, on one machine or a cluster.

    >>> from rudlayog.mission import Mission, Observation, PacketStore, Pass
    >>> from rudlayog.study import each_pass_lost, study
    >>> def at(hour):
    ...     return f"2031-03-03T{hour:02}:00:00Z"
    >>> mission = Mission(
    ...     stores=[PacketStore("CAM", size="12 MB")],
    ...     passes=[Pass("Malargue", at(hour), at(hour + 1), rate="64 kbit/s") for hour in (6, 18)],
    ...     observations=[Observation("CAM", at(hour), at(hour + 5), volume="10 MB") for hour in (0, 12)],
    ...     packet=1000,
    ... )
    >>> found = study(mission, each_pass_lost(mission))
    >>> found.base.loss, [(answer.name, answer.loss) for answer in found]
    (0, [('without Malargue 1', 8282), ('without Malargue 2', 0)])
"""

from __future__ import annotations

import csv
import io
import os
from array import array
from collections.abc import Callable, Iterator, Mapping, Sequence
from dataclasses import dataclass
from datetime import timedelta
from functools import partial
from heapq import nsmallest
from typing import TYPE_CHECKING, Any, TextIO, TypeVar, Union, overload

from ._answering import Task, found_of, found_of_all
from ._base import Base
from ._brief import brief
from ._files import Forms, save_as, table_forms
from ._found import Found, FoundTable
from ._running import Progress, results
from ._units import fault, span_of, whole_of
from .forecasts import Forecast, ForecastLike, forecast_octets
from .mission import Mission
from .plans import Cut, Plan, Stretch
from .setups import Setup, SetupLike, setup_octets
from .sheets import look_at_horizon
from .variants import (
    Changed,
    Replaced,
    Variant,
    VariantsLike,
    each_pass_lost,
    each_store_sized,
    grid,
    lost,
    rated,
    scaled,
    shortened,
    sized,
    variants_of,
)

if TYPE_CHECKING:
    from .pictures import Picture

__all__ = [
    "Answer", "Changed", "Replaced", "Study", "Variant", "answers", "each_pass_lost", "each_store_sized", "grid",
    "lost", "rated", "scaled", "shortened", "sized", "study",
]  # fmt: skip

Made = TypeVar("Made")
# How many variants a worker is given at a time.
CHUNK = 64
# What a table of a study may count in, and octets of one.
UNITS = {"blocks": 0, "MB": 1_000_000}
Given = Union[Mission, tuple[SetupLike, ForecastLike]]


@brief
@dataclass(frozen=True, slots=True)
class Answer:
    """What a variant loses, in blocks: all together, and by store. `bound` is that of its cut: no plan in its steps, and
    but for rounding no timeline, loses fewer, and `is_least` says whether this one loses as few. `shown` are the lines
    of the cut. `ages` are for each store the greatest and the median age of what goes down, in hours, where they are
    asked for. Where the variant is refused there are no numbers, and `refused` says why. """

    name: str
    loss: int | None
    by_store: tuple[int, ...]
    bound: int | None
    shown: str
    refused: str
    parameters: Mapping[str, Any]
    ages: tuple[float, ...] = ()

    @property
    def is_least(self) -> bool:
        """Whether it is shown that no plan in its steps loses less."""
        return self.loss is not None and self.loss == self.bound

    @property
    def cut(self) -> Cut:
        """The cut, whose bound is in the units of the problem."""
        lines = [line.split(" ") for line in self.shown.splitlines()]
        stretches = tuple(Stretch(line[1], int(line[2]), int(line[3])) for line in lines if line[0] == "stretch")
        bound = next((int(line[1]) for line in lines if line[0] == "bound"), self.bound or 0)
        return Cut(stretches, tuple(int(line[1]) for line in lines if line[0] == "count"), bound)


class Study(Sequence[Answer]):
    """What a study found: an answer for each variant, in their order, beside the `base`, which is the mission as it is.
    `stores` are the identifiers to which `by_store` belongs, and `octets` those of their packets, if they are known.
    Where it was interrupted, `is_whole` is false, and only what is done is here."""

    def __init__(
        self,
        table: FoundTable,
        base: Answer,
        stores: tuple[str, ...],
        is_whole: bool = True,
        octets: tuple[int, ...] = (),
    ) -> None:
        self._table, self.base, self.stores, self.is_whole, self.octets = table, base, stores, is_whole, octets
        # the rows of the table that are there
        self._rows: Sequence[int] = range(len(table)) if is_whole else array("q", table.rows())

    @property
    def answers(self) -> tuple[Answer, ...]:
        """All answers. They take more memory than the study."""
        return tuple(self)

    def __repr__(self) -> str:
        return f"<Study of {len(self)} variants; as it is {self.base.loss} blocks are lost>"

    def __eq__(self, other: object) -> bool:
        if not isinstance(other, Study):
            return NotImplemented
        return (self.base, self.stores, self.is_whole, self.answers) == (
            other.base,
            other.stores,
            other.is_whole,
            other.answers,
        )

    def __len__(self) -> int:
        return len(self._rows)

    @overload
    def __getitem__(self, place: int) -> Answer:
        ...

    @overload
    def __getitem__(self, place: slice) -> tuple[Answer, ...]:
        ...

    def __getitem__(self, place: int | slice) -> Answer | tuple[Answer, ...]:
        if isinstance(place, slice):
            return tuple(map(self._answer, self._rows[place]))
        return self._answer(self._rows[place])

    def _repr_html_(self) -> str:
        from ._tables import html_of

        return html_of(self._columns())

    def _answer(self, row: int) -> Answer:
        return _answered(self._table.names[row], self._table.found(row), self._table.parameters(row))

    def change(self, answer: Answer) -> int | None:
        """How many blocks more than the base a variant loses."""
        return self._change(answer.loss)

    def _change(self, loss: int | None) -> int | None:
        return None if loss is None or self.base.loss is None else loss - self.base.loss

    def mb(self, answer: Answer) -> float | None:
        """What a variant loses in megabytes of packets. None where the packets of the stores, or the losses by store,
        are not known."""
        return self._mb(answer.loss, answer.by_store)

    def _mb(self, loss: int | None, by_store: Sequence[int | None]) -> float | None:
        if loss is None or not self.octets:
            return None
        if by_store and None not in by_store:
            return sum(blocks * octets for blocks, octets in zip(by_store, self.octets) if blocks is not None) / 1e6
        return loss * self.octets[0] / 1e6 if len(set(self.octets)) == 1 else None

    def _columns(self, unit: str = "blocks") -> dict[str, Iterator[Any]]:
        """The columns of the table."""
        if unit not in UNITS:
            raise ValueError(f"the unit is {unit!r}, and can be {' or '.join(UNITS)}")
        if unit == "MB" and not self.octets:
            raise ValueError(
                "a study of a setup and a forecast does not know the octets of packets, and counts in blocks"
            )
        table, rows = self._table, self._rows
        losses: dict[str, Iterator[Any]] = {
            "loss": map(table.loss, rows),
            "change": (self._change(table.loss(row)) for row in rows),
            **{store: map(partial(table.loss_of, place), rows) for place, store in enumerate(self.stores)},
            "bound": map(table.bound, rows),
        }
        if unit == "MB":
            base = self.mb(self.base)
            whole = [self._mb(table.loss(row), table.by_store(row)) for row in rows]
            losses = {
                "loss MB": iter(whole),
                "change MB": (None if loss is None or base is None else round(loss - base, 6) for loss in whole),
                **{f"{store} MB": map(partial(self._store_mb, place), rows) for place, store in enumerate(self.stores)},
            }
        ages = {
            f"{store} {word} age": place
            for place, (store, word) in enumerate(
                (store, word) for store in self.stores for word in ("greatest", "median")
            )
        }
        return {
            "variant": (table.names[row] for row in rows),
            **{name: map(partial(table.parameter, name), rows) for name in table.parameter_names()},
            **losses,
            "least": (table.loss(row) is not None and table.loss(row) == table.bound(row) for row in rows),
            **({name: map(partial(self._age, place), rows) for name, place in ages.items()} if table.has_ages else {}),
            "refused": map(table.refused, rows),
        }

    def _store_mb(self, place: int, row: int) -> float | None:
        loss = self._table.loss_of(place, row)
        return None if loss is None else loss * self.octets[place] / 1e6

    def _age(self, place: int, row: int) -> float | None:
        ages = self._table.ages(row)
        return round(ages[place], 3) if ages else None

    def to_dict(self, unit: str = "blocks") -> dict[str, list[Any]]:
        """The columns: the variant, its parameters, its loss and the change, the loss of each store, whether that is
        least, the ages if they are asked for, and the refusal. Losses are in `blocks` or in `MB`."""
        return {name: list(column) for name, column in self._columns(unit).items()}

    def to_frame(self, make: Callable[[dict[str, list[Any]]], Made], unit: str = "blocks") -> Made:
        """The table as a data frame, made by `make`, as `pandas.DataFrame`."""
        return make(self.to_dict(unit))

    def _write(self, lines: TextIO, unit: str) -> None:
        """Writes the table as comma separated values."""
        writer = csv.writer(lines, lineterminator="\n")
        columns = self._columns(unit)
        writer.writerow(columns)
        writer.writerows(zip(*columns.values()))

    def text(self, unit: str = "blocks") -> str:
        """The table as comma separated values, with losses in `blocks` or in `MB`."""
        lines = io.StringIO()
        self._write(lines, unit)
        return lines.getvalue()

    def forms(self, unit: str = "blocks") -> Forms:
        """The forms of a file of the study, by the ending of its name, with losses in `blocks` or in `MB`: the table,
        or as .svg, and with matplotlib as .png or .pdf, the picture."""
        table = table_forms(lambda: self.text(unit), lambda: self._columns(unit), "Study")
        pictures = {
            kind: partial(lambda kind: self.plot(unit=unit, matplotlib=kind != ".svg" or None).octets(kind), kind)
            for kind in (".svg", ".png", ".pdf")
        }
        return {**table, **pictures}

    def save(self, path: str | os.PathLike[str], unit: str = "blocks") -> None:
        """Writes the study into a file, with losses in `blocks` or in `MB`: the table as .csv, .html or .xlsx, or the
        picture as .svg, .png or .pdf, by the name."""
        save_as(path, self.forms(unit))

    def worst(self, count: int = 10) -> list[Answer]:
        """The variants that lose most."""
        losses = ((row, self._table.loss(row)) for row in self._rows)
        lost = ((loss, row) for row, loss in losses if loss is not None)
        return [self._answer(row) for _, row in nsmallest(count, lost, key=lambda each: -each[0])]

    def plot(self, *parameters: str, matplotlib: bool | None = None, unit: str = "blocks") -> Picture:
        """A picture: the loss of each variant, in `blocks` or in `MB`, sorted; or over one or two parameters. It is
        drawn by matplotlib where that is installed, unless `matplotlib` is false."""
        from .pictures import picture_of

        return picture_of(self, parameters, matplotlib, unit)


def _answered(name: str, found: Found, parameters: Mapping[str, Any]) -> Answer:
    return Answer(name, *found[:5], parameters, found.ages)


def study(
    given: Given,
    variants: VariantsLike,
    plan: Plan | None = None,
    executor: Any = None,
    *,
    by_store: bool = True,
    in_order: bool = False,
    ages: bool = False,
    horizon: timedelta | float | None = None,
    look: timedelta | float | None = None,
    chunk: int = CHUNK,
    progress: bool | None = None,
) -> Study:
    """The answers for variants of a mission, or of a setup and a forecast.

    Each variant is planned anew, in steps of its own: the answer is that of `mission.changed(variant.changes).plan()`.
    Or, with a `plan`, that one is flown, and where less can be sent than it says, the stores give way in the reverse of
    their order. `by_store=False` leaves the losses by store out, but those of a plan that is given. With `in_order` the
    stores are served in their order, and with `ages` it is told how old data are that go down. With `horizon` and
    `look` the plans are made in parts, as `mission.plan` makes them. `executor` is any of `concurrent.futures`, or
    Dask's `Client`; without one threads of this machine are used. Whatever executes it, the table is the same. A worker
    that dies costs its variants a second try. A progress bar is shown where standard error is a terminal; `Ctrl-C` ends
    the study with what is done."""
    task = _task(given, plan, by_store, in_order, ages, horizon, look)
    base = task.base
    table = FoundTable(len(base.setup.stores))
    is_whole = True
    bar = Progress(variants, progress)
    try:
        for place, variant, found in _all_found(task, variants, executor, chunk):
            table.put(place, variant, found)
            bar.add()
    except KeyboardInterrupt:
        is_whole = False
    finally:
        bar.close()
    octets = tuple(map(base.mission.packet_of, base.mission.stores)) if base.mission else ()
    return Study(
        table, answer_of(task, Variant("as it is")), tuple(store.id for store in base.setup.stores), is_whole, octets
    )


def answers(
    given: Given,
    variants: VariantsLike,
    plan: Plan | None = None,
    executor: Any = None,
    *,
    by_store: bool = True,
    in_order: bool = False,
    ages: bool = False,
    horizon: timedelta | float | None = None,
    look: timedelta | float | None = None,
    chunk: int = CHUNK,
) -> Iterator[tuple[int, Answer]]:
    """The answers as they are done, each with its place among the variants, from 0."""
    task = _task(given, plan, by_store, in_order, ages, horizon, look)
    found = _all_found(task, variants, executor, chunk)
    return ((place, _answered(variant.name, each, variant.parameters)) for place, variant, each in found)


def _task(given: Given, plan: Any, by_store: bool, in_order: bool, ages: bool, horizon: Any, look: Any) -> Task:
    if look is not None and horizon is None:
        raise ValueError("look goes with a horizon")
    base = Base.in_parts(given) if horizon is not None and isinstance(given, Mission) else _base(given)
    if horizon is not None and base.mission is not None:
        look_at_horizon(base.mission, span_of(horizon, "horizon"))
    if look not in (None, 0, timedelta(0)):
        span_of(look, "look")
    if (ages or horizon is not None) and base.mission is None:
        raise ValueError("ages and a horizon are of a mission, and not of a setup and a forecast")
    if plan is not None and (ages or horizon is not None or in_order):
        raise ValueError("a plan that is given is flown as it is: without in_order, ages and a horizon")
    return Task(base, None if plan is None else Task.fixed(plan, base), by_store, in_order, ages, horizon, look)


def _all_found(task: Task, variants: VariantsLike, executor: Any, chunk: int) -> Iterator[tuple[int, Variant, Found]]:
    """What is found of each variant, with its place, as it is done."""
    if whole_of(chunk, "chunk") < 1:
        raise fault("chunk", chunk, "at least 1 variant that a worker is given at a time")
    numbered = enumerate(variants_of(variants))
    for given, done in results(executor, found_of_all, task, numbered, chunk):
        if isinstance(done, BaseException):
            done = [Found(None, refused=f"{type(done).__name__}: {done}")] * len(given)
        for (place, variant), found in zip(given, done):
            yield place, variant, found


def answer_of(task: Task, variant: Variant) -> Answer:
    """The answer for one variant."""
    return _answered(variant.name, found_of(task, variant), variant.parameters)


def _base(given: Given) -> Base:
    if isinstance(given, Mission):
        return Base.of_mission(given)
    try:
        setup, forecast = given
    except (TypeError, ValueError) as error:
        raise fault("", given, "a Mission, or a setup and a forecast") from error
    return Base(
        setup if isinstance(setup, Setup) else Setup.read(setup_octets(setup)),
        forecast if isinstance(forecast, Forecast) else Forecast.read(forecast_octets(forecast)),
    )
