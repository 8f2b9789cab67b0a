"""What operations fly: the plan of a mission, and its sheet, pass by pass, in UTC."""

from __future__ import annotations

import os
from bisect import bisect_right
from collections.abc import Callable, Iterable, Iterator, Mapping, Sequence
from dataclasses import dataclass
from datetime import datetime, timedelta
from fractions import Fraction
from functools import cached_property
from typing import TYPE_CHECKING, Any, TypeVar, overload

from ._brief import brief
from ._files import Forms, save_as, workbook_of
from ._flown import Flown, first_steps, flown_of
from ._flows import arrivals_of, micro, use_of
from ._sharing import shared as shared
from ._tables import csv_of, html_of
from ._timeline import Problem, problem_of
from ._units import MICROSECOND, Moment, Volume, VolumeLike, fault, moment_of, span_of, written
from .calls import Verdict, check, plan
from .plans import Plan
from .timelines import Timeline

if TYPE_CHECKING:
    from .ages import Age
    from .mission import Mission, Pass

Made = TypeVar("Made")
BEFORE = "before the first pass"
# How many parts a plan has at most.
MOST_PARTS = 10_000
COLUMNS = ("pass", "station", "begin", "end", "store", "blocks", "MB", "minutes", "before", "after", "lost", "lost MB")


@brief
@dataclass(frozen=True)
class Row:
    """What a pass does to a store: the `blocks` that leave it, their megabytes `mb`, the `minutes` that the link needs
    for them, what the store holds `before` and `after` the pass, and what is `lost` from the pass's begin to that of
    the next one, in blocks and in megabytes. A block is a packet of the store. `name` is that of the pass."""

    name: str
    station: str
    begin: datetime
    end: datetime
    store: str
    blocks: int
    mb: float
    minutes: float
    before: int
    after: int
    lost: int
    lost_mb: float

    def cells(self) -> tuple[Any, ...]:
        """The values, in the order of the columns."""
        return tuple(vars(self).values())


@dataclass(frozen=True, repr=False)
class Sheet(Sequence[Row]):
    """The sheet of a plan: a row for each pass and store, in the order of the passes. Where something is lost before
    the first pass, rows with the name `before the first pass` come first; so all that the rows lose is the loss of the
    plan."""

    rows: tuple[Row, ...]
    made: MissionPlan

    def __repr__(self) -> str:
        return f"<Sheet of {len(self.rows)} rows for {len(self.made.mission.passes)} passes: loses {self.made.loss}>"

    def __len__(self) -> int:
        return len(self.rows)

    @overload
    def __getitem__(self, place: int) -> Row:
        ...

    @overload
    def __getitem__(self, place: slice) -> tuple[Row, ...]:
        ...

    def __getitem__(self, place: int | slice) -> Row | tuple[Row, ...]:
        return self.rows[place]

    def to_dict(self) -> dict[str, list[Any]]:
        """The columns. `begin` and `end` are `datetime`s in UTC."""
        cells = [row.cells() for row in self.rows]
        return {name: [values[place] for values in cells] for place, name in enumerate(COLUMNS)}

    def to_frame(self, make: Callable[[dict[str, list[Any]]], Made]) -> Made:
        """The sheet as a data frame, made by `make`, as `pandas.DataFrame`."""
        return make(self.to_dict())

    def text(self) -> str:
        """The sheet as comma separated values."""
        return csv_of(COLUMNS, map(_printed, self.rows))

    def markdown(self) -> str:
        """The sheet as tables of Markdown: its rows, what the plan loses and how far that is least, and the ages."""
        from ._page import summary

        ages = [(store, f"{age.greatest:.1f}", f"{age.median:.1f}") for store, age in self.made.ages().items()]
        parts = [
            _markdown(COLUMNS, 5, map(_printed, self.rows)),
            "\n\n".join(summary(self)) + "\n",
            _markdown(("store", "greatest age in hours", "median age in hours"), 1, ages),
        ]
        return "\n".join(parts)

    def html(self) -> str:
        """The sheet as a page that can be printed, with the timeline and the chart of the plan."""
        from ._page import page

        return page(self)

    def forms(self) -> Forms:
        """The forms of a file of the sheet, by the ending of its name."""
        return {
            ".csv": self.text,
            ".md": self.markdown,
            ".html": self.html,
            ".xlsx": lambda: workbook_of(self.to_dict()),
        }

    def save(self, path: str | os.PathLike[str]) -> None:
        """Writes the sheet into a file: as .csv, .md, .html or .xlsx, by its name."""
        save_as(path, self.forms())

    def _repr_html_(self) -> str:
        return html_of(dict(zip(COLUMNS, zip(*map(_printed, self.rows)))), most=len(self.rows))


def look_at_horizon(mission: Mission, horizon: timedelta) -> None:
    """Raises `MissionError` where the parts of this length are too many."""
    span = mission.end - mission.begin
    if span > MOST_PARTS * horizon:
        least = timedelta(seconds=-(-span // (MOST_PARTS * timedelta(seconds=1))))
        meant = f"at least {least}, which makes {MOST_PARTS:,} parts"
        raise fault("horizon", f"{horizon}, for a mission of {span}", meant)


def _markdown(names: Sequence[str], words: int, rows: Iterable[Iterable[object]]) -> str:
    """A table of Markdown, whose first columns are words."""
    lines = ["| " + " | ".join(names) + " |", "|" + "---|" * words + "--:|" * (len(names) - words)]
    lines += ["| " + " | ".join(str(cell).replace("|", "\\|") for cell in row) + " |" for row in rows]
    return "\n".join([*lines, ""])


def _printed(row: Row) -> list[object]:
    forms = {"MB": ".3f", "lost MB": ".3f", "minutes": ".1f"}
    return [
        written(cell) if isinstance(cell, datetime) else format(cell, forms[name]) if name in forms else cell
        for name, cell in zip(COLUMNS, row.cells())
    ]


@dataclass(frozen=True, repr=False)
class MissionPlan:
    """The plan of a `mission`, in one part or several: each with its problem and its plan, which in its steps loses
    least from what the part before leaves. Of each part the first `kept` steps are flown; those after them are what the
    part looks ahead. It is shown in a notebook as its chart."""

    mission: Mission
    parts: tuple[tuple[Problem, Plan], ...]
    kept: tuple[int, ...] = ()

    @classmethod
    def of(
        cls,
        mission: Mission,
        step: timedelta | float | None = None,
        horizon: timedelta | None = None,
        in_order: bool = False,
        look: timedelta | None = None,
    ) -> MissionPlan:
        """The plan of a mission, in parts of this horizon if there is one, which looks so far ahead, and serves the
        stores in order or not."""
        if horizon is None:
            return cls.of_problem(mission.problem(step), in_order)
        look_at_horizon(mission, horizon)
        ahead = horizon if look is None else look
        whole = arrivals_of(mission)
        parts: list[tuple[Problem, Plan]] = []
        kept: list[int] = []
        begin, left = mission.begin, mission
        while begin < mission.end:
            end = min(begin + horizon, mission.end)
            part = left.between(begin, min(end + ahead, mission.end))
            # what arrives is rounded from the mission's begin on
            arrivals = {store: coming.after(micro(mission, begin)) for store, coming in whole.items()}
            length = None if step is None else span_of(step, "step")
            problem = problem_of(part, length, (micro(part, end),), arrivals)
            parts.append((problem, plan(problem.setup, problem.forecast, in_order=in_order)))
            kept.append(problem.times.index(end))
            if end < mission.end:
                held = flown_of(*first_steps(problem, parts[-1][1], kept[-1]))[-1].held
                left = mission.between(
                    end, holds={store: Volume(Fraction(count), True) for store, count in held.items()}
                )
            begin = end
        return cls(mission, tuple(parts), tuple(kept))

    @classmethod
    def of_problem(cls, problem: Problem, in_order: bool = False) -> MissionPlan:
        """A least plan of a problem."""
        return cls(problem.mission, ((problem, plan(problem.setup, problem.forecast, in_order=in_order)),))

    def __repr__(self) -> str:
        parts = f" in {len(self.parts)} parts" if len(self.parts) > 1 else ""
        return (
            f"<MissionPlan of {self.mission.name[:60]!r}{parts}, {len(self.mission.passes)} passes: loses {self.loss}>"
        )

    @cached_property
    def flown(self) -> tuple[tuple[Problem, Plan], ...]:
        """The parts without the steps that they look ahead."""
        counts = self.kept or [len(problem) for problem, _ in self.parts]
        return tuple(first_steps(problem, made, count) for (problem, made), count in zip(self.parts, counts))

    @property
    def loss(self) -> int:
        """The blocks that the plan loses. A block is a packet of its store."""
        return sum(self.losses.values())

    @cached_property
    def losses(self) -> dict[str, int]:
        """The blocks that each store loses."""
        return {store.id: sum(step.lost[store.id] for step in self.steps) for store in self.mission.stores}

    @property
    def loss_mb(self) -> float:
        """The megabytes of packets that the plan loses."""
        return sum(self.losses[store.id] * self.mission.packet_of(store) for store in self.mission.stores) / 1e6

    @property
    def plan(self) -> Plan:
        """The plan, where there is one part."""
        return self._one[1]

    @property
    def problem(self) -> Problem:
        """The problem, where there is one part."""
        return self._one[0]

    @property
    def _one(self) -> tuple[Problem, Plan]:
        if len(self.parts) != 1:
            raise fault("", f"a plan of {len(self.parts)} parts", "a plan without a horizon")
        return self.parts[0]

    def check(self) -> tuple[Verdict, ...]:
        """The verdict on the plan of each part, with what it looks ahead."""
        return tuple(check(problem.setup, problem.forecast, made) for problem, made in self.parts)

    @cached_property
    def steps(self) -> tuple[Flown, ...]:
        """What each step does."""
        return tuple(step for problem, made in self.flown for step in flown_of(problem, made))

    def timeline(self) -> Timeline:
        """The dumps one after the other: which store is sent when, in which pass."""
        return Timeline.of(self)

    def ages(self) -> dict[str, Age]:
        """For each store how old the oldest octet is when it goes down: the greatest and the median age, in hours."""
        from .ages import ages_of

        return ages_of(self)

    def ages_in_line(self) -> Iterator[float]:
        """The greatest and the median age of each store, in the order of the stores."""
        for age in self.ages().values():
            yield from (age.greatest, age.median)

    def passes(self, mission: Mission | None = None) -> Sheet:
        """The sheet for operations."""
        if mission is not None and mission != self.mission:
            return Plan.passes(self.plan, mission)
        return Sheet(tuple(self._rows()), self)

    def _rows(self) -> Iterator[Row]:
        passes, steps = self.mission.passes, self.steps
        starts = [step.begin for step in steps]
        # the step in which each pass begins: what is lost from there on is lost after its begin
        first = [max(bisect_right(starts, one.begin) - 1, 0) for one in passes] + [len(steps)]
        if any(any(step.lost.values()) for step in steps[: first[0]]):
            begin, end = self.mission.begin, steps[first[0] - 1].end
            yield from self._rows_of(None, begin, end, steps[: first[0]])
        for place, one in enumerate(passes):
            begin, end = max(one.begin, self.mission.begin), min(one.end, self.mission.end)
            yield from self._rows_of(one, begin, end, steps[first[place] : first[place + 1]])

    def _rows_of(self, one: Pass | None, begin: datetime, end: datetime, steps: Sequence[Flown]) -> Iterator[Row]:
        """The rows of a pass, after whose begin these steps come until the next one begins; or those of the time before
        the first pass."""
        before, after = self.holds(begin), self.holds(end)
        name, station = (one.name, one.station) if one else (BEFORE, "")
        for store in self.mission.stores:
            octets = self.mission.packet_of(store)
            blocks = sum(step.shares.get(name, {}).get(store.id, 0) for step in self.steps)
            lost = sum(step.lost[store.id] for step in steps)
            minutes = float(blocks * octets / use_of(self.mission, one).octets / 60) if one and blocks else 0.0
            held = before[store.id], after[store.id]
            sent = blocks, blocks * octets / 1e6, minutes
            yield Row(name, station, begin, end, store.id, *sent, *held, lost, lost * octets / 1e6)

    def _held(self, store: str, steps: int) -> int:
        """What a store holds after that many steps."""
        if steps:
            return self.steps[steps - 1].held[store]
        return next(self.mission.held_in(each) for each in self.mission.stores if each.id == store)

    def holds(self, utc: Moment) -> dict[str, int]:
        """The blocks that each store holds at a moment. Inside of a step what has arrived rises to whole blocks, and
        what has left, evenly as the timeline says, falls."""
        moment = moment_of(utc, "utc")
        if not self.mission.begin <= moment <= self.mission.end:
            raise fault(
                "", written(moment), f"a moment from {written(self.mission.begin)} to {written(self.mission.end)}"
            )
        done = bisect_right([step.end for step in self.steps], moment)
        if done == len(self.steps) or self.steps[done].begin == moment:
            return {store.id: self._held(store.id, done) for store in self.mission.stores}
        step = self.steps[done]
        part = Fraction((moment - step.begin) // MICROSECOND, (step.end - step.begin) // MICROSECOND)
        coming = arrivals_of(self.mission)
        times = [micro(self.mission, time) for time in (step.begin, moment)]
        found = {}
        for store in self.mission.stores:
            (come,) = coming[store.id].column(times)
            held = self._held(store.id, done) + come - int(step.dumped[store.id] * part)
            found[store.id] = max(min(held, self.mission.size_of(store)), 0)
        return found

    def at(self, utc: Moment, holds: Mapping[str, VolumeLike] | None = None) -> Mission:
        """The mission from a moment on, to be planned again: its stores hold what they do then by this plan, or the
        volumes that were measured."""
        planned: dict[str, VolumeLike] = {
            store: Volume(Fraction(held), True) for store, held in self.holds(utc).items()
        }
        if not isinstance(holds or {}, Mapping):
            raise fault("holds", holds, 'what stores hold, as {"CAM": "231 MB"}')
        return self.mission.between(utc, holds={**planned, **(holds or {})})

    def charts(self) -> tuple[str, ...]:
        """The chart of each part, with UTC on its axis, as SVG. One of several says what is lost in its part."""
        from .pictures import chart_of

        if len(self.parts) == 1:
            return (chart_of(*self.parts[0]),)
        return tuple(
            chart_of(*flown, part=len(flown[0]), of=len(problem))
            for flown, (problem, _) in zip(self.flown, self.parts)
        )

    def _repr_html_(self) -> str:
        return "".join(self.charts())
