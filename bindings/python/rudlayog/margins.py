"""Room to spare: by how much arrivals may grow, and stores may shrink, before more is lost.

    >>> from rudlayog.mission import Mission, Observation, PacketStore, Pass
    >>> mission = Mission(
    ...     stores=[PacketStore("CAM", size="24 MB")],
    ...     passes=[Pass("Malargue", "2031-03-03T06:00:00Z", "2031-03-03T07:00:00Z", rate="64 kbit/s")],
    ...     observations=[Observation("CAM", "2031-03-03T00:00:00Z", "2031-03-03T06:00:00Z", volume="20 MB")],
    ...     packet=1000,
    ... )
    >>> margin = mission.margin()
    >>> margin.growth.percent, margin.growth.check().line, margin.growth.beyond.check().line, margin.shrink.percent
    (17.1, 'least 0', 'least 3', 14.6)
"""

from __future__ import annotations

from collections.abc import Callable
from dataclasses import dataclass, replace
from fractions import Fraction
from functools import cache, cached_property
from typing import TYPE_CHECKING, Any

from ._brief import brief
from ._files import Forms, table_forms
from ._timeline import Problem, problem_of
from ._units import fault
from .calls import Verdict, check, plan
from .forecasts import Forecast
from .plans import Plan
from .setups import Setup, Store
from .variants import in_its_unit, scaled

if TYPE_CHECKING:
    from .mission import Mission
    from .pictures import Picture
    from .sheets import MissionPlan

# The most that is looked at, in tenths of a percent.
MOST_GROWTH, MOST_SHRINK = 1_000_000, 1000
# How many points a picture has.
POINTS = 40


@brief
@dataclass(frozen=True)
class Point:
    """A mission with more that arrives, or with smaller stores, by some `percent`: its texts, and a least plan, which
    `check` judges. `unit` is how many of the longest packets are counted as one there."""

    percent: float
    setup: Setup
    forecast: Forecast
    plan: Plan
    unit: int = 1

    @property
    def loss(self) -> int:
        """The packets that the plan loses, as many of the longest ones."""
        return self.plan.loss * self.unit

    def check(self) -> Verdict:
        """The verdict on the plan."""
        return check(self.setup, self.forecast, self.plan)


@brief
@dataclass(frozen=True)
class Room:
    """The greatest percentage, with one decimal, at which no more is lost than today, with its point; and the point
    `beyond` it, a tenth further, whose cut shows that more is lost. There is no such point where even the most that is
    looked at loses no more."""

    percent: float
    point: Point
    beyond: Point | None

    def check(self) -> Verdict:
        """The verdict on the plan at the greatest percentage."""
        return self.point.check()

    def words(self) -> str:
        """The percentage, as it is printed."""
        return f"{self.percent:.1f} %{'' if self.beyond else ' and more'}"


@dataclass(frozen=True, repr=False)
class Margin:
    """The room to spare of a mission that loses `loss` blocks today: by how much what arrives in the `stores` may grow
    (`growth`), and by how much all stores may shrink (`shrink`)."""

    mission: Mission
    stores: tuple[str, ...]
    problem: Problem
    loss: int
    growth: Room
    shrink: Room

    @classmethod
    def of(cls, mission: Mission, stores: tuple[str, ...] = ()) -> Margin:
        """The margin of a mission, with growth in these stores or in all."""
        problem = in_its_unit(mission).problem()
        names = [store.id for store in mission.stores]
        for name in stores:
            if name not in names:
                raise fault("", f"the store {name!r}", f"one of the stores {', '.join(names)}")
        loss = problem.least().loss * problem.unit.count
        growth = _room(lambda tenths: _grown(problem, stores, tenths), loss, MOST_GROWTH)
        return cls(
            mission, stores, problem, loss, growth, _room(lambda tenths: _shrunk(problem, tenths), loss, MOST_SHRINK)
        )

    def __repr__(self) -> str:
        return (
            f"<Margin of a mission that loses {self.loss}: arrivals may grow by {self.growth.words()}, stores shrink "
            f"by {self.shrink.words()}>"
        )

    @cached_property
    def plan(self) -> MissionPlan:
        """The plan with that room: it loses least today, and no more where arrivals have grown as far."""
        from .sheets import MissionPlan

        today = self.problem.least()
        made = Plan.of(self.growth.point.plan.to_dict(), today.loss, today.cut)
        return MissionPlan(self.mission, ((self.problem, made),))

    def to_dict(self) -> dict[str, list[Any]]:
        """The table: of growth and of shrinking the percentage, what is lost there, and what a tenth further."""
        rooms = {"arrivals grow": self.growth, "stores shrink": self.shrink}
        return {
            "what": list(rooms),
            "percent": [room.percent for room in rooms.values()],
            "loss": [room.point.loss for room in rooms.values()],
            "beyond": [None if room.beyond is None else room.beyond.loss for room in rooms.values()],
        }

    def text(self) -> str:
        """The table as comma separated values."""
        from ._tables import csv_of

        columns = self.to_dict()
        return csv_of(columns, zip(*columns.values()))

    def forms(self) -> Forms:
        """The forms of a file of the table, by the ending of its name; `.svg` is the picture."""
        return {**table_forms(self.text, self.to_dict, "Room to spare"), ".svg": lambda: self.plot().svg}

    def words(self) -> str:
        """The margin in words."""
        of = f"what arrives in {', '.join(self.stores)}" if self.stores else "all that arrives"
        return (
            f"Before more is lost, {of} may grow by {self.growth.words()}, or all stores may shrink by "
            f"{self.shrink.words()}."
        )

    def plot(self) -> Picture:
        """A picture: the loss over the growth of what arrives, up to twice the margin."""
        from .pictures import line_picture

        last = min(max(2 * round(self.growth.percent * 10), 100), MOST_GROWTH)
        tenths = sorted({last * point // POINTS for point in range(POINTS + 1)})
        points = [(each / 10, _grown(self.problem, self.stores, each).loss) for each in tenths]
        return line_picture(points, self.growth.percent, "Blocks lost where more arrives", "growth in percent")

    def _repr_html_(self) -> str:
        from ._tables import html_of

        return html_of(self.to_dict())


def _room(point_at: Callable[[int], Point], loss: int, most: int) -> Room:
    """The greatest number of tenths of a percent at which no more is lost than this, up to the most."""
    looked = cache(point_at)
    least = _greatest(lambda tenths: looked(tenths).loss <= loss, most)
    if least == most:
        return Room(least / 10, looked(least), None)
    return Room(least / 10, looked(least), looked(least + 1))


def _greatest(holds: Callable[[int], bool], most: int) -> int:
    """The greatest number up to the most for which this holds; it holds for 0."""
    least, step, above = 0, 8, most + 1
    while above > most and least < most:
        tried = min(least + step, most)
        if holds(tried):
            least, step = tried, 2 * step
        else:
            above = tried
    while least < most and above - least > 1:
        middle = (least + above) // 2
        if holds(middle):
            least = middle
        else:
            above = middle
    return least


def _grown(problem: Problem, stores: tuple[str, ...], tenths: int) -> Point:
    """The mission with this many tenths of a percent more that arrives."""
    if not tenths:
        return Point(0.0, problem.setup, problem.forecast, problem.least(), problem.unit.count)
    made = scaled(1 + Fraction(tenths, 1000), *stores).of(problem.mission, problem.mission)
    grown = problem_of(made)
    return Point(tenths / 10, grown.setup, grown.forecast, grown.least(), grown.unit.count)


def _shrunk(problem: Problem, tenths: int) -> Point:
    """The mission with stores that are this many tenths of a percent smaller, by whole blocks of the problem. What they
    hold as the mission begins and has no room there arrives in the first step; what of it does not leave in it is
    lost."""
    sizes = [max(store.size * (1000 - tenths) // 1000, 1) for store in problem.setup.stores]
    stores = [
        Store(each.id, size, each.type, each.channel, min(each.start, size))
        for each, size in zip(problem.setup.stores, sizes)
    ]
    setup = replace(problem.setup, stores=tuple(stores))
    forecast = problem.forecast
    more = {
        each.id: each.start - store.start
        for each, store in zip(problem.setup.stores, stores)
        if each.start > store.start
    }
    if more:
        columns = {
            name: (forecast.arrivals[name][0] + units, *forecast.arrivals[name][1:]) for name, units in more.items()
        }
        forecast = forecast.having(arrivals=columns)
    return Point(tenths / 10, setup, forecast, plan(setup, forecast), problem.unit.count)
