"""What a study begins with: a mission in its unit, or a setup and a forecast; and the texts of variants that differ from
it in passes, in what arrives and in sizes. They are those of the problem of the changed mission, made of parts that are
kept."""

from __future__ import annotations

import re
from collections.abc import Callable, Iterable, Iterator, Sequence
from dataclasses import dataclass
from functools import cached_property, lru_cache
from itertools import chain, pairwise, repeat
from operator import floordiv, mul, sub
from typing import TYPE_CHECKING, Any, NamedTuple

from ._brief import brief
from ._data import LIMIT, STEP, WINDOW
from ._edges import edges_in, moments_of
from ._flown import InPackets
from ._flows import Unit, contact_of, uses_of
from ._timeline import MOST_BLOCKS, Problem, stored
from ._units import MissionError, number_of
from ._windows import windows_of
from .forecasts import Forecast
from .plans import MOST_STEPS
from .setups import Setup
from .variants import FACTOR, Change, Lost, Rated, Scaled, Shortened, Sized, in_its_unit

if TYPE_CHECKING:
    from .mission import Mission, Pass

_SIZE = re.compile(rb"\nsize = \d+\n")
# How many parts of texts are kept: of passes, and of what arrives.
KEPT, ROWS = 4096, 16
# A number above another one.
Factor = tuple[int, int]


def _product(one: Factor, other: Factor) -> Factor:
    return one[0] * other[0], one[1] * other[1]


@brief
@dataclass(frozen=True)
class Base:
    """The setup and the forecast of a study, and the mission that they are of, in its unit, if there is one."""

    setup: Setup
    forecast: Forecast
    mission: Mission | None = None

    @classmethod
    def of_mission(cls, mission: Mission) -> Base:
        """The base of a mission."""
        counted = in_its_unit(mission)
        return cls(*counted.problem(), mission=counted)

    @classmethod
    def in_parts(cls, mission: Mission) -> Base:
        """The base of a mission that is planned in parts: of its setup and its forecast the stores alone are used."""
        stores = tuple(map(mission.setup_store, mission.stores))
        return cls(Setup(stores, mission.routes), Forecast.of([0], {store.id: [0] for store in stores}), mission)

    @property
    def problem(self) -> Problem:
        """The problem of the mission."""
        assert self.mission is not None
        return self.mission.problem()

    @cached_property
    def quick(self) -> Quick | None:
        """What makes texts of variants of a mission quickly."""
        return None if self.mission is None else Quick(self.problem)

    def __reduce__(self) -> tuple[object, ...]:
        return Base, (self.setup, self.forecast, self.mission)


class QuickTexts(NamedTuple):
    """The setup and the forecast of a variant, and its stores: in packets, or how many packets a unit of each has."""

    setup: bytes
    forecast: bytes
    stores: Sequence[int | InPackets]


class Room(NamedTuple):
    """What passes can send in steps with these edges: of each step the cells before what arrives, but for the number of
    the step, and those after it."""

    edges: list[int]
    heads: list[str]
    tails: list[str]


class Frame(NamedTuple):
    """A forecast but for what arrives: the header, the edges of each step, and its cells before and after."""

    header: str
    steps: list[tuple[int, int]]
    heads: list[str]
    tails: list[str]


class _OutOfRange(Exception):
    """A number is greater than there may be, so that the variant has another unit or is refused."""


class _Rows(dict[tuple[int, int], str]):
    """What arrives in the stores in a step, by its edges, as the cells of a row: in units of so many packets, and this
    many times as much."""

    def __init__(self, quick: Quick, factors: Sequence[Factor], packets: Sequence[int]) -> None:
        super().__init__()
        self._until, self._form = quick.until, quick.row_form
        self._parts = [
            (times, -coming.below * each * parts)
            for coming, each, (times, parts) in zip(quick.coming, packets, factors)
        ]
        # the units that have come until each edge, as negative numbers: one that has begun is whole
        come = [
            list(map(floordiv, map(mul, above, repeat(times)), repeat(below)))
            for above, (times, below) in zip(quick.above, self._parts)
        ]
        self._come: dict[int, tuple[int, ...]] = dict(zip(quick.edges, zip(*come)))
        arrivals = [list(map(sub, column, column[1:])) for column in come]
        self.most = max(max(column) for column in arrivals)
        rows = quick.rows_form % tuple(chain.from_iterable(zip(*arrivals)))
        self.update(zip(pairwise(quick.edges), rows.split("\n")))

    def _until_edge(self, edge: int) -> tuple[int, ...]:
        if edge not in self._come:
            above = self._until(edge)
            self._come[edge] = tuple([each * times // below for each, (times, below) in zip(above, self._parts)])
        return self._come[edge]

    def arrivals(self, step: tuple[int, int]) -> tuple[int, ...]:
        """What arrives in each store in a step."""
        begin, end = step
        return tuple(map(sub, self._until_edge(begin), self._until_edge(end)))

    def __missing__(self, step: tuple[int, int]) -> str:
        arrivals = self.arrivals(step)
        if max(arrivals) > MOST_BLOCKS:
            raise _OutOfRange
        self[step] = row = self._form % arrivals
        return row


class Quick:
    """The texts of variants of a problem."""

    def __init__(self, problem: Problem) -> None:
        self.mission, self.unit = problem.mission, problem.unit
        self.stores = tuple(store.id for store in self.mission.stores)
        self.packets = tuple(self.unit.packets.values())
        self.setup = problem.setup
        self.form = _SIZE.sub(b"\nsize = %d\n", bytes(problem.setup).replace(b"%", b"%%"))
        self.edges, self.moments = problem.edges, moments_of(self.mission)
        self.coming = list(problem.arrivals.values())
        self.until = lru_cache(None)(lambda edge: [coming.until(edge) for coming in self.coming])
        self.above = list(zip(*map(self.until, self.edges)))
        # the arrivals of a row, and of all rows
        self.row_form = ",".join(["%d"] * len(self.stores))
        self.rows_form = "\n".join([self.row_form] * len(problem))
        # the channels of the mission's own passes, which are known by their places in memory
        self.channels = {id(one): self._channels(one) for one in self.mission.passes}
        self._kept: dict[tuple[Any, ...], Any] = {}
        self._rows = lru_cache(ROWS)(lambda factors, packets: _Rows(self, factors, packets))

    def texts(self, changes: Sequence[Change]) -> QuickTexts | None:
        """The setup and the forecast of the mission with these changes, and its stores. None where others than passes,
        arrivals and sizes change, or where something is refused or out of range: the changed mission says what that
        is."""
        try:
            return self._texts(changes)
        except (MissionError, _OutOfRange):
            return None

    def _texts(self, changes: Sequence[Change]) -> QuickTexts | None:
        made, common = self.mission, (1, 1)
        own: dict[str, Factor] = {}
        is_sized = False
        for change in changes:
            if isinstance(change, Scaled):
                factor = number_of(change.factor, "factor", FACTOR).as_integer_ratio()
                for store in set(change.stores):
                    own[store] = _product(own.get(store, (1, 1)), factor)
                common = common if change.stores else _product(common, factor)
            elif isinstance(change, (Lost, Shortened, Rated, Sized)):
                made = change.of(made, self.mission)
                is_sized |= isinstance(change, Sized)
            else:
                return None
        if not own.keys() <= set(self.stores):
            return None
        factors = tuple([_product(common, own[store]) if store in own else common for store in self.stores])
        frame, rows = self._frame(made.passes), self._rows(factors, self.packets)
        if rows.most > MOST_BLOCKS:
            raise _OutOfRange
        lines = zip(frame.heads, map(rows.__getitem__, frame.steps), frame.tails)
        forecast = "".join([frame.header, *chain.from_iterable(lines)]).encode()
        setup = self._setup(made) if is_sized else bytes(self.setup)
        if set(self.packets) == {1}:
            return QuickTexts(setup, forecast, self.packets)
        columns = zip(*map(self._rows(factors, (1,) * len(self.packets)).arrivals, frame.steps))
        stores = [
            InPackets(packets, made.size_of(store), made.held_in(store), column)
            for packets, store, column in zip(self.packets, made.stores, columns)
        ]
        return QuickTexts(setup, forecast, stores)

    def _setup(self, made: Mission) -> bytes:
        """The setup of the mission with other sizes."""
        if Unit.of(made, self.unit.count) != self.unit:
            raise _OutOfRange
        stores = [stored(made, store, self.unit) for store in made.stores]
        if any(store.size > MOST_BLOCKS or store.start != own.start for store, own in zip(stores, self.setup.stores)):
            raise _OutOfRange
        return self.form % tuple([store.size for store in stores])

    def _frame(self, passes: Sequence[Pass]) -> Frame:
        """The forecast of the mission with these passes, but for what arrives."""
        frame: Frame = self._once(self._frame_of, passes)
        return frame

    def _once(self, make: Callable[..., Any], passes: Sequence[Pass], *more: Any) -> Any:
        """What is made of some passes. It is kept where they are the mission's own: the same objects."""
        own = tuple(map(id, passes))
        found = self._kept.get((make, own, *more))
        if found is None:
            found = make(passes, *more)
            if len(self._kept) < KEPT and self.channels.keys() >= set(own):
                self._kept[make, own, *more] = found
        return found

    def _frame_of(self, passes: Sequence[Pass]) -> Frame:
        channels = [self.channels.get(id(one)) or self._channels(one) for one in passes]
        limited = tuple(sorted(frozenset().union(*channels)))
        edges, heads, tails = [0], [], []
        nothing = ",0" * len(limited) + "\n"
        rooms = [self._once(self._room_of, group, limited) for group in _overlapping(passes)]
        for room in (*rooms, Room([self.edges[-1]], [], [])):
            if edges[-1] < room.edges[0]:
                edges.append(room.edges[0])
                heads.append("0")
                tails.append(nothing)
            edges += room.edges[1:]
            heads += room.heads
            tails += room.tails
        if len(heads) > MOST_STEPS:
            raise _OutOfRange
        header = ",".join([STEP, WINDOW, *self.stores, *(f"{LIMIT}{channel}" for channel in limited)])
        numbered = [f"{step},{window}," for step, window in enumerate(heads, 1)]
        return Frame(f"{header}\n", list(pairwise(edges)), numbered, tails)

    def _channels(self, one: Pass) -> frozenset[int]:
        """The channels that have a rate in a pass."""
        return frozenset(self.mission.rates(one)[1])

    def _room_of(self, group: list[Pass], limited: tuple[int, ...]) -> Room:
        """What passes that overlap one another can send."""
        uses = uses_of(self.mission, group)
        edges = sorted(edges_in(uses, self.moments))
        windows, limits = windows_of([contact_of(use, self.unit) for use in uses], edges, limited)
        if max(max(column) for column in (windows, *limits.values())) > MOST_BLOCKS:
            raise _OutOfRange
        tails = ["".join([f",{column[step]}" for column in limits.values()]) + "\n" for step in range(len(windows))]
        return Room(edges, list(map(str, windows)), tails)


def _overlapping(passes: Iterable[Pass]) -> Iterator[list[Pass]]:
    """The passes, in the order of their begins, those together that overlap one another."""
    group: list[Pass] = []
    for one in passes:
        if group and one.begin >= max(other.end for other in group):
            yield group
            group = []
        group.append(one)
    if group:
        yield group
