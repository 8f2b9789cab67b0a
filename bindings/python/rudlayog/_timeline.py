"""The problem of a mission: its setup and its forecast, counted in one unit for link and memory, and which step is
when."""

from __future__ import annotations

from bisect import bisect_right
from collections.abc import Callable, Iterable, Mapping, Sequence
from datetime import datetime, timedelta
from functools import cached_property
from typing import TYPE_CHECKING, Any

from ._data import LIMIT
from ._edges import edges_of, shown_edges
from ._flows import Coming, Contact, Unit, arrivals_of, contacts_of, micro, uses_of
from ._units import MICROSECOND, fault, moment_of, whole_of, written
from ._windows import limited_in, windows_of
from .calls import plan
from .forecasts import Forecast
from .plans import Plan
from .setups import Setup, Store

if TYPE_CHECKING:
    from .mission import Mission, PacketStore

Arrivals = Mapping[str, Coming]
# What arrives in a step may be sent in it.
DURING = "during"
# The greatest number that a setup or a forecast may have.
MOST_BLOCKS = 1_000_000
# How many units are tried where packets differ in length.
MOST_TRIED = 128
# No unit has more packets: numbers that are out of range with it are so with each.
MOST_COUNT = 2**200


class Problem(tuple[Setup, Forecast]):
    """What is planned: the `setup` and the `forecast` (`setup, forecast = problem`), the `times` at which the steps
    begin, and the last one ends, and the `unit` in which blocks are counted there. `len(problem)` is the number of
    steps."""

    mission: Mission
    unit: Unit
    edges: tuple[int, ...]
    contacts: tuple[Contact, ...]
    # What arrives in each store, exactly, in packets.
    arrivals: Arrivals

    def __new__(
        cls,
        setup: Setup,
        forecast: Forecast,
        mission: Mission,
        unit: Unit,
        edges: Sequence[int],
        contacts: Sequence[Contact],
        arrivals: Arrivals,
    ) -> Problem:
        made = tuple.__new__(cls, (setup, forecast))
        made.mission, made.unit, made.edges, made.contacts = mission, unit, tuple(edges), tuple(contacts)
        made.arrivals = arrivals
        return made

    def __reduce__(self) -> tuple[object, ...]:
        parts = self.mission, self.unit, self.edges, self.contacts, self.arrivals
        return Problem, (self.setup, self.forecast, *parts)

    @property
    def setup(self) -> Setup:
        """The setup."""
        return self[0]

    @property
    def forecast(self) -> Forecast:
        """The forecast."""
        return self[1]

    @cached_property
    def times(self) -> tuple[datetime, ...]:
        """When each step begins, and when the last one ends."""
        return tuple(self.mission.begin + edge * MICROSECOND for edge in self.edges)

    def __len__(self) -> int:
        return len(self.edges) - 1

    def __repr__(self) -> str:
        return (
            f"<Problem of {len(self)} steps from {written(self.times[0])} to {written(self.times[-1])}, "
            f"{len(self.setup.stores)} stores>"
        )

    def _repr_html_(self) -> str:
        from ._tables import html_of

        return html_of({"begin": self.times[:-1], "end": self.times[1:]} | dict[str, Any](self.forecast.to_dict()))

    def when(self, step: int) -> tuple[datetime, datetime]:
        """When a step begins and ends. Steps count from 1."""
        if not 1 <= whole_of(step, "step") <= len(self):
            raise fault("", f"the step {step}", f"a step from 1 to {len(self)}")
        return self.times[step - 1], self.times[step]

    def step_at(self, moment: Any) -> int:
        """The step in which a moment lies."""
        utc = moment_of(moment, "moment")
        if not self.times[0] <= utc < self.times[-1]:
            raise fault("", written(utc), f"a moment from {written(self.times[0])} to {written(self.times[-1])}")
        return bisect_right(self.times, utc)

    def least(self) -> Plan:
        """A plan that loses least."""
        return self._least

    @cached_property
    def _least(self) -> Plan:
        return plan(self.setup, self.forecast)

    def shown(self) -> Problem:
        """The same problem with all events between passes, if 256 steps allow them, for pictures and tables over the
        time."""
        edges = shown_edges(self.mission, self.edges)
        inside = [edge for edge in edges if edge <= self.edges[-1]]
        if len(inside) == len(self.edges):
            return self
        return problem_with(self.mission, inside, self.unit, self.arrivals)

    def rounding(self) -> list[dict[str, Any]]:
        """What is rounded, a row for each step of a pass, of a channel of a pass, or of a store, and for sizes and what
        is held as the mission begins: `exact` units could be sent, stored or arrive, `blocks` are counted, `carried`
        goes over to the next step, and `octets` is what that may cost."""
        from ._rounding import rounding_of

        return rounding_of(self)

    def rounding_cost(self) -> dict[str, float]:
        """What rounding may cost at most, in octets: of `windows` in all, and each time that the stores are full of
        `sizes` and of `arrivals`, with what is held as the mission begins."""
        from ._rounding import cost_of

        return cost_of(self)


def problem_of(
    mission: Mission, step: timedelta | None = None, also: Iterable[int] = (), arrivals: Arrivals | None = None
) -> Problem:
    """The problem of a mission, with steps from event to event, or of at most one length; one begins at each moment
    that is given `also`, in microseconds from the mission's begin. The `arrivals` are those of the mission, or of a
    longer one of which it is a part."""
    edges = edges_of(mission, step, also)
    arrivals = arrivals or arrivals_of(mission)
    return problem_with(mission, edges, unit_of(mission, edges, arrivals), arrivals)


def problem_with(mission: Mission, edges: Sequence[int], unit: Unit, arrivals: Arrivals) -> Problem:
    """The problem with these steps, in this unit."""
    contacts = contacts_of(mission, unit)
    windows, limits = windows_of(contacts, edges, limited_in(mission))
    columns = {store: coming.column(edges, unit.packets[store]) for store, coming in arrivals.items()}
    setup = Setup(tuple(stored(mission, store, unit) for store in mission.stores), mission.routes, (), DURING)
    forecast = Forecast.of(windows, columns, {f"{LIMIT}{channel}": column for channel, column in limits.items()})
    return Problem(setup, forecast, mission, unit, edges, contacts, arrivals)


def stored(mission: Mission, store: PacketStore, unit: Unit) -> Store:
    """The store as the library has it: its size falls to whole units, and what it holds rises, but not above its
    size."""
    packets = unit.packets[store.id]
    size = mission.size_of(store) // packets
    return Store(store.id, size, store.type, store.channel, min(-(-mission.held_in(store) // packets), size))


def unit_of(mission: Mission, edges: Sequence[int], arrivals: Arrivals) -> Unit:
    """The unit of a mission with these steps. It is the least one with which all numbers are in range; where packets
    differ in length it is, of some units from that one on, the one whose rounding costs least."""
    in_range = _in_range(mission, edges, arrivals)
    if mission.unit and in_range(mission.unit):
        return Unit.of(mission, mission.unit)
    count = max(mission.unit, 1)
    while not in_range(count):
        if count > MOST_COUNT:
            found = f"data that fill a store more than {MOST_BLOCKS:,} times in one step"
            raise fault("", found, "a store with more room, or fewer data")
        count *= 2
    least = count // 2
    while count - least > 1:
        middle = (count + least) // 2
        least, count = (least, middle) if in_range(middle) else (middle, count)
    if len({mission.packet_of(store) for store in mission.stores}) == 1:
        return Unit.of(mission, count)
    tried = (Unit.of(mission, each) for each in range(count, count + MOST_TRIED))
    return next(unit for unit in sorted(tried, key=_costs(mission, arrivals)) if in_range(unit.count))


def _in_range(mission: Mission, edges: Sequence[int], arrivals: Arrivals) -> Callable[[int], bool]:
    """Whether sizes, arrivals and windows are in range in units of this many of the longest packets."""
    sizes = {store.id: mission.size_of(store) for store in mission.stores}

    def is_in_range(count: int) -> bool:
        unit = Unit.of(mission, count)
        if any(sizes[store] // packets > MOST_BLOCKS for store, packets in unit.packets.items()):
            return False
        if any(max(arrivals[store].column(edges, packets)) > MOST_BLOCKS for store, packets in unit.packets.items()):
            return False
        windows, limits = windows_of(contacts_of(mission, unit), edges, limited_in(mission))
        return max(max(windows), *(max(column) for column in limits.values()), 0) <= MOST_BLOCKS

    return is_in_range


def _costs(mission: Mission, arrivals: Arrivals) -> Callable[[Unit], tuple[int, int]]:
    """What rounding to a unit costs, in octets: what sizes, arrivals and passes have over whole units, and what a unit
    of some store takes less on a link than that of another."""
    last = micro(mission, mission.end)
    whole = [
        (store.id, mission.size_of(store), mission.held_in(store), sum(arrivals[store.id].column((0, last))))
        for store in mission.stores
    ]
    passes = [int(use.octets * (use.end - use.begin) / 1_000_000) for use in uses_of(mission)]

    def cost(unit: Unit) -> tuple[int, int]:
        found = 0
        for store, size, held, arrive in whole:
            packets = unit.packets[store]
            found += (size % packets + -held % packets + -arrive % packets) * (unit.octets[store] // packets)
        least = min(unit.octets.values())
        return found + sum(octets - octets // unit.link * least for octets in passes), unit.count

    return cost
