"""What the steps of a plan do, in packets."""

from __future__ import annotations

from collections.abc import Iterable, Iterator, Mapping, Sequence
from dataclasses import dataclass
from datetime import datetime
from typing import NamedTuple

from ._brief import brief
from ._sharing import Link, shared
from ._timeline import Problem
from .calls import table
from .forecasts import Forecast
from .plans import Plan


@brief
@dataclass(frozen=True)
class Flown:
    """What a step does, by store: what is lost and dumped, and what is held as it ends, in packets. `shares` is what
    leaves in each pass."""

    begin: datetime
    end: datetime
    arrived: Mapping[str, int]
    lost: Mapping[str, int]
    dumped: Mapping[str, int]
    held: Mapping[str, int]
    shares: Mapping[str, Mapping[str, int]]


def first_steps(problem: Problem, made: Plan, count: int) -> tuple[Problem, Plan]:
    """A problem and a plan with their first steps alone. The plan has no cut where some are left out."""
    if count == len(problem):
        return problem, made
    forecast = problem.forecast
    arrivals = {store: column[:count] for store, column in forecast.arrivals.items()}
    limits = {name: column[:count] for name, column in forecast.limits.items()}
    short = Forecast.of(forecast.windows[:count], arrivals, limits)
    dumps = Plan.of({store: column[:count] for store, column in made.by_store.items()})
    loss = sum(table(problem.setup, short, dumps).to_dict()["lost"])
    flown = Plan.of({store: column[:count] for store, column in made.by_store.items()}, loss)
    parts = problem.mission, problem.unit, problem.edges[: count + 1], problem.contacts, problem.arrivals
    return Problem(problem.setup, short, *parts), flown


class InPackets(NamedTuple):
    """A store in packets: how many a unit has, how many it has room for and holds as the mission begins, and how many
    come in each step. One that has begun to come is there."""

    packets: int
    size: int
    start: int
    arrivals: Sequence[int]

    def steps(self, units: Iterable[int]) -> Iterator[tuple[int, int, int, int]]:
        """What arrives, is lost, leaves and is held in each step, where the plan has so many units leave: of a unit
        whose last packets have not come, those that have."""
        held = self.start
        for arrived, count in zip(self.arrivals, units):
            there = held + arrived
            dumped = min(count * self.packets, there)
            lost = max(there - dumped - self.size, 0)
            held = there - dumped - lost
            yield arrived, lost, dumped, held


def in_packets(problem: Problem) -> tuple[InPackets, ...]:
    """The stores of a problem in packets."""
    mission, packets = problem.mission, problem.unit.packets
    return tuple(
        InPackets(
            packets[store.id],
            mission.size_of(store),
            mission.held_in(store),
            problem.arrivals[store.id].column(problem.edges),
        )
        for store in mission.stores
    )


def flown_of(problem: Problem, made: Plan) -> list[Flown]:
    """What each step of a problem does."""
    channels = {store.id: store.channel for store in problem.setup.stores}
    links = _links_of(problem)
    found = []
    for step, values in enumerate(_values_of(problem, made)):
        left = dict(values["dumped"])
        shares: dict[str, dict[str, int]] = {}
        units = {store: column[step] for store, column in made.by_store.items()}
        for place, share in shared(units, channels, links[step]).items():
            mine = shares.setdefault(problem.contacts[place].one.name, {})
            for store, count in share.items():
                packets = min(count * problem.unit.packets[store], left[store])
                left[store] -= packets
                mine[store] = mine.get(store, 0) + packets
        found.append(Flown(problem.times[step], problem.times[step + 1], **values, shares=shares))
    return found


def _values_of(problem: Problem, made: Plan) -> Iterator[dict[str, dict[str, int]]]:
    """What each step does to each store, in packets: the library's table, where a unit is a packet."""
    stores = [store.id for store in problem.setup.stores]
    names = ("arrived", "lost", "dumped", "held")
    if set(problem.unit.packets.values()) == {1}:
        columns = table(problem.setup, problem.forecast, made).to_dict()
        for first in range(0, len(problem) * len(stores), len(stores)):
            yield {name: dict(zip(stores, columns[name][first : first + len(stores)])) for name in names}
        return
    steps = [each.steps(made.by_store[store]) for store, each in zip(stores, in_packets(problem))]
    for values in zip(*steps):
        yield {name: dict(zip(stores, column)) for name, column in zip(names, zip(*values))}


def _links_of(problem: Problem) -> list[list[Link]]:
    """The links of each step: the number of the pass, what it can send, and what it can on each channel."""
    sends = [contact.sends.falls(problem.edges) for contact in problem.contacts]
    limits = [
        {channel: flow.falls(problem.edges) for channel, flow in contact.channels.items()}
        for contact in problem.contacts
    ]
    return [
        [
            (place, column[step], {channel: blocks[step] for channel, blocks in limits[place].items()})
            for place, column in enumerate(sends)
            if column[step]
        ]
        for step in range(len(problem))
    ]
