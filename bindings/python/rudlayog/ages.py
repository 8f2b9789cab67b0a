"""How old data are when they go down. A store gives its oldest first; a full circular one loses its oldest, a full
bounded one what arrives."""

from __future__ import annotations

from bisect import bisect_left
from collections import deque
from collections.abc import Iterator
from dataclasses import dataclass
from fractions import Fraction
from typing import TYPE_CHECKING, NamedTuple

from ._brief import brief
from ._edges import moments_of
from ._flows import micro

if TYPE_CHECKING:
    from .mission import PacketStore
    from .sheets import MissionPlan


# Some packets, when the first of them begins to come, and how long after it the next one does, in microseconds.
Packets = tuple[Fraction, Fraction, Fraction]


class Piece(NamedTuple):
    """Some packets that go down one after the other, with ages in microseconds from the least to the greatest,
    evenly."""

    packets: Fraction
    least: float
    most: float

    def below(self, age: float) -> float:
        """How many of them are at most so old."""
        if age >= self.most:
            return float(self.packets)
        return 0 if age < self.least else float(self.packets) * (age - self.least) / (self.most - self.least)


@brief
@dataclass(frozen=True)
class Age:
    """How old data are as the timeline sends them, in hours: the `greatest` age of a store's packets, and the `median`,
    in which each packet counts once. What a store holds as the mission begins counts as new then. Both are 0 where
    nothing goes down."""

    greatest: float
    median: float


def ages_of(made: MissionPlan) -> dict[str, Age]:
    """The ages of the stores of a plan."""
    return {store.id: _age_of(made, store) for store in made.mission.stores}


def _age_of(made: MissionPlan, store: PacketStore) -> Age:
    """The ages of a store."""
    size, held = made.mission.size_of(store), made.mission.held_in(store)
    queue: deque[Packets] = deque([(Fraction(held), Fraction(0), Fraction(0))] if held else [])
    found: list[Piece] = []
    for step, arrived in zip(made.steps, _arrivals(made, store)):
        lost, sent = step.lost[store.id], Fraction(step.dumped[store.id])
        if sent:
            begin, end = (Fraction(micro(made.mission, time)) for time in (step.begin, step.end))
            come = Fraction(step.arrived[store.id])
            # until the store is full nothing is lost
            part = Fraction(size - held, size - held + lost) if lost else Fraction(1)
            full = begin + part * (end - begin)
            found += _sent(queue, begin, full, come * part, sent * part)
            come, sent = come * (1 - part), sent * (1 - part)
            if store.type == "circular":
                found += _sent(queue, full, end, come, sent, lost)
            else:
                found += _sent(queue, full, end, come - lost, sent)
        else:
            queue.extend(arrived)
            _take(queue, Fraction(lost), oldest=store.type == "circular")
        held = step.held[store.id]
    return Age(_hours(max((each.most for each in found), default=0.0)), _hours(_median(found)))


def _sent(
    queue: deque[Packets], begin: Fraction, end: Fraction, come: Fraction, sent: Fraction, lost: int = 0
) -> Iterator[Piece]:
    """Some packets come evenly, some go down evenly, the oldest first, and between them some are lost. One that is
    still coming is new."""
    if come:
        queue.append((come, begin, (end - begin) / come))
    if sent:
        each = (end - begin) / (sent + lost)
        for packets, came_at, apart in _take(queue, sent + lost, oldest=True):
            first = begin - came_at
            last = first + packets * (each - apart)
            down = packets * sent / (sent + lost)
            yield Piece(down, max(float(min(first, last)), 0.0), max(float(max(first, last)), 0.0))
            begin += packets * each


def _arrivals(made: MissionPlan, store: PacketStore) -> Iterator[list[Packets]]:
    """What arrives in each step: from one event to the next, evenly."""
    for problem, _ in made.flown:
        begin, last = micro(made.mission, problem.times[0]), problem.edges[-1]
        times = sorted({*problem.edges, *(time for time in moments_of(problem.mission) if time < last)})
        ends = set(problem.edges)
        found: list[Packets] = []
        for first, end, count in zip(times, times[1:], problem.arrivals[store.id].column(times)):
            if count:
                found.append((Fraction(count), Fraction(begin + first), Fraction(end - first, count)))
            if end in ends:
                yield found
                found = []


def _take(queue: deque[Packets], count: Fraction, oldest: bool) -> list[Packets]:
    """Takes that many packets out: the oldest ones, or the newest ones."""
    taken = []
    while count and queue:
        packets, begin, each = queue.popleft() if oldest else queue.pop()
        if packets > count and oldest:
            queue.appendleft((packets - count, begin + count * each, each))
        elif packets > count:
            queue.append((packets - count, begin, each))
        taken.append((min(packets, count), begin, each))
        count -= min(packets, count)
    return taken


def _median(found: list[Piece]) -> float:
    """The age that half of the packets do not pass."""

    def younger(age: float) -> float:
        return sum(each.below(age) for each in found)

    half = sum(each.packets for each in found) / 2
    ages = sorted({age for each in found for age in (each.least, each.most)})
    place = bisect_left(ages, half, key=younger)
    if not 0 < place < len(ages):
        return ages[place] if ages and not place else 0.0
    # between two of these ages packets are spread evenly, but for those that all have the greater one
    before, age = ages[place - 1 : place + 1]
    least, most = younger(before), sum(each.below(age) for each in found if each.least < age)
    return before + (age - before) * min((half - least) / (most - least), 1) if most > least else age


def _hours(micros: float) -> float:
    return micros / 3_600_000_000
