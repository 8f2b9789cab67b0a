"""What comes and goes in a mission, exactly: passes while they are used, observations, and the unit in which both are
counted."""

from __future__ import annotations

from bisect import bisect_left, bisect_right
from collections.abc import Mapping, Sequence
from copy import copy
from dataclasses import dataclass
from datetime import datetime
from fractions import Fraction
from itertools import accumulate, pairwise
from math import gcd, lcm
from operator import mul, sub
from typing import TYPE_CHECKING, NamedTuple

from ._brief import brief
from ._faults import longest_on
from ._units import MICROSECOND

if TYPE_CHECKING:
    from .mission import Mission, Observation, Pass


def micro(mission: Mission, moment: datetime) -> int:
    """The microseconds from the mission's begin to a moment."""
    return (moment - mission.begin) // MICROSECOND


class Flow(NamedTuple):
    """What comes or goes evenly from `begin` to `end`, in microseconds of the mission: `above` by `below` in each of
    them."""

    begin: int
    end: int
    above: int
    below: int

    @classmethod
    def at(cls, begin: int, end: int, a_second: Fraction, unit: int = 1) -> Flow:
        """What flows with so much a second, in units of that much."""
        return cls(begin, end, a_second.numerator, a_second.denominator * unit * 1_000_000)

    def falls(self, times: Sequence[int]) -> list[int]:
        """What flows in each step, where a whole one counts in the step in which it becomes whole."""
        column = [0] * (len(times) - 1)
        first, last = max(bisect_right(times, self.begin) - 1, 0), min(bisect_left(times, self.end), len(times) - 1)
        before = self.above * (max(times[first], self.begin) - self.begin) // self.below
        for step in range(first, last):
            after = self.above * (min(times[step + 1], self.end) - self.begin) // self.below
            column[step] = after - before
            before = after
        return column

    def exact(self, time: int) -> Fraction:
        """What has flowed at this time."""
        return Fraction(self.above * (min(max(time, self.begin), self.end) - self.begin), self.below)


class Coming:
    """What comes in a store since the mission began, in packets, exactly: until each time a numerator of fractions with
    one denominator, `below`."""

    def __init__(self, flows: Sequence[Flow]) -> None:
        below = lcm(*(flow.below for flow in flows))
        rates = [flow.above * (below // flow.below) for flow in flows]
        common = gcd(below, *rates)
        self.below = below // common
        changes: dict[int, int] = {0: 0}
        for flow, above in zip(flows, rates):
            rate = above // common
            changes[max(flow.begin, 0)] = changes.get(max(flow.begin, 0), 0) + rate
            changes[flow.end] = changes.get(flow.end, 0) - rate
        # when the rate changes, the rate from then on, and what has come until then
        self._times = sorted(changes)
        self._rates = list(accumulate(map(changes.__getitem__, self._times)))
        spans = map(sub, self._times[1:], self._times)
        self._above: list[int] = list(accumulate(map(mul, self._rates, spans), initial=0))

    def until(self, time: int) -> int:
        """What has come until a time of the mission."""
        place = bisect_right(self._times, time) - 1
        return self._above[place] + self._rates[place] * (time - self._times[place])

    def after(self, begin: int) -> Coming:
        """The same for the part of the mission from a time on, in whose times."""
        made = copy(self)
        made._times = [time - begin for time in self._times]
        return made

    def column(self, edges: Sequence[int], packets: int = 1) -> list[int]:
        """What comes in each step, in units of this many packets. A packet that has begun to come is whole, and so is a
        unit of which one has come since the first edge."""
        whole = [-(-self.until(edge) // self.below) for edge in edges]
        counts = [-((whole[0] - come) // packets) for come in whole]
        return list(map(sub, counts[1:], counts))


@brief
@dataclass(frozen=True)
class Unit:
    """What a plan counts: for each store this many `packets` that have about the same octets. `count` is how many of the
    longest packets they are, and `whole` their octets; `octets` is what a unit of each store has, and `link` what it
    takes on a link: as much as the largest one, in all or of each of the `channels`. """

    count: int
    whole: int
    packets: Mapping[str, int]
    octets: Mapping[str, int]
    link: int
    channels: Mapping[int, int]

    @classmethod
    def of(cls, mission: Mission, count: int) -> Unit:
        """The unit of that many of the longest packets."""
        lengths = {store.id: mission.packet_of(store) for store in mission.stores}
        whole = count * max(lengths.values())
        packets = {store.id: _packets_in(whole, lengths[store.id], mission.size_of(store)) for store in mission.stores}
        octets = {name: packets[name] * length for name, length in lengths.items()}
        channels: dict[int, int] = {}
        for store in mission.stores:
            channels[store.channel] = max(octets[store.id], channels.get(store.channel, 0))
        return cls(count, whole, packets, octets, max(octets.values()), channels)

    def packets_in(self, length: int, room: int) -> int:
        """The packets of this length in a unit of a store that has room for this many."""
        return _packets_in(self.whole, length, room)

    def on_channel(self, channel: int) -> int:
        """What a unit of the stores of a channel takes on a link."""
        return self.channels.get(channel, self.link)


def _packets_in(octets: int, length: int, room: int) -> int:
    """How many packets have about these octets. A store has room for one unit at least."""
    return max(min((2 * octets + length) // (2 * length), room), 1)


class Use(NamedTuple):
    """A pass from `begin` to `end` in microseconds, the octets that it sends in a second, and those of its channels
    that have a rate."""

    one: Pass
    begin: int
    end: int
    octets: Fraction
    channels: Mapping[int, Fraction]


@brief
@dataclass(frozen=True)
class Contact:
    """A pass while it is used, in microseconds of the mission: `sends`, the units that it can send, and what it can
    send on each channel."""

    one: Pass
    sends: Flow
    channels: Mapping[int, Flow]


def use_of(mission: Mission, one: Pass) -> Use:
    """A pass while the mission lasts."""
    rate, rates = mission.rates(one)
    channels = {channel: own.octets(longest_on(mission, channel)) for channel, own in rates.items()}
    begin, end = max(micro(mission, one.begin), 0), min(micro(mission, one.end), micro(mission, mission.end))
    return Use(one, begin, end, rate.octets(longest_on(mission, None)), channels)


def uses_of(mission: Mission, passes: Sequence[Pass] | None = None) -> list[Use]:
    """The passes of a mission, or these in their place, while they are used."""
    used = [use_of(mission, one) for one in (mission.passes if passes is None else passes)]
    return _better(mission, used) if mission.overlap == "better" else used


def _useful(mission: Mission, use: Use) -> Fraction:
    """What a pass can send in a second of what the stores have: each of their channels has its own limit, or that of
    the link."""
    return min(
        use.octets,
        sum(
            (use.channels.get(channel, use.octets) for channel in {store.channel for store in mission.stores}),
            Fraction(0),
        ),
    )


def _better(mission: Mission, used: list[Use]) -> list[Use]:
    """The parts of passes in which none that overlaps can send more. Of equal ones that which is in use stays."""
    found: list[Use] = []
    for begin, end in pairwise(sorted({time for use in used for time in (use.begin, use.end)})):
        there = [use for use in used if use.begin <= begin and end <= use.end]
        if not there:
            continue
        before = found[-1] if found and found[-1].end == begin else None
        best = max(
            there, key=lambda use: (_useful(mission, use), before is not None and use.one is before.one, -use.begin)
        )
        if before is not None and best.one is before.one:
            found[-1] = before._replace(end=end)
        else:
            found.append(best._replace(begin=begin, end=end))
    return found


def contact_of(use: Use, unit: Unit) -> Contact:
    """What a pass can send in units."""
    sends = Flow.at(use.begin, use.end, use.octets, unit.link)
    channels = {}
    for channel, octets in use.channels.items():
        own = Flow.at(use.begin, use.end, octets, unit.on_channel(channel))
        channels[channel] = own if own.above * sends.below < sends.above * own.below else sends
    return Contact(use.one, sends, channels)


def contacts_of(mission: Mission, unit: Unit) -> list[Contact]:
    """The passes while they are used, in units."""
    return [contact_of(use, unit) for use in uses_of(mission)]


def flow_of(mission: Mission, one: Observation, packet: int) -> Flow:
    """What comes of an observation, in packets of this length."""
    return Flow.at(micro(mission, one.begin), micro(mission, one.end), one.blocks_a_second(packet))


def arrivals_of(mission: Mission) -> dict[str, Coming]:
    """What arrives in each store while the mission lasts, in packets."""
    found: dict[str, list[Flow]] = {store.id: [] for store in mission.stores}
    lengths = {store.id: mission.packet_of(store) for store in mission.stores}
    for one in mission.observations:
        if one.begin < mission.end and one.end > mission.begin:
            found[one.store].append(flow_of(mission, one, lengths[one.store]))
    return {store: Coming(flows) for store, flows in found.items()}
