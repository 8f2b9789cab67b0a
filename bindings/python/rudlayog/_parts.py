"""The parts of a mission: stores, stations, passes and observations."""

from __future__ import annotations

from collections.abc import Mapping
from dataclasses import dataclass, field, fields
from datetime import datetime, timedelta
from fractions import Fraction
from functools import cache
from typing import Any, TypeVar

from ._brief import brief
from ._units import Faults, MissionError, Moment, Rate, RateLike, Volume, VolumeLike
from ._units import fault, moment_of, rate_of, volume_of, whole_of, written

Part = TypeVar("Part")


@cache
def _names(kind: type[Any]) -> tuple[str, ...]:
    """The names of the fields."""
    return tuple(each.name for each in fields(kind))


def remade(given: Part, **others: Any) -> Part:
    """The same frozen object with other fields, which are not tested."""
    made, own = object.__new__(type(given)), vars(given)
    vars(made).update({name: own[name] for name in _names(type(given))}, **others)  # type: ignore[arg-type]
    return made


def set_fields(thing: object, **values: object) -> None:
    """Sets the fields of a frozen dataclass while it is made."""
    for name, value in values.items():
        object.__setattr__(thing, name, value)


def _rates(given: Any, place: str) -> dict[int, Rate]:
    """The rates of channels, by channel."""
    if not isinstance(given, Mapping):
        raise fault(place, given, 'the rates of channels, as {1 = "20 kbit/s"}')
    found = {}
    for channel, rate in given.items():
        try:
            number = whole_of(channel, place)
        except MissionError:
            number = -1
        if number not in range(8) or number in found:
            raise fault(place, f"channel {channel}", "channels from 0 to 7, each once")
        found[number] = rate_of(rate, f"{place}, channel {channel}")
    return found


def _packet(given: Any, place: str) -> int | None:
    return None if given is None else whole_of(given, place)


@brief
@dataclass(frozen=True, init=False)
class PacketStore:
    """A packet store: its `id`, its `size` as a volume of memory, its `type`, `bounded` or `circular`, its virtual
    `channel`, what it `holds` as the mission begins, and the octets of a `packet` of its, if they are others than the
    mission's."""

    id: str
    size: Volume
    type: str
    channel: int
    holds: Volume
    packet: int | None
    place: str = field(compare=False, repr=False)

    def __init__(
        self,
        id: str,
        size: VolumeLike,
        type: str = "bounded",
        channel: int = 0,
        holds: VolumeLike = 0,
        packet: int | None = None,
        place: str = "",
    ) -> None:
        where = place or f"store {id}"
        faults = Faults()
        set_fields(self, id=id, type=type, place=where)
        set_fields(
            self,
            channel=faults.of(whole_of, channel, f"{where}, channel"),
            packet=faults.of(_packet, packet, f"{where}, packet"),
        )
        set_fields(
            self,
            size=faults.of(volume_of, size, f"{where}, size"),
            holds=faults.of(volume_of, holds, f"{where}, holds"),
        )
        faults.end()


@brief
@dataclass(frozen=True, init=False)
class Station:
    """A ground station: its `name`, and the `rate` of its passes and of their `channels`, where a pass has none of its
    own. A channel without a rate has that of the pass."""

    name: str
    rate: Rate | None
    channels: Mapping[int, Rate] = field(hash=False)
    place: str = field(compare=False, repr=False)

    def __init__(
        self, name: str, rate: RateLike | None = None, channels: Mapping[Any, RateLike] | None = None, place: str = ""
    ) -> None:
        where = place or f"station {name}"
        faults = Faults()
        set_fields(self, name=name, place=where, rate=faults.of(_rate, rate, f"{where}, rate"))
        set_fields(self, channels=faults.of(_rates, channels or {}, f"{where}, channels"))
        faults.end()


@brief
@dataclass(frozen=True, init=False)
class Pass:
    """A pass over a `station`, from `begin` to `end` in UTC, with its `rate` and those of its `channels`, if they are
    others than the station's. Without a `name` it has that of the station and a number."""

    station: str
    begin: datetime
    end: datetime
    rate: Rate | None
    channels: Mapping[int, Rate] = field(hash=False)
    name: str
    place: str = field(compare=False, repr=False)

    def __init__(
        self,
        station: str,
        begin: Moment,
        end: Moment,
        rate: RateLike | None = None,
        channels: Mapping[Any, RateLike] | None = None,
        name: str = "",
        place: str = "",
    ) -> None:
        where = place or f"pass {name or station}"
        faults = Faults()
        set_fields(self, station=station, name=name, place=where)
        set_fields(
            self, begin=faults.of(moment_of, begin, f"{where}, begin"), end=faults.of(moment_of, end, f"{where}, end")
        )
        faults.of(_in_order, self.begin, self.end, where, "a pass")
        set_fields(
            self,
            rate=faults.of(_rate, rate, f"{where}, rate"),
            channels=faults.of(_rates, channels or {}, f"{where}, channels"),
        )
        faults.end()


@brief
@dataclass(frozen=True, init=False)
class Observation:
    """What arrives in a `store` from `begin` to `end` in UTC, evenly: a `rate`, or the `volume` of all of it."""

    store: str
    begin: datetime
    end: datetime
    rate: Rate | None
    volume: Volume | None
    name: str
    place: str = field(compare=False, repr=False)

    def __init__(
        self,
        store: str,
        begin: Moment,
        end: Moment,
        rate: RateLike | None = None,
        volume: VolumeLike | None = None,
        name: str = "",
        place: str = "",
    ) -> None:
        where = place or f"observation {name or store}"
        faults = Faults()
        set_fields(self, store=store, name=name, place=where)
        set_fields(
            self, begin=faults.of(moment_of, begin, f"{where}, begin"), end=faults.of(moment_of, end, f"{where}, end")
        )
        faults.of(_in_order, self.begin, self.end, where, "an observation")
        set_fields(self, rate=faults.of(_rate, rate, f"{where}, rate"))
        set_fields(self, volume=None if volume is None else faults.of(volume_of, volume, f"{where}, volume"))
        faults.of(_one_of, rate, volume, where)
        faults.end()

    def blocks_a_second(self, octets: int) -> Fraction:
        """The blocks that arrive in a second, where each is a packet of this many octets."""
        if self.rate is not None:
            return self.rate.blocks(octets)
        assert self.volume is not None
        return self.volume.blocks(octets) / Fraction((self.end - self.begin) // timedelta(microseconds=1), 1_000_000)


def _rate(given: Any, place: str) -> Rate | None:
    return None if given is None else rate_of(given, place)


def _one_of(rate: object, volume: object, place: str) -> None:
    if (rate is None) == (volume is None):
        raise fault(place, "no rate and no volume" if rate is None else "a rate and a volume", "one of rate and volume")


def _in_order(begin: datetime | None, end: datetime | None, place: str, what: str) -> None:
    if begin is not None and end is not None and end <= begin:
        raise fault(place, f"begin {written(begin)} and end {written(end)}", f"{what} that ends after it begins")
