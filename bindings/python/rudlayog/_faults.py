"""What is wrong with a mission, each with its place, and what is odd with it."""

from __future__ import annotations

import re
from collections.abc import Iterable, Iterator, Sequence
from typing import TYPE_CHECKING, Any

from ._units import Fault, fault, written

if TYPE_CHECKING:
    from .mission import Mission, Observation, Pass

OVERLAPS = ("both", "better")
SIZES = {"kB", "MB", "GB", "TB"}, {"KiB", "MiB", "GiB", "TiB"}
# The most octets of a packet and of a block, and the most stores.
MOST_PACKET, MOST_BLOCK, MOST_STORES = 1024, 2**20, 16
_ID = re.compile(r"[A-Z0-9_-]{1,8}\Z")


def listed_of(given: Any, place: str, what: str = "values") -> tuple[Any, ...]:
    """The values of a list."""
    if isinstance(given, (str, bytes)) or not hasattr(given, "__iter__"):
        raise fault(place, given, f"a list of {what}")
    return tuple(given)


def parts_of(given: Any, name: str, kind: type[Any]) -> tuple[Any, ...]:
    """The parts of a mission, each of which is of this kind."""
    parts = listed_of(given, name, kind.__name__)
    for number, part in enumerate(parts, 1):
        if not isinstance(part, kind):
            raise fault(f"row {number} of {name}", part, f"a {kind.__name__}; Mission.of takes tables")
    return parts


def faults_of(mission: Mission, place: str) -> Iterator[Fault]:
    """What is wrong with a mission whose parts are right by themselves."""
    if mission.end <= mission.begin:
        yield Fault(
            place,
            f"begin {written(mission.begin)} and end {written(mission.end)}",
            "a mission that ends after it begins",
        )
    if mission.overlap is not None and mission.overlap not in OVERLAPS:
        yield Fault(f"{place}, overlap", repr(mission.overlap), " or ".join(map(repr, OVERLAPS)))
    if not isinstance(mission.name, str):
        yield Fault(f"{place}, name", repr(mission.name), "a text")
    if mission.unit < 0:
        yield Fault(f"{place}, unit", repr(mission.unit), "packets from 1, or 0 where it is chosen")
    wrong = [
        Fault(f"{place}, {what}", repr(octets), f"octets from 1 to {most:,}")
        for what, octets, most in (("packet", mission.packet, MOST_PACKET), ("block", mission.block, MOST_BLOCK))
        if not 1 <= octets <= most
    ]
    yield from wrong
    texts = list(_text_faults(mission))
    yield from texts
    if not wrong:
        yield from _store_faults(mission, place)
    if not texts:
        yield from _name_faults(mission)
        yield from _pass_faults(mission)
        yield from _row_faults(mission)
    yield from _unit_faults(mission)


def _text_faults(mission: Mission) -> Iterator[Fault]:
    """Names that are no texts."""
    named: tuple[tuple[str, tuple[Any, ...]], ...] = (
        ("id type", mission.stores), ("name", mission.stations),
        ("station name", mission.passes), ("store name", mission.observations),
    )  # fmt: skip
    for names, parts in named:
        for part in parts:
            for name in names.split():
                if not isinstance(getattr(part, name), str):
                    yield Fault(f"{part.place}, {name}", repr(getattr(part, name)), "a text in quotes")


def _store_faults(mission: Mission, place: str) -> Iterator[Fault]:
    """What the library refuses in stores."""
    if not 1 <= len(mission.stores) <= MOST_STORES:
        yield Fault(
            place, f"{len(mission.stores)} stores" if mission.stores else "no store", f"1 to {MOST_STORES} stores"
        )
    for store in mission.stores:
        if isinstance(store.id, str) and not _ID.match(store.id):
            yield Fault(
                f"{store.place}, id", repr(store.id), "an identifier of 1 to 8 of the characters A-Z, 0-9, _ and -"
            )
        if isinstance(store.type, str) and store.type not in ("bounded", "circular"):
            yield Fault(f"{store.place}, type", repr(store.type), "'bounded' or 'circular'")
        if store.channel not in range(8):
            yield Fault(f"{store.place}, channel", repr(store.channel), "a channel from 0 to 7")
        if store.packet is not None and not 1 <= store.packet <= MOST_PACKET:
            yield Fault(f"{store.place}, packet", repr(store.packet), f"octets from 1 to {MOST_PACKET:,}")
        elif mission.packet_of(store) > mission.block:
            yield Fault(
                f"{store.place}, packet",
                f"{mission.packet_of(store)} octets",
                f"at most the {mission.block} of a block",
            )
    if not any(store.packet is not None and store.packet < 1 for store in mission.stores):
        yield from size_faults(mission)


def size_faults(mission: Mission) -> Iterator[Fault]:
    """Stores without room for a packet, and such as hold more than they have room for."""
    for store in mission.stores:
        size, held = mission.size_of(store), mission.held_in(store)
        if size < 1:
            yield Fault(f"{store.place}, size", f"{size:,} blocks of {mission.block} octets", "at least one block")
        elif held > size:
            found = f"{held:,} packets of {mission.packet_of(store)} octets"
            yield Fault(f"{store.place}, holds", found, f"at most its size, {size:,} blocks")


def _name_faults(mission: Mission) -> Iterator[Fault]:
    """Stores and stations that are not there, and names that come twice."""
    stores, stations = [store.id for store in mission.stores], {station.name: station for station in mission.stations}
    for observation in mission.observations:
        if observation.store not in stores:
            yield Fault(
                f"{observation.place}, store",
                f"the store {observation.store!r}",
                f"one of the stores {', '.join(stores)}",
            )
    for one in mission.passes:
        if stations and one.station not in stations:
            yield Fault(
                f"{one.place}, station", f"the station {one.station!r}", f"one of the stations {', '.join(stations)}"
            )
        elif one.rate is None and (one.station not in stations or stations[one.station].rate is None):
            yield Fault(f"{one.place}, rate", "no rate", f"a rate of the pass, or of the station {one.station}")
    yield from _twice((store.id, store.place) for store in mission.stores)
    yield from _twice((station.name, station.place) for station in mission.stations)
    yield from _twice((one.name, one.place) for one in mission.passes)


def _twice(names: Iterable[tuple[str, str]]) -> Iterator[Fault]:
    """Names that an earlier one of the same kind has."""
    earlier: dict[str, str] = {}
    for name, place in names:
        if name in earlier:
            yield Fault(place, f"the name {name!r}, which {earlier[name]} has too", "another name for each")
        earlier.setdefault(name, place)


def _pass_faults(mission: Mission) -> Iterator[Fault]:
    """Passes that overlap: of one station, or where nothing is said of them."""
    for place, one in enumerate(mission.passes):
        for other in reversed(mission.passes[:place]):
            if one.begin >= other.end:
                continue
            found = f"{one.name} from {written(one.begin)}, which overlaps {other.name} ({other.place})"
            if one.station == other.station:
                if (one.begin, one.end) != (other.begin, other.end):
                    yield Fault(one.place, found, f"one pass over {one.station} at a time")
                break
            if mission.overlap is None:
                meant = (
                    'overlap = "both" of the mission, where each pass has a transmitter of its own, or "better", '
                    'where there is one for all'
                )
                yield Fault(one.place, found, meant)
                break


def _row_faults(mission: Mission) -> Iterator[Fault]:
    """Rows that come twice."""
    rows: list[tuple[object, str]] = [(("pass", one.station, one.begin, one.end), one.place) for one in mission.passes]
    rows += [
        (("observation", one.store, one.begin, one.end, one.rate, one.volume, one.name), one.place)
        for one in mission.observations
    ]
    earlier: dict[object, str] = {}
    for row, place in rows:
        if row in earlier:
            yield Fault(place, f"the same row as {earlier[row]}", "each pass and each observation once")
        earlier.setdefault(row, place)


def _unit_faults(mission: Mission) -> Iterator[Fault]:
    """Units of 1000 beside those of 1024: one of them is a slip."""
    volumes = [(store.size, f"{store.place}, size") for store in mission.stores]
    volumes += [(store.holds, f"{store.place}, holds") for store in mission.stores]
    volumes += [
        (observation.volume, f"{observation.place}, volume")
        for observation in mission.observations
        if observation.volume
    ]
    first = {
        kind: next(((volume.unit, place) for volume, place in volumes if volume.unit in units), None)
        for kind, units in enumerate(SIZES)
    }
    if first[0] and first[1]:
        (unit, place), (other, beside) = first[0], first[1]
        meant = "units of 1000 octets (kB, MB, GB) alone, or of 1024 (KiB, MiB, GiB) alone"
        yield Fault(beside, f"the unit {other}, beside {unit} at {place}", meant)


def oddities_of(mission: Mission, passes: Sequence[Pass], observations: Sequence[Observation]) -> Iterator[str]:
    """What is odd with a mission that was given these passes and observations: what lies outside of it, or reaches
    beyond it; channels that no store has; and rates of channels above that of their link."""
    timed: tuple[tuple[str, Sequence[Any]], ...] = (("pass", passes), ("observation", observations))
    for what, parts in timed:
        for one in parts:
            named = f"{one.place}: the {what} {one.name}".rstrip()
            if one.begin >= mission.end or one.end <= mission.begin:
                yield f"{named} lies outside of the mission, and is left out"
            elif one.begin < mission.begin or one.end > mission.end:
                yield f"{named} reaches beyond the mission, and that part of it is left out"
    used = {store.channel for store in mission.stores}
    lengths = {channel: longest_on(mission, channel) for channel in range(8)}
    links: list[tuple[Any, Any]] = [(station, station.rate) for station in mission.stations]
    for part, link in [*links, *((one, mission.rates(one)[0]) for one in mission.passes)]:
        for channel, rate in part.channels.items():
            if channel not in used:
                yield f"{part.place}: channel {channel} has a rate, and no store has this channel"
            elif link is not None and rate.octets(lengths[channel]) > link.octets(longest_on(mission, None)):
                yield f"{part.place}: channel {channel} has {rate}, and the link {link}"


def longest_on(mission: Mission, channel: int | None) -> int:
    """The octets of the longest packet of the stores of a channel, or of all where it has none or none is named."""
    return mission._longest.get(channel, mission._longest[None])
