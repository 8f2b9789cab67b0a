"""A mission as planners write it: stores, stations, passes and observations in UTC, from which a setup and a forecast
are made.

    >>> from rudlayog.mission import Mission, Observation, PacketStore, Pass
    >>> mission = Mission(
    ...     stores=[PacketStore("CAM", size="16 MB")],
    ...     passes=[Pass("Malargue", "2031-03-03T06:00:00Z", "2031-03-03T07:00:00Z", rate="64 kbit/s")],
    ...     observations=[Observation("CAM", "2031-03-03T00:00:00Z", "2031-03-03T06:00:00Z", volume="20 MB")],
    ...     packet=1000,
    ... )
    >>> made = mission.plan()
    >>> made.loss, [(row.name, row.store, row.blocks, row.lost) for row in made.passes()]
    (4375, [('before the first pass', 'CAM', 0, 4375), ('Malargue 1', 'CAM', 15625, 0)])

Times are exact to the microsecond, and rates and volumes are fractions. What is rounded never promises what cannot be
sent: windows and limits fall, and arrivals rise; what is cut off, or was taken too much, is carried to the next step,
and `Problem.rounding` is its table. `mission.changed(changes)` is the mission with some changes of `rudlayog.study`:
planned anew, it says what a study answers for them. """

from __future__ import annotations

import os
import warnings
from collections.abc import Iterable, Mapping
from dataclasses import dataclass, fields, replace
from datetime import datetime, timedelta
from functools import cached_property
from pathlib import Path
from typing import TYPE_CHECKING, Any, TypeVar

from ._faults import faults_of, listed_of, oddities_of, parts_of, size_faults
from ._parts import Observation, PacketStore, Pass, Station, remade, set_fields
from ._units import (
    Fault,
    Faults,
    MissionError,
    Moment,
    Rate,
    Volume,
    VolumeLike,
    fault,
    moment_of,
    span_of,
    whole_of,
    written,
)
from .setups import Route, Store

if TYPE_CHECKING:
    from ._timeline import Problem
    from .margins import Margin
    from .sheets import MissionPlan
    from .variants import ChangesLike
    from .worth import Sensitivity

__all__ = [
    "Fault",
    "Mission",
    "MissionError",
    "MissionWarning",
    "Observation",
    "PacketStore",
    "Pass",
    "Rate",
    "Station",
    "Volume",
]

# Octets of a packet, and of a block, if the mission says nothing else.
PACKET = 1024


class MissionWarning(UserWarning):
    """What is odd with a mission that can be planned."""


@dataclass(frozen=True, init=False, repr=False)
class Mission:
    """A mission from `begin` to `end`: its `stores`, its `passes`, its `observations` and its `stations`, the octets of
    a `packet` and of a `block` of memory, and what holds where passes `overlap`: with `both` each has a transmitter of
    its own, and with `better` there is one, which serves the pass that can send more of what the stores have. `begin`
    and `end` are those of the first and the last pass or observation if they are not said; what lies outside of them is
    left out. `unit` is how many of the longest packets are counted as one, if that is to be kept. Raises `MissionError`
    with all faults; what is odd is a `MissionWarning`. """

    stores: tuple[PacketStore, ...]
    passes: tuple[Pass, ...]
    observations: tuple[Observation, ...]
    stations: tuple[Station, ...]
    begin: datetime
    end: datetime
    packet: int
    block: int
    overlap: str | None
    name: str
    routes: tuple[Route, ...]
    unit: int

    def __init__(
        self,
        stores: Iterable[PacketStore],
        passes: Iterable[Pass],
        observations: Iterable[Observation] = (),
        stations: Iterable[Station] = (),
        begin: Moment | None = None,
        end: Moment | None = None,
        packet: int = PACKET,
        block: int = PACKET,
        overlap: str | None = None,
        name: str = "",
        routes: Iterable[Route] = (),
        unit: int = 0,
        place: str = "the mission",
    ) -> None:
        kinds: tuple[tuple[str, Any, type[Any]], ...]
        kinds = (
            ("stores", stores, PacketStore),
            ("passes", passes, Pass),
            ("observations", observations, Observation),
            ("stations", stations, Station),
        )
        set_fields(
            self,
            **{key: parts_of(given, key, kind) for key, given, kind in kinds},
            routes=parts_of(routes, "routes", Route),
        )
        faults = Faults()
        numbers = {"packet": packet, "block": block, "unit": unit}
        set_fields(
            self,
            overlap=overlap,
            name=name,
            **{key: faults.of(whole_of, given, f"{place}, {key}") for key, given in numbers.items()},
        )
        spans = [(one.begin, one.end) for one in self.passes] + [(one.begin, one.end) for one in self.observations]
        if not spans and (begin is None or end is None):
            raise fault(
                place, "no begin and end, no pass and no observation", "a mission with passes, or with begin and end"
            )
        set_fields(
            self,
            begin=min(first for first, _ in spans) if begin is None else faults.of(moment_of, begin, f"{place}, begin"),
        )
        set_fields(
            self, end=max(last for _, last in spans) if end is None else faults.of(moment_of, end, f"{place}, end")
        )
        faults.end()
        given_passes, given_observations = _named(self.passes), self.observations
        set_fields(
            self,
            passes=_between(given_passes, self.begin, self.end),
            observations=_between(self.observations, self.begin, self.end),
        )
        found = list(faults_of(self, place))
        if found:
            raise MissionError(found)
        for words in oddities_of(self, given_passes, given_observations):
            warnings.warn(words, MissionWarning, stacklevel=2)

    def __repr__(self) -> str:
        counts = f"{len(self.stores)} stores, {len(self.passes)} passes and {len(self.observations)} observations"
        return f"<Mission {self.name[:60]!r} from {written(self.begin)} to {written(self.end)} with {counts}>"

    def _repr_html_(self) -> str:
        from ._tables import fields_html, listed

        fields = {
            "begin": self.begin,
            "end": self.end,
            "octets of a packet": self.packet,
            "octets of a block": self.block,
        }
        parts = {
            "stores": [f"{store.id} ({store.size.text()}, {store.type})" for store in self.stores],
            "passes": [one.name for one in self.passes],
        }
        counts = {name: f"{len(words)}: {listed(words, 16)}" for name, words in parts.items()}
        return fields_html({"mission": self.name, **fields, **counts, "observations": len(self.observations)})

    @classmethod
    def read(cls, path: str | os.PathLike[str]) -> Mission:
        """The mission that a TOML file says, with the CSV files that it names. Raises `MissionError` with all faults,
        each with file and line."""
        from ._mission_text import mission_in

        return mission_in(path)

    @classmethod
    def of(cls, stores: Any, passes: Any, observations: Any = (), stations: Any = (), **more: Any) -> Mission:
        """The mission of these tables: each a list of objects or of dicts, a dict of columns, a data frame, or the path
        of a CSV file. What else is given are fields of the mission. Raises `MissionError` with all faults, each with
        its row."""
        from ._mission_text import mission_of

        return mission_of(stores=stores, passes=passes, observations=observations, stations=stations, **more)

    @cached_property
    def _longest(self) -> dict[int | None, int]:
        """The octets of the longest packet of each channel, and of all stores."""
        found: dict[int | None, int] = {}
        for store in self.stores:
            for channel in (store.channel, None):
                found[channel] = max(self.packet_of(store), found.get(channel, 0))
        return found

    def packet_of(self, store: PacketStore) -> int:
        """The octets of a packet of this store."""
        return store.packet or self.packet

    def size_of(self, store: PacketStore) -> int:
        """The packets that a store has room for: its size falls to whole blocks, and each has room for one."""
        return int(store.size.blocks(self.block))

    def held_in(self, store: PacketStore) -> int:
        """The packets that a store holds as the mission begins: they rise to whole ones."""
        return -int(-store.holds.blocks(self.packet_of(store)) // 1)

    def setup_store(self, store: PacketStore) -> Store:
        """The store as the library has it, in packets."""
        return Store(store.id, self.size_of(store), store.type, store.channel, self.held_in(store))

    def rates(self, one: Pass) -> tuple[Rate, dict[int, Rate]]:
        """The rate of a pass, and those of its channels."""
        station = next((station for station in self.stations if station.name == one.station), None)
        rate = one.rate or (station.rate if station else None)
        assert rate is not None
        return rate, {**(station.channels if station else {}), **one.channels}

    def without(self, *names: str) -> Mission:
        """The same mission without these passes, by their names."""
        for name in names:
            self.the_pass(name)
        return remade(self, passes=tuple(one for one in self.passes if one.name not in names))

    def changed(self, changes: ChangesLike) -> Mission:
        """The mission with one of the changes of `rudlayog.study` or several, one after the other, in any order. It
        keeps the unit in which this one is planned, so that losses can be compared; its steps are its own. Planned
        anew it loses what a study answers. Raises `MissionError` where changes do not go together."""
        from .variants import changed

        return changed(self, changes)

    def the_pass(self, name: str) -> Pass:
        """The pass of this name."""
        for one in self.passes:
            if one.name == name:
                return one
        raise fault("", f"the pass {name!r}", f"one of the passes {', '.join(one.name for one in self.passes)}")

    def between(
        self, begin: Moment | None = None, end: Moment | None = None, holds: Mapping[str, VolumeLike] | None = None
    ) -> Mission:
        """The part of the mission from `begin` to `end`, whose stores hold this as it begins; those that are not named
        hold what they do as the mission begins. `MissionPlan.at` has what they hold by a plan."""
        begin, end = moment_of(begin or self.begin, "begin"), moment_of(end or self.end, "end")
        if not self.begin <= begin < end <= self.end:
            meant = f"a part of the mission, which goes from {written(self.begin)} to {written(self.end)}"
            raise fault("", f"the time from {written(begin)} to {written(end)}", meant)
        if not isinstance(holds or {}, Mapping):
            raise fault("holds", holds, 'what stores hold, as {"CAM": "231 MB"}')
        held = dict(holds or {})
        strange = {str(name) for name in held} - {store.id for store in self.stores}
        if strange:
            raise fault(
                "",
                f"the store {', '.join(sorted(strange))}",
                f"one of the stores {', '.join(store.id for store in self.stores)}",
            )
        places = {name: f"holds, store {name}" for name in held}
        stores = tuple(
            replace(store, holds=held[store.id], place=places[store.id]) if store.id in held else store
            for store in self.stores
        )
        parts = {"passes": _between(self.passes, begin, end), "observations": _between(self.observations, begin, end)}
        return tested(remade(self, stores=stores, begin=begin, end=end, **parts))

    def problem(self, step: timedelta | float | None = None) -> Problem:
        """The setup and the forecast of the mission, and which step is when. The steps go from one moment at which a
        rate changes, while something can be sent, to the next; with `step` none is longer than this (a `timedelta`, or
        minutes). What arrives in a step may be sent in it, so that shorter steps lose no less. Raises `MissionError`
        where there are more than 256."""
        from ._timeline import problem_of

        if step is not None:
            return problem_of(self, span_of(step, "step"))
        if "_problem" not in vars(self):
            set_fields(self, _problem=problem_of(self))
        return vars(self)["_problem"]  # type: ignore[no-any-return]

    def plan(
        self,
        step: timedelta | float | None = None,
        horizon: timedelta | float | None = None,
        *,
        look: timedelta | float | None = None,
        in_order: bool = False,
    ) -> MissionPlan:
        """A plan that loses least: no other one in its steps, and but for rounding no timeline, loses less. With a
        `horizon` (a `timedelta`, or minutes) the mission is planned in parts of this length: each is planned together
        with what comes in the time `look` after it (as long as the horizon, if it is not said), and the next one goes
        on from what is held at its end. With `in_order` the mission's stores are served in their order: the first one
        loses least too, the first two together, and so on."""
        from .sheets import MissionPlan

        if look is not None and horizon is None:
            raise fault("look", str(look), "a horizon beside it")
        ahead = timedelta(0) if look in (0, timedelta(0)) else None if look is None else span_of(look, "look")
        return MissionPlan.of(self, step, None if horizon is None else span_of(horizon, "horizon"), in_order, ahead)

    def margin(self, *stores: str | Iterable[str]) -> Margin:
        """By how much all that arrives may grow, or what arrives in the stores that are named, and by how much all
        stores may shrink, before more is lost than today, in percent with one decimal."""
        from .margins import Margin

        named = [[each] if isinstance(each, str) else listed_of(each, "margin", "stores") for each in stores]
        return Margin.of(self, tuple(name for names in named for name in names))

    def to_toml(self) -> str:
        """The mission as the text of a TOML file, which `read` reads as the same mission."""
        from ._mission_out import toml_of

        return toml_of(self)

    def to_csv(self, table: str) -> str:
        """The `stores`, the `stations`, the `passes` or the `observations` as comma separated values, which `of` and a
        TOML file take."""
        from ._mission_out import csv_table_of

        return csv_table_of(self, table)

    def save(self, path: str | os.PathLike[str]) -> None:
        """Writes the mission into a TOML file."""
        Path(path).write_text(self.to_toml(), encoding="utf-8", newline="")

    def __getstate__(self) -> dict[str, Any]:
        return {each.name: getattr(self, each.name) for each in fields(self)}

    def sensitivity(self, step: timedelta | float | None = None) -> Sensitivity:
        """What each window, size and limit is worth. Raises `MissionError` where the library does not say it."""
        from .worth import Sensitivity

        return Sensitivity.of(self, step)


def tested(mission: Mission) -> Mission:
    """The mission, if what its stores hold fits into them."""
    found = list(size_faults(mission))
    if found:
        raise MissionError(found)
    return mission


def _named(passes: Iterable[Pass]) -> tuple[Pass, ...]:
    """The passes in the order of their time, each with a name: its own, or that of its station and a number."""
    counts: dict[str, int] = {}
    found = []
    for one in sorted(passes, key=lambda one: (one.begin, one.end)):
        counts[str(one.station)] = counts.get(str(one.station), 0) + 1
        found.append(one if one.name else remade(one, name=f"{one.station} {counts[str(one.station)]}"))
    return tuple(found)


Timed = TypeVar("Timed", Pass, Observation)


def _between(parts: tuple[Timed, ...], begin: datetime, end: datetime) -> tuple[Timed, ...]:
    """What lies in this time."""
    return tuple(one for one in parts if one.begin < end and one.end > begin)
