"""Variants of a mission: what a study changes. Each is a name with its changes, which may go to another process.

`Mission.changed` makes the mission of some changes, and planning it anew is what a study answers for them. `Changed`
takes any function of the mission, and `Replaced`, after all other changes, any of a setup and a forecast. """

from __future__ import annotations

from collections.abc import Callable, Iterable, Iterator, Mapping
from dataclasses import dataclass, field, replace
from datetime import timedelta
from fractions import Fraction
from itertools import product
from typing import TYPE_CHECKING, Any, Union

from ._brief import brief
from ._faults import listed_of
from ._flows import use_of
from ._units import MissionError, Number, RateLike, Volume, VolumeLike, fault, number_of, rate_of, span_of, volume_of
from .forecasts import Forecast
from ._parts import Pass, remade
from .mission import Mission, tested
from .setups import Setup, Store

if TYPE_CHECKING:
    from ._units import Rate

Texts = tuple[Setup, Forecast]
FACTOR = "a factor of 0 or more"


def _known(name: str, mission: Mission, first: Mission) -> bool:
    """Whether there is a pass of this name; one that an earlier change has lost is passed over. Raises `MissionError`
    where there never was one."""
    if any(one.name == name for one in mission.passes):
        return True
    first.the_pass(name)
    return False


def _store_named(name: str, stores: Iterable[str]) -> None:
    """Raises `MissionError` where there is no such store."""
    names = list(stores)
    if name not in names:
        raise fault("", f"the store {name!r}", f"one of the stores {', '.join(names)}")


@brief
@dataclass(frozen=True)
class Lost:
    """Nothing is sent in the passes with these names."""

    passes: tuple[str, ...]

    def of(self, mission: Mission, first: Mission) -> Mission:
        """The mission that this makes of another one, which was `first` before any change."""
        return mission.without(*[name for name in dict.fromkeys(self.passes) if _known(name, mission, first)])


@brief
@dataclass(frozen=True)
class Shortened:
    """The pass begins `late` and ends `early`, each a `timedelta` or minutes."""

    one: str
    late: timedelta | float = 0
    early: timedelta | float = 0

    def of(self, mission: Mission, first: Mission) -> Mission:
        """The mission that this makes of another one, which was `first` before any change."""
        late, early = (
            span_of(given, f"pass {self.one}") if given else timedelta(0) for given in (self.late, self.early)
        )
        if not _known(self.one, mission, first):
            return mission
        one = mission.the_pass(self.one)
        begin, end = one.begin + late, one.end - early
        if begin >= end or begin >= mission.end or end <= mission.begin:
            return mission.without(self.one)
        return _with_passes(mission, {self.one: remade(one, begin=begin, end=end)})


@brief
@dataclass(frozen=True)
class Rated:
    """The passes of these names, or of these stations, or all, have another rate, or one that is this many times
    theirs; those of their channels go with it."""

    rate: RateLike | None = None
    factor: Number | None = None
    of_passes: tuple[str, ...] = ()

    def of(self, mission: Mission, first: Mission) -> Mission:
        """The mission that this makes of another one, which was `first` before any change."""
        if (self.rate is None) == (self.factor is None):
            raise fault(
                "rated",
                "a rate and a factor" if self.factor is not None else "no rate and no factor",
                "one of rate and factor",
            )
        for name in self.of_passes:
            if not any(name in (one.name, one.station) for one in first.passes):
                raise fault("", f"the pass {name!r}", "the name of a pass or of a station")
        meant = [
            one
            for one in mission.passes
            if not self.of_passes or one.name in self.of_passes or one.station in self.of_passes
        ]
        rates = {one.name: self._rates(mission, one) for one in meant}
        gone = [name for name, (rate, _) in rates.items() if not rate.amount]
        made = {
            one.name: remade(one, rate=rates[one.name][0], channels=rates[one.name][1])
            for one in meant
            if one.name not in gone
        }
        return _with_passes(mission, made).without(*gone)

    def _rates(self, mission: Mission, one: Pass) -> tuple[Rate, dict[int, Rate]]:
        """The rate of a pass, and those of its channels."""
        rate, channels = mission.rates(one)
        if self.rate is None:
            factor = number_of(self.factor, "factor", FACTOR)
            made = rate.times(factor)
        else:
            made = rate_of(self.rate, "rate")
            now = use_of(mission, one).octets
            if channels and not now:
                raise fault(
                    "rate", f"the pass {one.name}, whose rate is 0", "a pass with a rate, where its channels have some"
                )
            factor = use_of(mission, remade(one, rate=made)).octets / now if channels else Fraction(1)
        return made, {channel: each.times(factor) for channel, each in channels.items()}


@brief
@dataclass(frozen=True)
class Scaled:
    """What arrives is this many times as much, in the stores that are named or in all."""

    factor: Number
    stores: tuple[str, ...] = ()

    def of(self, mission: Mission, first: Mission) -> Mission:
        """The mission that this makes of another one, which was `first` before any change."""
        factor = number_of(self.factor, "factor", FACTOR)
        names = self.stores or tuple(store.id for store in mission.stores)
        for name in names:
            _store_named(name, (store.id for store in mission.stores))
        found = []
        for one in mission.observations:
            if one.store in names:
                amounts = {
                    "rate": one.rate and one.rate.times(factor),
                    "volume": one.volume and one.volume.times(factor),
                }
                one = remade(one, **amounts)
            found.append(one)
        return remade(mission, observations=tuple(found))

    def of_texts(self, setup: Setup, forecast: Forecast) -> Texts:
        """The same of a setup and a forecast: what arrives in each step rises to whole blocks."""
        factor = number_of(self.factor, "factor", FACTOR)
        names = self.stores or tuple(store.id for store in setup.stores)
        for name in names:
            _store_named(name, (store.id for store in setup.stores))
        columns = {
            name: [-(-blocks * factor.numerator // factor.denominator) for blocks in forecast.arrivals[name]]
            for name in names
        }
        return setup, forecast.having(arrivals=columns)


@brief
@dataclass(frozen=True)
class Sized:
    """A store has another size, or one that is this many times its own; it falls to whole blocks."""

    store: str
    size: VolumeLike | None = None
    factor: Number | None = None

    def of(self, mission: Mission, first: Mission) -> Mission:
        """The mission that this makes of another one, which was `first` before any change."""
        _store_named(self.store, (store.id for store in mission.stores))
        stores = tuple(
            remade(store, size=self.sized(store.size), place=f"size, store {store.id}")
            if store.id == self.store
            else store
            for store in mission.stores
        )
        return tested(remade(mission, stores=stores))

    def sized(self, size: Any) -> Any:
        """The volume that is made of that of a store."""
        if (self.size is None) == (self.factor is None):
            raise fault(
                "sized",
                "no size and no factor" if self.size is None else "a size and a factor",
                "one of size and factor",
            )
        return (
            volume_of(self.size, "size")
            if self.size is not None
            else size.times(number_of(self.factor, "factor", FACTOR))
        )

    def of_texts(self, setup: Setup, forecast: Forecast) -> Texts:
        """The same of a setup and a forecast, whose blocks have 1,024 octets."""
        _store_named(self.store, (store.id for store in setup.stores))
        return (
            replace(
                setup, stores=tuple(self._block(store) if store.id == self.store else store for store in setup.stores)
            ),
            forecast,
        )

    def _block(self, store: Store) -> Store:
        return replace(store, size=int(self.sized(Volume(Fraction(store.size), True)).blocks(1024)))


@brief
@dataclass(frozen=True)
class Changed:
    """Any function of the mission, which gives another one."""

    function: Callable[[Mission], Mission]

    def of(self, mission: Mission, first: Mission) -> Mission:
        """The mission that this makes of another one, which was `first` before any change."""
        made = self.function(mission)
        if not isinstance(made, Mission):
            raise fault("", made, "a function that gives a mission")
        return made


@brief
@dataclass(frozen=True)
class Replaced:
    """Any function of a setup and a forecast, which gives others. It comes after all changes of a mission."""

    function: Callable[[Setup, Forecast], Texts]

    def of_texts(self, setup: Setup, forecast: Forecast) -> Texts:
        """The setup and the forecast that this makes of others."""
        return self.function(setup, forecast)


Change = Union[Lost, Shortened, Rated, Scaled, Sized, Changed, Replaced]
KINDS = (Lost, Shortened, Rated, Scaled, Sized, Changed, Replaced)
# What is taken as changes: one, several, or a function of the mission.
ChangesLike = Union[Change, Callable[[Mission], Mission], Iterable[Any]]


@brief
@dataclass(frozen=True)
class Variant:
    """A variant: its `name`, its `changes`, one after the other, and the `parameters` by which a picture orders it."""

    name: str
    changes: tuple[Change, ...] = ()
    parameters: Mapping[str, Any] = field(default_factory=dict)


# What is taken as the variants of a study.
VariantsLike = Union[Mapping[str, Any], Iterable[Variant]]


def lost(*passes: str) -> Lost:
    """Nothing is sent in these passes."""
    return Lost(passes)


def shortened(one: str, late: timedelta | float = 0, early: timedelta | float = 0) -> Shortened:
    """The pass begins late and ends early, by a `timedelta` or minutes."""
    return Shortened(one, late, early)


def scaled(factor: Number, *stores: str) -> Scaled:
    """What arrives in these stores, or in all, is this many times as much."""
    return Scaled(factor, stores)


def sized(store: str, size: VolumeLike | None = None, factor: Number | None = None) -> Sized:
    """A store has this size, or one this many times as large."""
    return Sized(store, size, factor)


def rated(rate: RateLike | None = None, factor: Number | None = None, of: Iterable[str] = ()) -> Rated:
    """These passes, or all of a station, or all, have this rate, or one this many times as high; those of their
    channels go with it."""
    return Rated(rate, factor, (of,) if isinstance(of, str) else listed_of(of, "rated, of", "names"))


def each_pass_lost(mission: Mission) -> Iterator[Variant]:
    """A variant for each pass, which is lost."""
    return (Variant(f"without {one.name}", (Lost((one.name,)),), {"pass": one.name}) for one in mission.passes)


def each_store_sized(mission: Mission, factor: Number) -> Iterator[Variant]:
    """A variant for each store, whose size is this many times its own."""
    return (
        Variant(f"{store.id} x {factor}", (Sized(store.id, factor=factor),), {"store": store.id})
        for store in mission.stores
    )


def grid(**axes: Mapping[Any, Any] | tuple[Callable[[Any], Any], Iterable[Any]]) -> Iterator[Variant]:
    """Each combination of the values of some parameters. A parameter has its values with their changes, or a function
    that makes a change of a value, and the values: `grid(arrivals=(scaled, [1, 1.1, 1.2]), size=(lambda mb:
    sized("CAM", f"{mb} MB"), range(100, 400, 50)))`. """
    names = list(axes)
    for name, axis in axes.items():
        pair = not isinstance(axis, Mapping) and isinstance(axis, (tuple, list)) and len(axis) == 2
        if not isinstance(axis, Mapping) and not (pair and callable(axis[0]) and hasattr(axis[1], "__iter__")):
            raise fault(name, axis, "values with their changes in a dict, or a function and values")
    values = [
        list(axis.items()) if isinstance(axis, Mapping) else [(value, axis[0](value)) for value in axis[1]]
        for axis in axes.values()
    ]
    for chosen in product(*values):
        given = {name: value for name, (value, _) in zip(names, chosen)}
        changes = tuple(each for _, change in chosen for each in changes_of(change))
        yield Variant(", ".join(f"{name} {value}" for name, value in given.items()), changes, given)


def variants_of(given: Any) -> Iterator[Variant]:
    """The variants that are given: by their names, each with a change or several, or a function of the mission; or as
    they are."""
    if isinstance(given, Mapping):
        return (Variant(str(name), changes_of(change)) for name, change in given.items())
    if isinstance(given, (str, bytes)) or not hasattr(given, "__iter__"):
        raise fault("", given, "variants, by their names in a dict, or a list of Variant")
    return map(_variant, given)


def _variant(given: Any) -> Variant:
    """A variant, or a pair of a name and changes."""
    if isinstance(given, Variant):
        return given
    if isinstance(given, (tuple, list)) and len(given) == 2:
        return Variant(str(given[0]), changes_of(given[1]))
    raise fault("", given, "a Variant, or a name and changes")


def changes_of(given: Any) -> tuple[Change, ...]:
    """The changes that are given: one, or several, or a function of the mission."""
    if isinstance(given, KINDS):
        return (given,)
    if callable(given):
        return (Changed(given),)
    if isinstance(given, (str, bytes)) or not hasattr(given, "__iter__"):
        raise fault("", given, "changes, as lost(..) and scaled(..), or a function of the mission")
    return tuple(each for change in given for each in changes_of(change))


def in_its_unit(mission: Mission) -> Mission:
    """The mission with the unit in which it is planned, which its changes keep. One with more than 256 steps, which is
    planned in parts, has none."""
    try:
        return mission if mission.unit else remade(mission, unit=mission.problem().unit.count)
    except MissionError:
        return mission


def changed(mission: Mission, given: ChangesLike) -> Mission:
    """The mission with these changes, one after the other."""
    first = made = in_its_unit(mission)
    for change in changes_of(given):
        if isinstance(change, Replaced):
            raise fault(
                "",
                "a function of a setup and a forecast",
                "changes of the mission; such a function comes after all of them, in a study",
            )
        made = change.of(made, first)
    return made


def texts_changed(setup: Setup, forecast: Forecast, changes: Iterable[Change]) -> Texts:
    """A setup and a forecast with these changes, one after the other."""
    for change in changes:
        if isinstance(change, (Scaled, Sized, Replaced)):
            setup, forecast = change.of_texts(setup, forecast)
        else:
            raise fault("", f"{type(change).__name__} of a setup and a forecast", "a study of a mission")
    return setup, forecast


def split(changes: tuple[Change, ...]) -> tuple[tuple[Change, ...], tuple[Replaced, ...]]:
    """The changes of a mission, and the functions of its setup and forecast that come after them. Raises `MissionError`
    where a change of the mission comes after such a function."""
    first = next((place for place, change in enumerate(changes) if isinstance(change, Replaced)), len(changes))
    last = tuple(change for change in changes[first:] if isinstance(change, Replaced))
    if len(last) < len(changes) - first:
        raise fault(
            "",
            "a change of the mission after a function of a setup and a forecast",
            "such functions after all other changes",
        )
    return changes[:first], last


def _with_passes(mission: Mission, others: Mapping[str, Pass]) -> Mission:
    """The mission with others in the place of passes with these names, in the order of their time."""
    passes = sorted((others.get(one.name, one) for one in mission.passes), key=lambda one: (one.begin, one.end))
    return remade(mission, passes=tuple(passes))
