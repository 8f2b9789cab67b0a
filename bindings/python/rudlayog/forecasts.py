"""What arrives in each step, and how much may leave."""

from __future__ import annotations

import csv
import io
from collections.abc import Callable, Iterable, Iterator, Mapping
from dataclasses import dataclass
from functools import cached_property
from itertools import chain
from typing import Any, SupportsIndex, TypeVar, Union

from . import _library
from ._brief import brief
from ._data import LIMIT, SIZE, STEP, WINDOW, Column, Columns, Table, Text, is_text, numbers, octets, whole
from ._steps import by_step
from .setups import setup_with

Made = TypeVar("Made")


@brief
@dataclass(frozen=True, eq=False)
class Forecast:
    """A forecast: `windows`, how many blocks may leave all stores together in each step, `arrivals`, what arrives in
    each step in each store, in blocks, `limits`, how many blocks may leave the stores of channel C in each step, in
    columns named `limit:C`, and `sizes`, how many blocks the store ID has room for in each step, in columns named
    `size:ID`: the lesser of this and the setup's size counts. The stores and the sizes stand in the setup's order, the
    limits by their channels. A forecast stays as it is, and may be a key of a dict."""

    windows: tuple[int, ...]
    arrivals: Columns
    limits: Columns = Columns({})
    sizes: Columns = Columns({})

    def __post_init__(self) -> None:
        object.__setattr__(self, "windows", numbers(self.windows, WINDOW))
        for kind in ("arrivals", "limits", "sizes"):
            if not isinstance(getattr(self, kind), Columns):
                object.__setattr__(self, kind, Columns(by_step(getattr(self, kind))))
        for name, column in self._columns.items():
            if len(column) != len(self.windows):
                raise ValueError(f"column {name} has {len(column)} rows, and column {WINDOW} has {len(self.windows)}")

    @classmethod
    def of(
        cls,
        windows: Iterable[SupportsIndex],
        arrivals: Table,
        limits: Table | None = None,
        sizes: Table | None = None,
    ) -> Forecast:
        """The forecast of these windows and arrivals: a table with a column for each store, and as many rows as there
        are windows; of limits, in the same way with a column `limit:C` for each channel C that has its own in each
        step; and of sizes, with a column `size:ID` for each store ID that has its own in each step."""
        further = [Columns({}) if each is None else each for each in (limits, sizes)]
        return cls(windows, arrivals, *further)  # type: ignore[arg-type]

    @classmethod
    def table(cls, given: Table) -> Forecast:
        """The forecast of a table with the columns `window`, one for each store, `limit:C` for channels, and `size:ID`
        for stores: rows that are dicts, a dict of columns, or a data frame. With a column `step` the rows may stand in
        any order. Raises `Refusal` where the steps are not 1, 2, 3 and so on."""
        named = by_step(given)
        if WINDOW not in named:
            raise ValueError(f"a forecast has a column {WINDOW}, and here are only the columns {', '.join(named)}")
        windows = named.pop(WINDOW)
        limits, sizes = (
            Columns({name: named.pop(name) for name in list(named) if name.startswith(word)}) for word in (LIMIT, SIZE)
        )
        return cls(windows, Columns(named), limits, sizes)

    @classmethod
    def read(cls, text: Text) -> Forecast:
        """The forecast that a text says. Raises the library's `Refusal` where it is none for any setup."""
        given = octets(text)
        stores = [name for name in _header(given)[2:] if not name.startswith((LIMIT, SIZE))]
        _library.accept(bytes(setup_with(stores)), given)
        names, *rows = _records(given)
        return cls.table({name: [int(cell) for cell in column] for name, *column in zip(names, *rows, strict=True)})

    def to_dict(self) -> dict[str, list[int]]:
        """The columns of the forecast, as the text has them."""
        steps = list(range(1, len(self.windows) + 1))
        return {
            STEP: steps,
            WINDOW: list(self.windows),
            **{name: list(column) for name, column in self._columns.items()},
        }

    def to_frame(self, make: Callable[[dict[str, list[int]]], Made]) -> Made:
        """The forecast as a data frame, made by `make`, as `pandas.DataFrame`."""
        return make(self.to_dict())

    def text(self) -> str:
        """The text of the forecast, comma separated values."""
        return self._octets.decode()

    def after(self, step: int) -> Forecast:
        """What is forecast after a step, or from the first on after 0: its steps count from 1 again."""
        if not 0 <= whole(step, STEP) <= len(self.windows):
            raise ValueError(f"the forecast has {len(self.windows)} steps, and no step {step}")
        arrivals, limits, sizes = (
            Columns({name: column[step:] for name, column in named.items()}) for named in self._kinds
        )
        return Forecast(self.windows[step:], arrivals, limits, sizes)

    def having(
        self,
        windows: Iterable[SupportsIndex] | None = None,
        arrivals: Table | None = None,
        limits: Table | None = None,
        sizes: Table | None = None,
    ) -> Forecast:
        """The same forecast with other windows, with other arrivals in the stores that are named, or with other limits
        or sizes in the columns that are named. Its text is made from this one's."""
        others = [{} if given is None else by_step(given) for given in (arrivals, limits, sizes)]
        for kind, named, own in zip(("store", "column", "column"), others, self._kinds):
            strange = [name for name in named if name not in own]
            if strange:
                raise ValueError(f"the forecast has no {kind} {', '.join(strange)}")
        merged = [own.with_others(named) if named else own for own, named in zip(self._kinds, others)]
        forecast = Forecast(self.windows if windows is None else windows, *merged)  # type: ignore[arg-type]
        changed = {name: column for named in others for name, column in named.items()}
        if changed and len(forecast.windows) == len(self.windows):
            vars(forecast)["_octets"] = self._text_having(None if windows is None else forecast.windows, changed)
        return forecast

    def _text_having(self, windows: tuple[int, ...] | None, changed: Mapping[str, Column]) -> bytes:
        """The text with other windows, if there are any, and these columns in the place of those with their names."""
        open_names = tuple([name for name in self._columns if name in changed]) if len(changed) > 1 else tuple(changed)
        form = (
            self._form(open_names) if windows is None else self._columns.form(len(self.windows), open_names) % windows
        )
        in_order = (
            changed[open_names[0]]
            if len(open_names) == 1
            else tuple(chain.from_iterable(zip(*(changed[name] for name in open_names))))
        )
        return form % in_order

    @property
    def _kinds(self) -> tuple[Columns, Columns, Columns]:
        """The columns after the windows, of each kind, in their order in the text."""
        return self.arrivals, self.limits, self.sizes

    @cached_property
    def _columns(self) -> Columns:
        """The columns after the windows."""
        further = dict(chain(self.limits.items(), self.sizes.items()))
        return self.arrivals.with_others(further) if further else self.arrivals

    @cached_property
    def _forms(self) -> dict[tuple[str, ...], bytes]:
        return {}

    def _form(self, open_names: tuple[str, ...]) -> bytes:
        """The text with `%d` for each number of these columns. It is kept."""
        if open_names not in self._forms:
            self._forms[open_names] = self._columns.form(len(self.windows), open_names) % self.windows
        return self._forms[open_names]

    @cached_property
    def _octets(self) -> bytes:
        return self._form(()) % ()

    def __bytes__(self) -> bytes:
        return self._octets

    def __eq__(self, other: object) -> bool:
        return isinstance(other, Forecast) and self._octets == other._octets

    def __hash__(self) -> int:
        return hash(self._octets)

    def __reduce__(self) -> tuple[object, ...]:
        return Forecast, (self.windows, *self._kinds)


# What is taken as a forecast.
ForecastLike = Union[Text, Forecast, Table]


def _records(given: bytes) -> Iterator[list[str]]:
    """The records of comma separated values; none where there is no octet."""
    lines = io.StringIO(given.decode("utf-8-sig", "replace"), newline="")
    return (record for record in csv.reader(lines) if record)


def _header(given: bytes) -> list[str]:
    """The first record, if there is one."""
    try:
        return next(_records(given), [])
    except csv.Error:
        return []


def forecast_octets(given: Any) -> bytes:
    """The octets of a forecast: of a text, a `Forecast`, or a table."""
    if isinstance(given, Forecast):
        return bytes(given)
    return octets(given) if is_text(given) else bytes(Forecast.table(given))
