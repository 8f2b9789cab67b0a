"""The timeline of a plan: its dumps, with their times in UTC."""

from __future__ import annotations

import os
from collections.abc import Callable, Iterator, Sequence
from dataclasses import dataclass, replace
from datetime import datetime
from typing import TYPE_CHECKING, Any, TypeVar, overload

from ._brief import brief
from ._files import Forms, save_as, table_forms
from ._tables import csv_of, html_of

if TYPE_CHECKING:
    from .sheets import MissionPlan

Made = TypeVar("Made")
COLUMNS = ("pass", "station", "begin", "end", "store", "packets", "MB", "kbit/s")


@brief
@dataclass(frozen=True)
class Dump:
    """What a store sends in a pass from `begin` to `end`, evenly: some `packets`, their megabytes `mb`, and the rate
    `kbits`, in kbit/s, at which it sends them. `name` is that of the pass."""

    name: str
    station: str
    begin: datetime
    end: datetime
    store: str
    packets: int
    mb: float
    kbits: float

    def cells(self) -> tuple[Any, ...]:
        """The values, in the order of the columns."""
        return tuple(vars(self).values())


@dataclass(frozen=True, repr=False)
class Timeline(Sequence[Dump]):
    """The dumps of a plan in the order of their time. In a step of the plan each store sends its packets evenly over
    the step, all stores side by side; dumps that follow one another at the same rate are one. So nothing is sent before
    it has come, but for the packet that is being received, and a pass has sent at no time more than its link, and its
    channels, have been able to send since it began."""

    rows: tuple[Dump, ...]

    @classmethod
    def of(cls, made: MissionPlan) -> Timeline:
        """The timeline of a plan."""
        rows: list[Dump] = []
        last: dict[tuple[str, str], int] = {}
        for dump in _dumps(made):
            place = last.get((dump.name, dump.store))
            if place is not None and _follows(dump, rows[place]):
                before = rows[place]
                rows[place] = replace(
                    before, end=dump.end, packets=before.packets + dump.packets, mb=before.mb + dump.mb
                )
            else:
                last[dump.name, dump.store] = len(rows)
                rows.append(dump)
        return cls(tuple(sorted(rows, key=lambda row: (row.begin, row.end))))

    def __repr__(self) -> str:
        return f"<Timeline of {len(self.rows)} dumps, {sum(row.mb for row in self.rows):.3f} MB>"

    def __len__(self) -> int:
        return len(self.rows)

    @overload
    def __getitem__(self, place: int) -> Dump:
        ...

    @overload
    def __getitem__(self, place: slice) -> tuple[Dump, ...]:
        ...

    def __getitem__(self, place: int | slice) -> Dump | tuple[Dump, ...]:
        return self.rows[place]

    def to_dict(self) -> dict[str, list[Any]]:
        """The columns. `begin` and `end` are `datetime`s in UTC."""
        cells = [row.cells() for row in self.rows]
        return {name: [values[place] for values in cells] for place, name in enumerate(COLUMNS)}

    def to_frame(self, make: Callable[[dict[str, list[Any]]], Made]) -> Made:
        """The timeline as a data frame, made by `make`, as `pandas.DataFrame`."""
        return make(self.to_dict())

    def text(self) -> str:
        """The timeline as comma separated values."""
        return csv_of(COLUMNS, ((*row.cells()[:-2], f"{row.mb:.6f}", f"{row.kbits:.3f}") for row in self.rows))

    def forms(self) -> Forms:
        """The forms of a file of the timeline, by the ending of its name."""
        return table_forms(self.text, self.to_dict, "Timeline")

    def save(self, path: str | os.PathLike[str]) -> None:
        """Writes the timeline into a file: as .csv, .html or .xlsx, by its name."""
        save_as(path, self.forms())

    def _repr_html_(self) -> str:
        return html_of(self.to_dict(), most=len(self.rows))


def _follows(dump: Dump, before: Dump) -> bool:
    """Whether a dump begins where another one of its store ends, and has the same rate."""
    packets = before.packets * (dump.end - dump.begin), dump.packets * (before.end - before.begin)
    return before.end == dump.begin and packets[0] == packets[1]


def _dumps(made: MissionPlan) -> Iterator[Dump]:
    """The dumps of the steps: each pass that is used in a step is used in all of it."""
    stations = {one.name: one.station for one in made.mission.passes}
    octets = {store.id: made.mission.packet_of(store) for store in made.mission.stores}
    for step in made.steps:
        seconds = (step.end - step.begin).total_seconds()
        for name, share in step.shares.items():
            for store, packets in share.items():
                if packets:
                    sent = packets * octets[store]
                    yield Dump(
                        name,
                        stations[name],
                        step.begin,
                        step.end,
                        store,
                        packets,
                        sent / 1e6,
                        sent * 8 / seconds / 1e3,
                    )
