"""What each window, size and limit of a mission is worth, as the library's sensitivity says it, with the time of each
step."""

from __future__ import annotations

import os
from collections.abc import Callable
from dataclasses import asdict, dataclass
from datetime import timedelta
from typing import TYPE_CHECKING, Any, TypeVar

import rudlayog

from ._files import Forms, save_as, table_forms
from ._tables import csv_of, html_of
from ._units import fault

if TYPE_CHECKING:
    from ._timeline import Problem
    from .mission import Mission
    from .pictures import Picture

Made = TypeVar("Made")
COLUMNS = ("item", "name", "step", "begin", "end", "now", "next", "most", "without")


@dataclass(frozen=True, repr=False)
class Sensitivity:
    """A row for each window, size and limit: `item`, `name`, `step`, `begin` and `end` of the step, and in blocks its
    value `now`, how many fewer are lost if it is one larger (`next`) or as large as can be (`most`), and how many more
    `without` it."""

    rows: tuple[dict[str, Any], ...]
    problem: Problem

    def __repr__(self) -> str:
        return f"<Sensitivity of {len(self.rows)} windows, sizes and limits in {len(self.problem)} steps>"

    @classmethod
    def of(cls, mission: Mission, step: timedelta | float | None = None) -> Sensitivity:
        """The sensitivity of a mission. Raises `MissionError` where the library has none."""
        call: Callable[..., Any] | None = getattr(rudlayog, "sensitivity", None)
        if call is None:
            raise fault("", f"library {rudlayog.version()}, which has no sensitivity", "one that has it")
        problem = mission.problem(step).shown()
        found = []
        for worth in call(problem.setup, problem.forecast):
            row = asdict(worth)
            times = problem.when(row["step"]) if row["step"] else ("", "")
            found.append({name: {**row, "begin": times[0], "end": times[1]}[name] for name in COLUMNS})
        return cls(tuple(found), problem)

    def to_dict(self) -> dict[str, list[Any]]:
        """The columns. `begin` and `end` are `datetime`s in UTC."""
        return {name: [row[name] for row in self.rows] for name in COLUMNS}

    def to_frame(self, make: Callable[[dict[str, list[Any]]], Made]) -> Made:
        """The table as a data frame, made by `make`, as `pandas.DataFrame`."""
        return make(self.to_dict())

    def text(self) -> str:
        """The table as comma separated values."""
        return csv_of(COLUMNS, (row.values() for row in self.rows))

    def forms(self) -> Forms:
        """The forms of a file of the table, by the ending of its name; `.svg` is the picture."""
        return {**table_forms(self.text, self.to_dict, "Sensitivity"), ".svg": lambda: self.plot().svg}

    def save(self, path: str | os.PathLike[str]) -> None:
        """Writes the table into a file: as .csv, .html or .xlsx, or its picture as .svg, by the name."""
        save_as(path, self.forms())

    def plot(self) -> Picture:
        """A picture of the windows: how many blocks fewer are lost where one is as wide as can be, over the time."""
        from .pictures import windows_picture

        return windows_picture(
            [(row["begin"], row["end"], row["most"]) for row in self.rows if row["item"] == "window"],
            self.problem.times,
        )

    def _repr_html_(self) -> str:
        """What is worth anything, the most first."""
        shown = sorted(
            (row for row in self.rows if row["most"] or row["without"]), key=lambda row: (-row["most"], -row["without"])
        )[:40]
        return html_of({name: [row[name] for row in shown] for name in COLUMNS})
