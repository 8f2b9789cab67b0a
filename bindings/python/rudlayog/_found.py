"""What a study finds, in columns: some numbers for each variant, and each text once."""

from __future__ import annotations

from array import array
from collections.abc import Iterator, Mapping
from enum import Enum
from typing import TYPE_CHECKING, Any, NamedTuple

if TYPE_CHECKING:
    from .variants import Variant


class Found(NamedTuple):
    """What is found of a variant: as in `rudlayog.study.Answer`, without what the variant says itself."""

    loss: int | None
    by_store: tuple[int, ...] = ()
    bound: int | None = None
    shown: str = ""
    refused: str = ""
    ages: tuple[float, ...] = ()


class _No(Enum):
    VALUE = 0


# Which numbers a row has.
DONE, LOSS, BOUND, BY_STORE, AGES = 1, 2, 4, 8, 16


class FoundTable:
    """The rows of a study, which may come in any order. Their numbers stand in arrays, and texts that are the same are
    one."""

    def __init__(self, width: int) -> None:
        self._width = width
        self._has = bytearray()
        self._losses, self._bounds, self._by_store = array("q"), array("q"), array("q")
        # for each store the greatest and the median age
        self._ages = array("d")
        self._shown: list[str] = []
        self._refused: dict[int, str] = {}
        self._texts: dict[str, str] = {}
        self.names: list[str] = []
        # the values of each parameter, and where it is met first: the row, and the place in it
        self._values: dict[str, list[Any]] = {}
        self._first: dict[str, tuple[int, int]] = {}

    def __len__(self) -> int:
        return len(self.names)

    def put(self, row: int, variant: Variant, found: Found) -> None:
        """Puts in what is found of a variant."""
        self._reach(row)
        self._has[row] = DONE
        for flag, column, number in ((LOSS, self._losses, found.loss), (BOUND, self._bounds, found.bound)):
            if number is not None:
                self._has[row] |= flag
                column[row] = number
        if found.by_store:
            self._has[row] |= BY_STORE
            self._by_store[row * self._width : (row + 1) * self._width] = array("q", found.by_store)
        if found.ages:
            self._has[row] |= AGES
            self._ages.extend([0.0] * (2 * self._width * (row + 1) - len(self._ages)))
            self._ages[2 * row * self._width : 2 * (row + 1) * self._width] = array("d", found.ages)
        self._shown[row] = self._texts.setdefault(found.shown, found.shown)
        if found.refused:
            self._refused[row] = self._texts.setdefault(found.refused, found.refused)
        self.names[row] = variant.name
        for place, (name, value) in enumerate(variant.parameters.items()):
            values = self._values.setdefault(name, [])
            values.extend([_No.VALUE] * (row + 1 - len(values)))
            values[row] = value
            self._first[name] = min(self._first.get(name, (row, place)), (row, place))

    def _reach(self, row: int) -> None:
        """Makes room for a row."""
        more = row + 1 - len(self.names)
        if more > 0:
            self._has.extend(bytes(more))
            for column, count in ((self._losses, more), (self._bounds, more), (self._by_store, more * self._width)):
                column.frombytes(bytes(column.itemsize * count))
            self._shown.extend([""] * more)
            self.names.extend([""] * more)

    def is_done(self, row: int) -> bool:
        """Whether a row is there."""
        return bool(self._has[row] & DONE)

    def found(self, row: int) -> Found:
        """What is found in a row."""
        return Found(
            self.loss(row),
            self.by_store(row),
            self.bound(row),
            self._shown[row],
            self.refused(row),
            self.ages(row),
        )

    def loss(self, row: int) -> int | None:
        """The loss of a row."""
        return self._losses[row] if self._has[row] & LOSS else None

    def bound(self, row: int) -> int | None:
        """The bound of a row."""
        return self._bounds[row] if self._has[row] & BOUND else None

    def by_store(self, row: int) -> tuple[int, ...]:
        """The losses of the stores in a row."""
        return tuple(self._by_store[row * self._width : (row + 1) * self._width]) if self._has[row] & BY_STORE else ()

    def loss_of(self, place: int, row: int) -> int | None:
        """The loss of the store at a place, in a row."""
        return self._by_store[row * self._width + place] if self._has[row] & BY_STORE else None

    def ages(self, row: int) -> tuple[float, ...]:
        """The greatest and the median age of each store in a row."""
        return tuple(self._ages[2 * row * self._width : 2 * (row + 1) * self._width]) if self._has[row] & AGES else ()

    @property
    def has_ages(self) -> bool:
        """Whether some row has ages."""
        return bool(self._ages)

    def refused(self, row: int) -> str:
        """Why a row is refused."""
        return self._refused.get(row, "")

    def parameter_names(self) -> list[str]:
        """The names of the parameters, in the order in which the rows have them."""
        return sorted(self._first, key=self._first.__getitem__)

    def parameter(self, name: str, row: int) -> Any:
        """The value of a parameter in a row, or none."""
        values = self._values[name]
        return None if row >= len(values) or values[row] is _No.VALUE else values[row]

    def parameters(self, row: int) -> Mapping[str, Any]:
        """The parameters of a row."""
        return {
            name: values[row]
            for name, values in self._values.items()
            if row < len(values) and values[row] is not _No.VALUE
        }

    def rows(self) -> Iterator[int]:
        """The rows that are there."""
        return (row for row in range(len(self)) if self.is_done(row))
