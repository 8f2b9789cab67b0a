"""Rows in the order of their steps."""

from __future__ import annotations

from collections.abc import Iterable
from typing import Any

from . import _library
from ._data import STEP, Column, columns, numbers, whole
from .refusals import Refusal


def by_step(table: Any) -> dict[str, Column]:
    """The columns of a table of numbers, but for the column `step`, with their rows in the order of the steps. Where there is no such
    column, the rows stand in this order. Raises `Refusal` of the first row whose step is not the next one."""
    named = columns(table)
    steps = named.pop(STEP, None)
    found = {name: numbers(column, name) for name, column in named.items()}
    if steps is None:
        return found
    order = _order(steps)
    return {name: Column(column[row] for row in order) for name, column in found.items()}


def _order(given: Iterable[object]) -> list[int]:
    """The places of the rows, from 0, by their steps."""
    steps = []
    for row, step in enumerate(given, 1):
        try:
            steps.append(whole(step, STEP))
        except ValueError as error:
            raise _refusal(row, f"the step {step!r}") from error
    order = sorted(range(len(steps)), key=steps.__getitem__)
    for wanted, place in enumerate(order, 1):
        if steps[place] != wanted:
            raise _refusal(place + 1, f"the step {steps[place]}, where {wanted} is to be")
    return order


def _refusal(row: int, found: str) -> Refusal:
    return _library.refusal_of(_library.RefusedAt(number=_library.STEP_NUMBER, place=_library.ROW, row=row), found)
