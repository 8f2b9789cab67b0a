"""What is rounded in a problem, and what that may cost."""

from __future__ import annotations

from collections.abc import Iterator
from fractions import Fraction
from itertools import pairwise
from typing import TYPE_CHECKING, Any

from ._flows import uses_of
from ._units import written

if TYPE_CHECKING:
    from ._timeline import Problem


def rounding_of(problem: Problem) -> list[dict[str, Any]]:
    """The table of what is rounded, in the order of the steps; sizes and what is held as the mission begins have no
    step, and come last."""
    rows = sorted(_of_steps(problem), key=lambda row: int(row["step"]))
    return rows + list(_of_stores(problem))


def _of_steps(problem: Problem) -> Iterator[dict[str, Any]]:
    """What is rounded in the steps of passes, of their channels, and of stores."""
    unit, mission = problem.unit, problem.mission
    for contact in problem.contacts:
        flows = {contact.one.name: (contact.sends, unit.link)}
        flows |= {
            f"{contact.one.name}, channel {channel}": (flow, unit.on_channel(channel))
            for channel, flow in contact.channels.items()
        }
        for name, (flow, octets) in flows.items():
            exact = [flow.exact(end) - flow.exact(begin) for begin, end in pairwise(problem.edges)]
            yield from _rows(problem, name, exact, flow.falls(problem.edges), octets)
    for store, coming in problem.arrivals.items():
        packets = unit.packets[store]
        above = map(coming.until, problem.edges)
        exact = [Fraction(after - before, coming.below * packets) for before, after in pairwise(above)]
        yield from _rows(problem, store, exact, coming.column(problem.edges, packets), unit.octets[store])


def _rows(
    problem: Problem, name: str, exact: list[Fraction], counts: list[int], octets: int
) -> Iterator[dict[str, Any]]:
    """The rows of a flow."""
    carried = Fraction(0)
    for step, (all_of_it, blocks) in enumerate(zip(exact, counts), 1):
        carried += all_of_it - blocks
        if all_of_it != blocks:
            begin = written(problem.times[step - 1])
            yield _row(step, begin, name, all_of_it, blocks, carried, octets)


def _row(
    step: int | None, begin: str, name: str, exact: Fraction, blocks: int, carried: Fraction, octets: int
) -> dict[str, Any]:
    numbers = {
        "exact": float(exact),
        "blocks": blocks,
        "carried": float(carried),
        "octets": float(abs(carried) * octets),
    }
    return {"step": step, "begin": begin, "of": name, **numbers}


def _of_stores(problem: Problem) -> Iterator[dict[str, Any]]:
    """What is rounded in sizes, which fall to whole units, and in what is held as the mission begins, which rises."""
    mission, unit = problem.mission, problem.unit
    for store, made in zip(mission.stores, problem.setup.stores):
        packets, octets = unit.packets[store.id], unit.octets[store.id]
        size = store.size.blocks(mission.block) / packets
        held = store.holds.blocks(mission.packet_of(store)) / packets
        if size != made.size:
            yield _row(None, "", f"{store.id}, size", size, made.size, size - made.size, octets)
        if held != made.start:
            yield _row(None, "", f"{store.id}, holds", held, made.start, held - made.start, octets)


def cost_of(problem: Problem) -> dict[str, float]:
    """What rounding may cost at most, in octets: each time that the stores are full of sizes and of arrivals, with what
    is held as the mission begins, and of windows in all. A window counts what the largest unit takes on a link; what a
    smaller one leaves of it is in the sum. """
    mission, unit = problem.mission, problem.unit
    sizes = sum(row["octets"] for row in _of_stores(problem) if row["of"].endswith(", size"))
    held = sum(row["octets"] for row in _of_stores(problem) if row["of"].endswith(", holds"))
    arrivals = sum(unit.octets[store] for store in problem.arrivals if not _is_whole(problem, store))
    least = min(unit.octets.values())
    windows = Fraction(0)
    for use, contact in zip(uses_of(mission), problem.contacts):
        counts, flow = contact.sends.falls(problem.edges), contact.sends
        windows += use.octets * (use.end - use.begin) / 1_000_000 - sum(counts) * least
        # what becomes whole in a step after the one in which it begins
        if any(flow.exact(edge).denominator != 1 for edge in problem.edges if flow.begin < edge < flow.end):
            windows += unit.link
    return {"sizes": float(sizes), "arrivals": float(held + arrivals), "windows": float(windows)}


def _is_whole(problem: Problem, store: str) -> bool:
    """Whether what has come until each edge are whole units."""
    coming = problem.arrivals[store]
    return all(coming.until(edge) % (coming.below * problem.unit.packets[store]) == 0 for edge in problem.edges)
