"""The edges of the steps of a mission: its begin and its end, and the moments at which a rate changes while something
can be sent. Between passes one step is enough: what arrives there is kept or lost as if it came at once."""

from __future__ import annotations

from bisect import bisect_left
from collections.abc import Iterable, Mapping, Sequence
from datetime import timedelta
from itertools import pairwise
from typing import TYPE_CHECKING

from ._flows import Use, micro, uses_of
from ._units import MICROSECOND, fault, written
from .plans import MOST_STEPS

if TYPE_CHECKING:
    from .mission import Mission


def moments_of(mission: Mission) -> list[int]:
    """The moments inside of the mission at which observations begin or end, in their order."""
    seen = {micro(mission, moment) for one in mission.observations for moment in (one.begin, one.end)}
    return sorted(time for time in seen if 0 < time < micro(mission, mission.end))


def edges_in(uses: Iterable[Use], moments: Sequence[int]) -> set[int]:
    """The edges that passes make while they are used: their begins and ends, and which of these moments are in them."""
    edges: set[int] = set()
    for use in uses:
        edges.update((use.begin, use.end))
        edges.update(moments[bisect_left(moments, use.begin) : bisect_left(moments, use.end)])
    return edges


def edges_of(mission: Mission, step: timedelta | None = None, also: Iterable[int] = ()) -> list[int]:
    """The edges of the steps, with those that are given `also`: from event to event, or such that no step is longer
    than this. Raises `MissionError` where there are too many."""
    last = micro(mission, mission.end)
    edges = {0, last, *edges_in(uses_of(mission), moments_of(mission)), *also}
    if step is not None:
        return _equal(edges, last, step)
    if len(edges) > MOST_STEPS + 1:
        raise _too_many(mission, sorted(edges))
    return sorted(edges)


def shown_edges(mission: Mission, edges: Sequence[int]) -> list[int]:
    """The edges with those of all observations, if 256 steps allow them: between passes, to show what arrives when."""
    shown = sorted({*edges, *moments_of(mission)})
    return shown if len(shown) <= MOST_STEPS + 1 else list(edges)


def _equal(needed: set[int], last: int, step: timedelta) -> list[int]:
    """The edges of steps of at most one length."""
    length = step // MICROSECOND
    if length and last // length <= MOST_STEPS:
        edges = needed.union(range(0, last, length))
        if len(edges) <= MOST_STEPS + 1:
            return sorted(edges)
    meant = f"at most {MOST_STEPS}: a horizon"
    if len(needed) <= MOST_STEPS // 2:
        minutes = last // (MOST_STEPS * 60_000_000) + 1
        while len(needed.union(range(0, last, minutes * 60_000_000))) > MOST_STEPS + 1:
            minutes += 1
        meant = f"at most {MOST_STEPS}: steps of at least {timedelta(minutes=minutes)}, or a horizon"
    raise fault(
        "step", f"steps of {step}, which are more than {MOST_STEPS} with the passes and what arrives in them", meant
    )


def _too_many(mission: Mission, edges: list[int]) -> Exception:
    """The refusal of too many steps: which events are nearest to one another, if enough of them can be at one
    moment."""
    steps = len(edges) - 1
    names: dict[int, list[str]] = {}
    ends: dict[int, int] = {}
    spans = [(one.name, one.begin, one.end) for one in mission.passes]
    spans += [(one.name or one.store, one.begin, one.end) for one in mission.observations]
    for name, first, last in spans:
        begin, end = micro(mission, first), micro(mission, last)
        names.setdefault(begin, []).append(f"{name} begins")
        names.setdefault(end, []).append(f"{name} ends")
        ends[begin] = min(end, ends.get(begin, end))
    nearest = sorted(_joinable(edges, names, ends, steps - MOST_STEPS))
    meant = f"at most {MOST_STEPS}: plan in parts (horizon=)"
    if len(nearest) == steps - MOST_STEPS:
        joined = [
            f"{written(mission.begin + first * MICROSECOND)} ({', '.join(names[first])}) and "
            f"{timedelta(microseconds=last - first)} later "
            f"({', '.join(names[last])})"
            for first, last in nearest[:10]
        ]
        more = f", and {len(nearest) - 10} more" if len(nearest) > 10 else ""
        meant += f", or let events that are near be at one moment ({'; '.join(joined)}{more})"
    return fault("", f"{steps} steps from event to event", meant)


def _joinable(
    edges: list[int], names: Mapping[int, list[str]], ends: Mapping[int, int], most: int
) -> list[tuple[int, int]]:
    """The nearest neighbours of edges, at most so many, that can be at one moment: so that no pass and no observation
    begins as it ends."""
    run = {edge: [edge] for edge in edges}
    found: list[tuple[int, int]] = []
    for first, last in sorted(pairwise(edges), key=lambda span: span[1] - span[0]):
        joined = [*run[first], *run[last]]
        if len(found) == most:
            break
        if first in names and last in names and all(ends.get(edge, joined[-1] + 1) > joined[-1] for edge in joined):
            found.append((first, last))
            run.update(dict.fromkeys(joined, joined))
    return found
