"""Windows and limits of steps, from the passes that are used in them."""

from __future__ import annotations

from bisect import bisect_left, bisect_right
from collections.abc import Iterator, Sequence
from itertools import combinations, pairwise
from typing import TYPE_CHECKING, NamedTuple

from ._flows import Contact

if TYPE_CHECKING:
    from .mission import Mission

# What a link has in a step: its window, and the limits of channels.
Link = tuple[int, dict[int, int]]


class Rooms(NamedTuple):
    """What passes that overlap can send together in their steps, of which `first` is the first, from 0: in all, and on
    each channel."""

    first: int
    windows: list[int]
    limits: dict[int, list[int]]


def limited_in(mission: Mission) -> tuple[int, ...]:
    """The channels that have a rate in some pass."""
    return tuple(sorted({channel for one in mission.passes for channel in mission.rates(one)[1]}))


def together(contacts: Sequence[Contact]) -> Iterator[tuple[Contact, ...]]:
    """The passes, in the order of their begins, those together that overlap one another."""
    group: list[Contact] = []
    end = 0
    for contact in contacts:
        if group and contact.sends.begin >= end:
            yield tuple(group)
            group = []
        group.append(contact)
        end = max(end, contact.sends.end) if len(group) > 1 else contact.sends.end
    if group:
        yield tuple(group)


def rooms_of(group: Sequence[Contact], edges: Sequence[int], limited: Sequence[int]) -> Rooms:
    """What passes that overlap can send in their steps."""
    begin, end = min(contact.sends.begin for contact in group), max(contact.sends.end for contact in group)
    first, last = bisect_right(edges, begin) - 1, bisect_left(edges, end)
    times = edges[first : last + 1]
    sends = [contact.sends.falls(times) for contact in group]
    rows = {
        channel: [contact.channels.get(channel, contact.sends).falls(times) for contact in group] for channel in limited
    }
    windows = [sum(column) for column in zip(*sends)]
    limits = {channel: [sum(column) for column in zip(*columns)] for channel, columns in rows.items()}
    if len(group) > 1 and limited:
        for step, (begin, end) in enumerate(pairwise(times)):
            there = [place for place, it in enumerate(group) if it.sends.begin < end and begin < it.sends.end]
            if len(there) > 1:
                links = [
                    _link(sends[place][step], {each: rows[each][place][step] for each in limited}) for place in there
                ]
                for channel in limited:
                    limits[channel][step] = sum(own[channel] for _, own in links)
                windows[step] = _sent_by_all(links, windows[step], {each: limits[each][step] for each in limited})
    return Rooms(first, windows, limits)


def _link(window: int, limits: dict[int, int]) -> Link:
    """A link in a step. Rounding may count a unit more of a channel there than of its link, which sends no more than
    its window."""
    return window, {channel: min(units, window) for channel, units in limits.items()}


def windows_of(
    contacts: Sequence[Contact], edges: Sequence[int], limited: Sequence[int]
) -> tuple[list[int], dict[int, list[int]]]:
    """The windows of the steps, and the limits of the channels that have any."""
    windows = [0] * (len(edges) - 1)
    limits = {channel: list(windows) for channel in limited}
    for group in together(contacts):
        rooms = rooms_of(group, edges, limited)
        span = range(rooms.first, rooms.first + len(rooms.windows))
        # two groups may meet inside of a step
        for column, more in (
            (windows, rooms.windows),
            *((limits[channel], rooms.limits[channel]) for channel in limited),
        ):
            for step, units in zip(span, more):
                column[step] += units
    return windows, limits


def _sent_by_all(links: list[Link], window: int, limits: dict[int, int]) -> int:
    """A window of several links at once such that whatever keeps it and the limits can be shared out among them. Each
    set of channels must find room: of a link the lesser of its window and of its limits for them counts (the cut of a
    flow from channels to links). """
    most = window
    for count in range(2, len(limits) + 1):
        for channels in combinations(limits, count):
            room = sum(min(sends, sum(each[channel] for channel in channels)) for sends, each in links)
            if room < min(window, sum(limits[channel] for channel in channels)):
                most = min(most, room)
    return most
