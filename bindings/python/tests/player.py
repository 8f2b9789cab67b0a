#!/usr/bin/env python3
"""Plays a timeline packet by packet in UTC, from what the mission says and from the timeline and the sheet as they are
printed. Nothing here comes from the package's rules: how rates become windows, steps and units is not known.

Packet n of a store is there when the octets of n packets have come. A dump sends its packets one after the other, each
for its part of the dump's time; a packet leaves the store as its sending ends. Where several links send packets of one
store at once, those that all but one of them are sending need no room in it. A packet that comes whole while as many
are there as the store has room for is lost. One that would be sent before it begins to come is early, and stays.

    PYTHONPATH=.. ./player.py MISSION.toml
"""

import csv
import io
import sys
from dataclasses import dataclass, field
from datetime import datetime, timedelta
from fractions import Fraction
from heapq import merge
from itertools import pairwise
from math import ceil, floor

MICRO = timedelta(microseconds=1)


@dataclass
class Played:
    """What is seen: for each store what is `lost`; `early`, the packets whose sending ends before their coming begins,
    or while the one before them still comes; `outside`, the dumps outside of the time in which their pass is used;
    `ahead`, the moments at which a pass has sent more than its link or a channel has been able to send since this time
    began; `fast`, the dumps' steps in which more is sent than the rates allow in them, by one unit or more; `above`,
    those by any part of a unit, and `most`, the greatest part; `twice`, the moments at which one transmitter serves two
    passes."""

    lost: dict = field(default_factory=dict)
    sent: dict = field(default_factory=dict)
    early: int = 0
    outside: int = 0
    ahead: int = 0
    fast: int = 0
    above: int = 0
    most: float = 0.0
    steps: int = 0
    twice: int = 0

    def faults(self):
        """What never may be."""
        return {name: getattr(self, name) for name in ("early", "outside", "ahead", "fast", "twice")}


@dataclass(frozen=True)
class Sent:
    """A dump: its times in microseconds of the mission, and its packets."""

    one: str
    begin: int
    end: int
    store: str
    packets: int

    def until(self, time):
        """How many packets it has sent until a time, exactly."""
        return Fraction(self.packets * (min(max(time, self.begin), self.end) - self.begin), self.end - self.begin)

    def ends(self, begin, end):
        """When the sending of each packet ends, of those for which this is after one time and not after another."""
        for packet in range(floor(self.until(begin)) + 1, floor(self.until(end)) + 1):
            yield self.begin + Fraction(packet * (self.end - self.begin), self.packets)


def length_of(mission, store):
    return mission.packet if store.packet is None else store.packet


def octets_a_second(rate, length):
    """Of a rate in bits, or in packets of this length."""
    return rate.amount * length if rate.in_blocks else rate.amount / 8


def octets_of(volume, length):
    return volume.amount * length if volume.in_blocks else volume.amount


def time_of(mission, moment):
    return (moment - mission.begin) // MICRO


def read(text):
    return csv.DictReader(io.StringIO(text))


def dumps_in(mission, text):
    """The dumps of a timeline's text."""
    moments = [[datetime.fromisoformat(row[name]) for name in ("begin", "end")] for row in read(text)]
    return [
        Sent(row["pass"], time_of(mission, begin), time_of(mission, end), row["store"], int(row["packets"]))
        for row, (begin, end) in zip(read(text), moments)
    ]


class Coming:
    """What comes into a store, in packets."""

    def __init__(self, mission, store):
        length, last = length_of(mission, store), time_of(mission, mission.end)
        self.parts = []
        for one in mission.observations:
            if one.store == store.id:
                begin, end = time_of(mission, one.begin), time_of(mission, one.end)
                if one.rate is not None:
                    each = octets_a_second(one.rate, length) / length / 1_000_000
                else:
                    each = octets_of(one.volume, length) / length / (end - begin)
                self.parts.append((max(begin, 0), min(end, last), each))

    def times(self):
        return {time for begin, end, _ in self.parts for time in (begin, end)}

    def until(self, time):
        return sum((each * (min(max(time, begin), end) - begin) for begin, end, each in self.parts), Fraction(0))


def links_of(mission, one):
    """The octets a second of a pass, with the lengths of the stores that they are for: of its link, and then of each of
    its channels that stores have."""
    station = next((each for each in mission.stations if each.name == one.station), None)
    lengths = {store.id: length_of(mission, store) for store in mission.stores}
    channels = {**(station.channels if station else {}), **one.channels}
    rate = one.rate if one.rate is not None else station.rate
    links = {None: (octets_a_second(rate, max(lengths.values())), lengths)}
    for channel, own in channels.items():
        stores = {store.id: lengths[store.id] for store in mission.stores if store.channel == channel}
        if stores:
            links[channel] = octets_a_second(own, max(stores.values())), stores
    return links


def useful(mission, one):
    """What a pass can send in a second of what the stores have channels for."""
    links = links_of(mission, one)
    link, channels = links[None][0], {store.channel for store in mission.stores}
    return min(link, sum(links.get(channel, links[None])[0] for channel in channels))


def spans_of(mission):
    """When each pass is used, in microseconds of the mission: while it lasts, or with one transmitter for all, while no
    other one can send more; where several can, the one that is in use already, or the earliest."""
    last = time_of(mission, mission.end)
    passes = sorted(mission.passes, key=lambda one: (one.begin, one.end))
    spans = [(one, max(time_of(mission, one.begin), 0), min(time_of(mission, one.end), last)) for one in passes]
    if mission.overlap != "better":
        return spans
    found, at = [], None
    for begin, end in pairwise(sorted({time for _, *span in spans for time in span})):
        there = [one for one, first, until in spans if first <= begin and end <= until]
        most = max((useful(mission, one) for one in there), default=0)
        best = [one for one in there if useful(mission, one) == most]
        if best and at in best:
            found[-1] = at, found[-1][1], end
        elif best:
            found.append((best[0], begin, end))
        at = found[-1][0] if best else None
    return found


def play(mission, timeline, unit):
    """Plays the text of a timeline; `unit` is the octets of the largest unit that is counted."""
    dumps = dumps_in(mission, timeline)
    seen = Played()
    for store in mission.stores:
        play_store(mission, store, [dump for dump in dumps if dump.store == store.id], seen)
    spans = spans_of(mission)
    seen.outside += sum(
        not any(dump.one == one.name and begin <= dump.begin and dump.end <= end for one, begin, end in spans)
        for dump in dumps
    )
    for one, begin, end in spans:
        look_at_pass(mission, one, begin, [dump for dump in dumps if dump.one == one.name and dump.begin < end], unit, seen)
    if mission.overlap == "better":
        busy = sorted((dump.begin, dump.end, dump.one) for dump in dumps)
        end, at = 0, ""
        for begin, until, one in busy:
            seen.twice += begin < end and one != at
            if until > end:
                end, at = until, one
    return seen


def play_store(mission, store, dumps, seen):
    """A store from the mission's begin to its end."""
    length, last = length_of(mission, store), time_of(mission, mission.end)
    size = floor(octets_of(store.size, mission.block) / mission.block)
    held = ceil(octets_of(store.holds, length) / length)
    lost = sent = 0
    coming = Coming(mission, store)
    times = sorted({0, last, *coming.times(), *(time for dump in dumps for time in (dump.begin, dump.end))})
    for begin, end in pairwise(times):
        first, until = coming.until(begin), coming.until(end)
        active = [dump for dump in dumps if dump.begin < end and begin < dump.end]
        leaves = sum(floor(dump.until(end)) - floor(dump.until(begin)) for dump in active)
        after = held + floor(until) - floor(first) - leaves
        sent += leaves
        # what is there goes evenly from the one to the other: far from empty and from full no packet is early or lost
        if leaves and not (min(held, after) > 3 + len(active) and max(held, after) < size - 3 - len(active)):
            come, each = floor(first), (until - first) / (end - begin)
            for time in merge(*(dump.ends(begin, end) for dump in active)):
                now = first + each * (time - begin)
                # what comes whole at this moment finds the room of the packet that leaves
                whole = ceil(now) - 1 if each else floor(now)
                held += whole - come
                room = size + len(active) - 1
                lost += max(held - room, 0)
                held = min(held, room) - 1
                # only the packet that is just coming may be the one that is sent; another one is not
                early = held < -1 or (held == -1 and not each and now == floor(now))
                held, sent, seen.early = held + early, sent - early, seen.early + early
                come = whole
            held += floor(until) - come
        else:
            held = after
        lost += max(held - size, 0)
        held = min(held, size)
    seen.lost[store.id], seen.sent[store.id] = lost, sent


def look_at_pass(mission, one, begin, dumps, unit, seen):
    """The rates of a pass, and of its channels, from a time on."""
    times = sorted({begin, *(time for dump in dumps for time in (dump.begin, dump.end) if time > begin)})
    for a_second, stores in links_of(mission, one).values():
        so_far = Fraction(0)
        for before, time in pairwise(times):
            octets = sum(
                (dump.until(time) - dump.until(before)) * stores[dump.store] for dump in dumps if dump.store in stores
            )
            so_far += octets
            can = a_second * (time - before) / 1_000_000
            seen.steps += octets > 0
            seen.above += octets > can
            seen.fast += octets >= can + unit
            seen.most = max(seen.most, float((octets - can) / unit))
            seen.ahead += so_far > a_second * (time - begin) / 1_000_000


def printed_losses(sheet):
    """What each store loses by the text of a sheet."""
    found = {}
    for row in read(sheet):
        found[row["store"]] = found.get(row["store"], 0) + int(row["lost"])
    return found


def main(path):
    from rudlayog.mission import Mission

    mission = Mission.read(path)
    made = mission.plan()
    seen = play(mission, made.timeline().text(), made.problem.unit.link)
    printed = printed_losses(made.passes().text())
    print(f"printed: {sum(printed.values())} lost; played: {sum(seen.lost.values())}")
    print(seen.faults())
    print(f"above a rate: {seen.above} of {seen.steps} steps of links and channels, by at most {seen.most:.3f} units")


if __name__ == "__main__":
    main(*sys.argv[1:])
