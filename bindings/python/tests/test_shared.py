"""Passes that overlap, each with a transmitter and channels of its own: whatever fits window and limits of a step is
shared out among the links. Prints the seed; SEED and MISSIONS set it and how many missions and steps there are."""

import os
import random
import sys
import unittest
import warnings
from datetime import datetime, timedelta, timezone
from itertools import product

from rudlayog._sharing import shared
from rudlayog._windows import rooms_of
from rudlayog._flows import Contact, Flow
from rudlayog.mission import Mission, MissionWarning, Observation, PacketStore, Pass, Station

DAY = datetime(2031, 3, 3, tzinfo=timezone.utc)
SEED = os.environ.get("SEED") or str(random.SystemRandom().randrange(10**6))
MISSIONS = int(os.environ.get("MISSIONS", "300"))
sys.stderr.write(f"test_shared: SEED={SEED} MISSIONS={MISSIONS}\n")


def overlapping(number):
    """A mission whose passes overlap, with rates of which a step has no whole number of packets."""
    dice = random.Random(f"overlapping {SEED} {number}")
    stores = [
        PacketStore(
            f"S{place}", f"{dice.choice([30, 90])} blocks", channel=place % 3, holds=f"{dice.randint(0, 30)} blocks"
        )
        for place in range(dice.randint(2, 5))
    ]
    stations = [
        Station(
            f"G{place}",
            f"{dice.uniform(0.2, 3):.3f} kbit/s",
            {channel: f"{dice.uniform(0.1, 2.5):.3f} kbit/s" for channel in range(3) if dice.random() < 0.7},
        )
        for place in range(dice.randint(2, 4))
    ]
    passes = []
    for place, station in enumerate(stations):
        begin = dice.uniform(0, 60) + 5 * place
        passes.append(Pass(station.name, minutes(begin), minutes(begin + dice.uniform(20, 150))))
    seen = []
    for store in stores:
        for _ in range(dice.randint(1, 3)):
            begin = dice.uniform(0, 150)
            seen.append(
                Observation(
                    store.id, minutes(begin), minutes(begin + dice.uniform(5, 90)), volume=f"{dice.randint(5, 60)} kB"
                )
            )
    with warnings.catch_warnings():
        warnings.simplefilter("ignore", MissionWarning)
        return Mission(
            stores, passes, seen, stations, begin=DAY, end=minutes(360), packet=1000, block=1000, overlap="both"
        )


def minutes(count):
    return DAY + timedelta(seconds=round(60 * count))


class Shared(unittest.TestCase):
    def test_missions(self):
        for number in range(MISSIONS):
            with self.subTest(number=number, seed=SEED):
                mission = overlapping(number)
                made = mission.plan()
                for step in made.steps:
                    sent = {store.id: 0 for store in mission.stores}
                    for share in step.shares.values():
                        for store, packets in share.items():
                            sent[store] += packets
                    self.assertEqual(sent, dict(step.dumped))

    def test_all_that_fits(self):
        """Each amount of each channel that fits a step's window and limits, of links that are drawn by chance."""
        for number in range(MISSIONS):
            dice = random.Random(f"links {SEED} {number}")
            contacts = [drawn_contact(dice, place) for place in range(dice.randint(2, 3))]
            edges = sorted({0, 120, *(time for each in contacts for time in (each.sends.begin, each.sends.end))})
            limited = sorted({channel for each in contacts for channel in each.channels})
            rooms = rooms_of(contacts, edges, limited)
            for step, window in enumerate(rooms.windows):
                times = edges[rooms.first + step : rooms.first + step + 2]
                links = [
                    (place, units, {channel: flow_in(flow, edges, times) for channel, flow in each.channels.items()})
                    for place, each in enumerate(contacts)
                    if (units := flow_in(each.sends, edges, times))
                ]
                most = [rooms.limits[channel][step] if channel in rooms.limits else window for channel in range(3)]
                for amounts in product(*(range(limit + 1) for limit in most)):
                    if links and sum(amounts) == window:
                        self.is_shared(dict(zip("ABC", amounts)), links)

    def is_shared(self, wanted, links):
        found = shared(wanted, {"A": 0, "B": 1, "C": 2}, links)
        sums = {store: sum(share.get(store, 0) for share in found.values()) for store in wanted}
        self.assertEqual(sums, wanted)
        for place, window, limits in links:
            share = found.get(place, {})
            self.assertLessEqual(sum(share.values()), window)
            if len(links) > 1:
                for store, channel in (("A", 0), ("B", 1), ("C", 2)):
                    self.assertLessEqual(share.get(store, 0), limits.get(channel, window))


def drawn_contact(dice, place):
    """A pass of some seconds, which sends a few units, with rates of channels at most its own."""
    begin = dice.randint(0, 60)
    end = begin + dice.randint(10, 60)
    above = dice.randint(1, 30)
    channels = {
        channel: Flow(begin, end, dice.randint(0, above), 100) for channel in range(3) if dice.random() < 0.6
    }
    return Contact(None, Flow(begin, end, above, 100), channels)


def flow_in(flow, edges, times):
    return flow.falls(edges)[edges.index(times[0])]


if __name__ == "__main__":
    unittest.main()
