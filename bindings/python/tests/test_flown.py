"""Sheets and timelines as they are flown: a player that knows none of the package's rules sends each packet, on missions
that are drawn by chance; and a linear program in continuous time loses no less than the bound. Prints the seed and what
was counted; SEED and MISSIONS set the seed and how many missions there are."""

import os
import random
import re
import sys
import unittest
from collections import Counter
from datetime import datetime, timedelta, timezone
from pathlib import Path

import drawn
from player import play, printed_losses
from rudlayog.mission import Mission, Observation, PacketStore, Pass

try:
    import least
except ImportError:
    least = None

WEEK = Path(__file__).resolve().parents[3] / "examples" / "mars_week" / "mission.toml"
DAY = datetime(2031, 3, 3, tzinfo=timezone.utc)
SEED = os.environ.get("SEED") or str(random.SystemRandom().randrange(10**6))
MISSIONS = int(os.environ.get("MISSIONS", "300"))
sys.stderr.write(f"test_flown: SEED={SEED} MISSIONS={MISSIONS}\n")
ROUNDING = re.compile(r"at most ([\d.,]+) MB of windows, .* ([\d.,]+) MB of sizes and ([\d.,]+) MB of arrivals")


def rounding_of(made):
    """What rounding may cost by the printed sheet, in octets: of windows, and each time that stores are full."""
    windows, *full = (float(each.replace(",", "")) * 1e6 for each in ROUNDING.search(made.passes().markdown()).groups())
    channels = {channel for one in made.mission.passes for channel in made.mission.rates(one)[1]}
    # limits are rounded as windows are
    return windows * (1 + len(channels)) + sum(full) * len(made.plan.cut.stretches) + 1


class Flown(unittest.TestCase):
    counts = Counter()

    def flown(self, mission, **how):
        """Flies a plan of a mission. A step of a link or a channel may be above its rate by less than one unit: what
        it could send in the steps of the pass before it, and was no whole unit there."""
        made = mission.plan(**how)
        timeline = made.timeline()
        seen = play(mission, timeline.text(), max(problem.unit.link for problem, _ in made.parts))
        self.assertEqual(seen.faults(), dict.fromkeys(seen.faults(), 0))
        printed = printed_losses(made.passes().text())
        self.assertEqual(sum(printed.values()), made.loss)
        for store in mission.stores:
            # the player counts in packets, as the sheet does; what it counts otherwise is a unit at most
            more = seen.lost[store.id] - printed.get(store.id, 0)
            self.assertLessEqual(more, max(problem.unit.packets[store.id] for problem, _ in made.parts), store.id)
            self.counts["stores that lose more than printed"] += more > 0
            self.assertEqual(
                seen.sent[store.id], sum(row.blocks for row in made.passes() if row.store == store.id), store.id
            )
        self.counts.update(
            {"plans": 1, "dumps": len(timeline), "packets": sum(seen.sent.values()), "steps of links": seen.steps}
        )
        self.counts["of these above a rate by a part of a unit"] += seen.above
        return made, seen

    def test_the_week(self):
        made, seen = self.flown(Mission.read(WEEK))
        self.assertLessEqual(sum(seen.lost.values()), made.loss)

    def test_drawn_missions(self):
        for number in range(MISSIONS):
            mission = drawn.drawn_mission(drawn.seed_of(SEED, number))
            with self.subTest(number=number, seed=SEED):
                made, _ = self.flown(mission)
                if least:
                    self.bounded(made, number)
                if number % 3 == 0:
                    self.flown(mission, horizon=100, look=60, in_order=number % 2 == 0)
        told = ", ".join(f"{count} {what}" for what, count in self.counts.items())
        sys.stderr.write(f"test_flown: {told}; no packet early, no dump outside of its pass or ahead of a rate\n")

    def bounded(self, made, number):
        """No timeline loses less than the bound, and where all packets have one length the plan loses no more than the
        best one, but for rounding."""
        unit, found = made.problem.unit, least.least_octets(made.mission)
        rounding = rounding_of(made)
        self.assertGreaterEqual(found, made.plan.cut.bound * min(unit.octets.values()) - rounding)
        if len(set(map(made.mission.packet_of, made.mission.stores))) == 1:
            self.assertLessEqual(made.loss_mb * 1e6, found + rounding)
            self.counts["plans that lose as little as a linear program"] += 1
        if number % 10 == 0:
            # in steps of a minute no less is lost than in those from event to event
            self.assertAlmostEqual(least.least_octets(made.mission, 60), found, delta=1 + 1e-6 * found)

    def test_two_stores_that_fill_while_they_are_sent(self):
        """Two stores of 24 MB, a pass of an hour at 80 kbit/s, 18 MB into each of them during it, and then 24 MB into
        the first: one after the other, the second one would be sent before its data come, and the first one could not
        be sent whole."""
        stores = [PacketStore(name, "24000 blocks") for name in ("A", "B")]
        seen = [Observation(name, DAY + timedelta(hours=6), DAY + timedelta(hours=7), volume="18 MB") for name in "AB"]
        seen.append(Observation("A", DAY + timedelta(hours=8), DAY + timedelta(hours=9), volume="24 MB"))
        one = Pass("S", DAY + timedelta(hours=6), DAY + timedelta(hours=7), "80 kbit/s")
        made, played = self.flown(Mission(stores, [one], seen, packet=1000, block=1000))
        self.assertEqual((made.loss, sum(played.lost.values())), (0, 0))

    def test_packets_that_are_not_there(self):
        """A unit of the short packets has 64 of them; 9 come, and 9 are sent."""
        stores = [PacketStore("A", "1 MB", packet=16), PacketStore("B", "1 MB", packet=1024)]
        day = {"begin": DAY, "end": DAY + timedelta(hours=9), "block": 1024}
        seen = [
            Observation("A", DAY, DAY + timedelta(hours=1), volume="9 blocks"),
            Observation("B", DAY, DAY + timedelta(hours=1), volume="90 blocks"),
            Observation("A", DAY + timedelta(hours=8), DAY + timedelta(hours=9), volume="1000 blocks"),
            Observation("B", DAY + timedelta(hours=8), DAY + timedelta(hours=9), volume="1000 blocks"),
        ]
        one = Pass("S", DAY + timedelta(hours=2), DAY + timedelta(hours=3), "80 kbit/s")
        made, played = self.flown(Mission(stores, [one], seen, **day))
        self.assertLessEqual(played.sent["A"], 9)
        for row in made.passes():
            self.assertLessEqual(row.blocks, row.before)


if __name__ == "__main__":
    unittest.main()
