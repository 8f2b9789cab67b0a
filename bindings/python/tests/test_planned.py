"""Missions planned by the program, beside the package's own rules and those of mission_rules, which share nothing with
it; and their timelines flown by a player that knows neither. Prints the seed and what was counted; SEED and PLANNED set
the seed and how many missions there are."""

import os
import random
import subprocess
import sys
import tempfile
import unittest
import warnings
from collections import Counter
from dataclasses import dataclass
from pathlib import Path

import drawn
from made_missions import made_mission
from mission_rules import Rules, said_by
from player import play, printed_losses
from rudlayog import check
from rudlayog.mission import Mission

SEED = os.environ.get("SEED") or str(random.SystemRandom().randrange(10**6))
PLANNED = int(os.environ.get("PLANNED", "60"))
PROGRAM = Path(__file__).resolve().parents[3] / "crates" / "mm_tool" / "out" / "mm_tool"
sys.stderr.write(f"test_planned: SEED={SEED} PLANNED={PLANNED}\n")

# 64 kbit/s are 8 packets of 1,000 octets a second, 28,800 in the hour; the store has room for 16,000,000 / 1,024 =
# 15,625 of the 20,000 that come before
WHOLE = 'packet = 1000\n[[store]]\nid = "CAM"\nsize = "16 MB"\n'
PASS = "Malargue,2031-03-03T06:00:00Z,2031-03-03T07:00:00Z,64 kbit/s\n"
SEEN = (
    '[[observation]]\nstore = "CAM"\nbegin = 2031-03-03T00:00:00Z\nend = 2031-03-03T06:00:00Z\nvolume = "20 MB"\n'
)


class Refused(Exception):
    """What the program prints of a mission that it refuses: the line, and what it says more."""


@dataclass(frozen=True)
class Made:
    """The texts that the program prints of a mission, and what its plan loses, in units."""

    setup: str
    forecast: str
    plan: str
    sheet: str
    timeline: str

    @property
    def loss(self):
        return int(next(line[5:] for line in self.plan.splitlines() if line.startswith("loss ")))


def printed(path, *flags):
    """What the program prints of the mission of a file."""
    ended = subprocess.run([PROGRAM, "mission", *flags, path], capture_output=True, text=True, check=False)
    if ended.returncode:
        raise Refused(ended.stdout + ended.stderr)
    return ended.stdout


def plan_mission(path):
    parts = ("--setup", "--forecast", "--plan")
    return Made(*(printed(path, flag) for flag in parts), printed(path), printed(path, "--timeline"))


def plan_mission_text(text, tables=None):
    """Plans a mission of this text, with its tables beside it."""
    with tempfile.TemporaryDirectory() as room:
        for name, table in {"mission.toml": text, **(tables or {})}.items():
            (Path(room) / name).write_text(table)
        return plan_mission(Path(room) / "mission.toml")


def apart(mission):
    """The mission without the passes that overlap an earlier one."""
    kept = []
    for one in sorted(mission.passes, key=lambda one: (one.begin, one.end)):
        if not kept or kept[-1].end <= one.begin:
            kept.append(one)
    return Mission(
        mission.stores,
        kept,
        mission.observations,
        mission.stations,
        begin=mission.begin,
        end=mission.end,
        packet=mission.packet,
        block=mission.block,
    )


@unittest.skipUnless(PROGRAM.exists(), "the program is not built")
class OnPaper(unittest.TestCase):
    def test_a_table_beside_the_mission(self):
        made = plan_mission_text(
            f'passes = "passes.csv"\n{WHOLE}{SEEN}', {"passes.csv": "station,begin,end,rate\n" + PASS}
        )
        self.assertEqual(made.loss, 4375)
        self.assertEqual(made.forecast, "step,window,CAM\n1,0,20000\n2,28800,0\n")

    def test_refusals(self):
        for name, text in (
            ("56 MissionText", "packet ="),
            ("56 MissionText", 'packet = "x"\n'),
            ("50 NotRead", f'passes = "passes.csv"\n{WHOLE}'),
            ("58 MissionRow", f'{WHOLE}{SEEN.replace("CAM", "HK")}'),
        ):
            with self.assertRaises(Refused) as raised:
                plan_mission_text(text)
            self.assertIn(f"refused {name}", str(raised.exception))


@unittest.skipUnless(PROGRAM.exists(), "the program is not built")
class Drawn(unittest.TestCase):
    counts = Counter()

    def test_missions_of_whole_minutes(self):
        """All are planned."""
        for number in range(PLANNED):
            mission = made_mission(random.Random(f"{SEED} {number}").randrange(10**9), even=5, apart=True)
            with self.subTest(number=number, seed=SEED):
                self.planned(mission)
        told = ", ".join(f"{count} {what}" for what, count in self.counts.items())
        sys.stderr.write(f"test_planned: {told}; no packet early, no dump outside of its pass or ahead of a rate\n")

    def test_missions_of_microseconds(self):
        """Those are refused whose numbers have no common time in range, and no others."""
        for number in range(PLANNED):
            mission = apart(drawn.drawn_mission(drawn.seed_of(SEED, number)))
            with self.subTest(number=number, seed=SEED):
                try:
                    self.planned(mission)
                except Refused as refused:
                    self.assertIn("refused 58 MissionRow", str(refused))
                    self.assertIn("out of range", str(refused))
                    self.counts["refused"] += 1

    def planned(self, mission):
        """Setup and forecast say what the rules say, in the least unit in range; the plan loses least, and as little as
        the package's in the same unit; and the timeline is flown."""
        made, rules = plan_mission_text(mission.to_toml()), Rules(mission.to_toml())
        unit = next(unit for unit in range(1, 2**20) if rules.is_in_range(unit))
        self.assertEqual(said_by(made.setup, made.forecast), rules.in_units(unit))
        verdict = check(made.setup.encode(), made.forecast.encode(), made.plan)
        self.assertTrue(verdict, verdict)
        with warnings.catch_warnings():
            warnings.simplefilter("ignore")
            own = mission.plan()
        if unit == own.problem.unit.count:
            self.assertEqual(made.loss, own.plan.loss)
            self.counts["missions that the package plans in the same unit"] += 1
        self.flown(mission, made, rules)

    def flown(self, mission, made, rules):
        """No packet is early, and nothing is above a rate; no store loses more than is printed, but for a unit."""
        octets = max(store.unit * store.packet for store in rules.stores)
        seen = play(mission, made.timeline, octets)
        self.assertEqual(seen.faults(), dict.fromkeys(seen.faults(), 0))
        printed = printed_losses(made.sheet)
        for store in rules.stores:
            self.assertLessEqual(seen.lost[store.id] - printed.get(store.id, 0), store.unit, store.id)
        sent, lost = sum(seen.sent.values()), sum(seen.lost.values())
        self.counts.update({"missions": 1, "packets sent": sent, "packets lost": lost})


if __name__ == "__main__":
    unittest.main()
