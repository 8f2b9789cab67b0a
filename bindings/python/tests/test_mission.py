"""Missions: what is rounded, which faults are told, and what the plan of a mission promises."""

import doctest
import os
import pickle
import tempfile
import unittest
from datetime import datetime, timedelta, timezone
from fractions import Fraction
from pathlib import Path

import rudlayog.margins
import rudlayog.mission
import rudlayog.study
from made_missions import made_mission
from rudlayog import check, plan
from rudlayog.mission import Mission, MissionError, Observation, PacketStore, Pass, Station

EXAMPLES = Path(__file__).resolve().parents[3] / "examples"
MISSIONS = int(os.environ.get("MADE_MISSIONS", "500"))


def utc(text):
    return datetime.fromisoformat(f"2031-03-{text}").replace(tzinfo=timezone.utc)


def small(**more):
    """A store, a pass of an hour at 10 packets of 100 octets a minute, and an observation."""
    given = {
        "stores": [PacketStore("CAM", "500 blocks")],
        "passes": [Pass("Malargue", utc("03T06:00"), utc("03T07:00"), Fraction(8000, 60))],
        "observations": [Observation("CAM", utc("03T00:00"), utc("03T12:00"), volume="700 blocks")],
        "packet": 100,
    }
    return Mission(**{**given, **more})


def seconds(span):
    return Fraction(span // timedelta(microseconds=1), 1_000_000)


class Rounding(unittest.TestCase):
    def test_by_hand(self):
        # 720 minutes with 700 blocks, and a pass of 60 minutes with 600: before it 350 arrive, in each minute of it 10
        # are sent
        problem = small().problem(step=60)
        self.assertEqual(len(problem), 12)
        self.assertEqual(problem.forecast.windows, (0, 0, 0, 0, 0, 0, 600, 0, 0, 0, 0, 0))
        # 58.33 blocks an hour, where a block that has begun is whole: 59, then up to 116.67 another 58, and so on; 700
        # in all
        self.assertEqual(problem.forecast.arrivals["CAM"], (59, 58, 58, 59, 58, 58, 59, 58, 58, 59, 58, 58))
        self.assertEqual(problem.when(7), (utc("03T06:00"), utc("03T07:00")))
        self.assertEqual(problem.step_at("2031-03-03T06:59:59Z"), 7)

    def test_what_is_cut_off_is_carried(self):
        # 0.3 packets a minute for 10 minutes, in steps of a minute: 3 in all, one with each that becomes whole
        mission = small(
            passes=[Pass("X", utc("03T00:00"), utc("03T00:10"), "0.3 blocks/min")], observations=(), end=utc("03T00:10")
        )
        problem = mission.problem(step=1)
        self.assertEqual(problem.forecast.windows, (0, 0, 0, 1, 0, 0, 1, 0, 0, 1))
        carried = [(row["step"], row["blocks"], round(row["carried"], 6)) for row in problem.rounding()]
        self.assertEqual(carried[:4], [(1, 0, 0.3), (2, 0, 0.6), (3, 0, 0.9), (4, 1, 0.2)])
        self.assertEqual(carried[-1], (10, 1, 0.0))

    def test_steps_from_event_to_event(self):
        problem = small().problem()
        edges = {edge for edge in problem.times}
        self.assertLessEqual({utc("03T00:00"), utc("03T06:00"), utc("03T07:00"), utc("03T12:00")}, edges)
        # only during the pass, in which data arrive, the steps are shorter
        self.assertEqual([step for step in range(1, len(problem) + 1) if problem.when(step)[1] <= utc("03T06:00")], [1])
        self.assertEqual(sum(problem.forecast.windows), 600)
        self.assertEqual(sum(problem.forecast.arrivals["CAM"]), 700)

    def test_sizes_and_rates(self):
        mission = small(
            stores=[
                PacketStore("A", "1 MB", holds="1001 octets"),
                PacketStore("B", "1 MiB"),
                PacketStore("C", 4096, packet=64),
            ][:1]
            + [PacketStore("C", 4096, packet=64)],
            observations=[Observation("C", utc("03T00:00"), utc("03T00:01"), rate="1.024 kbit/s")],
            block=1024,
        )
        setup = mission.problem(step=60).setup
        # 1,000,000 / 1,024 falls to 976; 1,001 octets are 10.01 packets of 100, which rise to 11
        self.assertEqual(
            [(mission.size_of(store), mission.held_in(store)) for store in mission.stores], [(976, 11), (4, 0)]
        )
        problem = mission.problem(step=60)
        packets = problem.unit.packets
        self.assertTrue(
            976 - packets["A"] < setup.stores[0].size * packets["A"] <= 976
            and 11 <= setup.stores[0].start * packets["A"] < 11 + packets["A"]
        )
        # 1,024 bits a second are 2 packets of 64 octets
        self.assertTrue(120 <= sum(problem.forecast.arrivals["C"]) * packets["C"] < 120 + packets["C"])
        # a pass sends 60,000 octets in whole units
        self.assertTrue(60_000 - problem.unit.link < sum(problem.forecast.windows) * problem.unit.link <= 60_000)

    def test_moments(self):
        for text in ("2031-062T06:00:00Z", "2031-03-03T06:00:00Z", "2031-03-03T08:00:00+02:00", "2031-03-03 06:00Z"):
            self.assertEqual(Pass("X", text, utc("03T07:00"), 1).begin, utc("03T06:00"))

    def test_overlaps(self):
        passes = [
            Pass("A", utc("03T06:00"), utc("03T07:00"), "10 blocks/min"),
            Pass("B", utc("03T06:30"), utc("03T07:30"), "20 blocks/min"),
        ]
        both = small(passes=passes, observations=(), begin=utc("03T06:00"), end=utc("03T08:00"), overlap="both")
        self.assertEqual(both.problem(step=30).forecast.windows, (300, 900, 600, 0))
        better = small(passes=passes, observations=(), begin=utc("03T06:00"), end=utc("03T08:00"), overlap="better")
        self.assertEqual(better.problem(step=30).forecast.windows, (300, 600, 600, 0))

    def test_links_whose_channels_differ(self):
        # one link takes channels 1 and 2, the other channel 3 alone: 10 blocks of 1 and 2 together fit into 10, and not
        # into 20
        stores = [PacketStore(f"S{channel}", "50 blocks", channel=channel, holds="10 blocks") for channel in (1, 2, 3)]
        begin, end = utc("03T06:00"), utc("03T06:01")
        passes = [
            Pass("A", begin, end, "10 blocks/min", {3: "0 bit/s"}),
            Pass("B", begin, end, "10 blocks/min", {1: "0 bit/s", 2: "0 bit/s"}),
        ]
        made = small(stores=stores, passes=passes, observations=(), overlap="both").plan()
        sent = {(row.name, row.store): row.blocks for row in made.passes()}
        self.assertLessEqual(sent["A 1", "S1"] + sent["A 1", "S2"], 10)
        self.assertEqual((sent["A 1", "S3"], sent["B 1", "S1"], sent["B 1", "S2"]), (0, 0, 0))


class Faults(unittest.TestCase):
    def faults(self, call, *given, **more):
        with self.assertRaises(MissionError) as raised:
            call(*given, **more)
        return [str(each) for each in raised.exception.faults]

    def test_what_no_unit_brings_into_range(self):
        begin, end = utc("03T06:00"), utc("03T07:00")
        given = [PacketStore("A", "5 kB")], [Pass("X", begin, end, 1)], [Observation("A", begin, end, volume="20 TB")]
        found = self.faults(Mission(*given).problem)
        self.assertIn("data that fill a store more than 1,000,000 times in one step", found[0])

    def test_of_a_text_without_parts(self):
        with tempfile.TemporaryDirectory() as folder:
            file = Path(folder, "mission.toml")
            file.write_text('[[store]]\nid = "A"\nsize = 5000\n', encoding="utf-8")
            found = self.faults(Mission.read, file)
        self.assertTrue(found[0].startswith(f"{file}: found no begin and end"), found)

    def test_of_objects(self):
        begin, end = utc("03T06:00"), utc("03T07:00")
        for made, words in (
            (lambda: Pass("X", end, begin, 1), "a pass that ends after it begins"),
            (lambda: Pass("X", datetime(2031, 3, 3), end, 1), "the local time"),
            (lambda: Pass("X", "noon", end, 1), "a moment in UTC"),
            (lambda: Pass("X", begin, end, "64 kB/s"), "kbit/s"),
            (lambda: Pass("X", begin, end, "64 octets"), "a rate"),
            (lambda: Pass("X", begin, end, "64 Kbit/s"), "kbit/s \\(1,000 bits a second\\)"),
            (lambda: PacketStore("A", "3 mb"), "MB .* or MiB"),
            (lambda: PacketStore("A", "1,000 MB"), "a volume"),
            (lambda: PacketStore("A", -1), "a volume"),
            (lambda: Observation("A", begin, end), "one of rate and volume"),
            (lambda: Observation("A", begin, end, rate=1, volume=1), "one of rate and volume"),
            (lambda: Pass("X", begin, end, 1, {9: 1}), "channels from 0 to 7"),
            (lambda: small(passes=[Pass("X", begin, end)]), "no rate"),
            (lambda: small(stations=[Station("Y")]), "the station 'Malargue'"),
            (lambda: small(observations=[Observation("XYZ", begin, end, rate=1)]), "the store 'XYZ'"),
            (lambda: small(stores=[PacketStore("CAM", "1 kB"), PacketStore("B", "1 KiB")]), "KiB, beside kB"),
            (lambda: small(stores=[PacketStore("CAM", "2 kB", holds="2 kB")]), "at most its size"),
            (lambda: small(stores=[PacketStore("CAM", "50 octets")]), "at least one block"),
            (lambda: small(stores=[PacketStore("CAM", "3 kB", type="ring")]), "'bounded' or 'circular'"),
            (lambda: small(stores=[PacketStore("CAM", "3 kB", channel=8)]), "a channel from 0 to 7"),
            (lambda: small(stores=[PacketStore("CAM", "3 kB", channel="x")]), "a whole number"),
            (lambda: small(stores=[PacketStore("small letters", "3 kB")], observations=()), "an identifier of 1 to 8"),
            (
                lambda: small(stores=[PacketStore(f"S{k}", "3 kB") for k in range(17)], observations=()),
                "1 to 16 stores",
            ),
            (lambda: small(stores=[PacketStore("CAM", "3 kB", packet=0)]), "octets from 1 to 1,024"),
            (lambda: small(block=2**21), "octets from 1 to 1,048,576"),
            (lambda: small(packet=[3]), "a whole number"),
            (lambda: small(stores=5), "a list of PacketStore"),
            (lambda: small(stores=[{"id": "A"}]), "a PacketStore; Mission.of takes tables"),
            (lambda: PacketStore("A", "60 Mb"), "MB .* or MiB .* or Mbit"),
            (lambda: PacketStore("A", [3]), "a volume"),
            (lambda: PacketStore("A", {"MB": 3}), "a volume"),
            (lambda: Pass("X", begin, end, "64 kb/s"), "kbit/s"),
            (lambda: Pass("X", datetime(1, 1, 1, tzinfo=timezone(timedelta(hours=5))), end, 1), "from the year 1"),
            (lambda: Pass("X", "0001-01-01T00:00:00+05:00", end, 1), "from the year 1"),
            (lambda: Pass("X", "2031-03-03T23:59:60Z", end, 1), "a leap second"),
            (lambda: Pass("X", [1], end, 1), "a moment in UTC"),
            (lambda: small().problem(step=1e30), "a time span"),
            (lambda: small().problem(step=[1]), "a time span"),
            (lambda: small().plan(horizon={}), "a time span"),
            (lambda: small().plan(look=30), "a horizon beside it"),
            (lambda: small(stations=[Station("Malargue", 5), Station("Malargue", 5)]), "another name"),
            (lambda: small(stores=[]), "no store"),
            (lambda: small(overlap="all"), "'both' or 'better'"),
            (lambda: small(packet=2000), "1 to 1,024"),
            (lambda: small(stores=[PacketStore("CAM", 9999)] * 2), "the name 'CAM'"),
            (lambda: small().without("Malargue 7"), "one of the passes Malargue 1"),
            (lambda: small().problem(step=1), "at least 0:03:00"),
        ):
            self.assertRegex("\n".join(self.faults(made)), words)

    def test_of_a_file(self):
        text = """begin = 2031-03-03T00:00:00
[[store]]
id = "CAM"
size = "280 mb"
[[store]]
id = "HK"
size = "1 MB"
colour = 3
[[pass]]
station = "X"
begin = 2031-03-03T02:00:00Z
end = 2031-03-03T01:00:00Z
rate = "64 kB/s"
[[observation]]
store = "HK"
begin = 2031-03-03T02:00:00Z
end = 2031-03-03T03:00:00Z
"""
        with tempfile.TemporaryDirectory() as room:
            path = Path(room, "mission.toml")
            path.write_text(text)
            found = self.faults(Mission.read, path)
            places = [each.partition(": found")[0].removeprefix(str(path)) for each in found]
            self.assertEqual(
                places,
                [", line 1, begin", ", line 4, size", ", line 8, colour", ", line 9", ", line 13, rate", ", line 14"],
            )
            path.write_text('passes = "passes.csv"\n[[store]]\nid = "CAM"\nsize = 9999\n')
            Path(room, "passes.csv").write_text(
                "station,begin,end,rate\nX,2031-03-03T02:00:00Z,2031-03-03T03:00:00Z,1\n"
                "X,2031-03-03T02:00:00,,1\n\nX,1\n"
            )
            found = self.faults(Mission.read, path)
            self.assertEqual(
                [each.split(": found")[0].rpartition("/")[2] for each in found],
                ["passes.csv, line 5", "passes.csv, line 3"],
            )
            self.assertIn("no.toml", self.faults(Mission.read, Path(room, "no.toml"))[0])
            path.write_text("begin = \nend = 3\n")
            self.assertIn("line 1", self.faults(Mission.read, path)[0])

    def test_of_rows(self):
        rows = [
            {
                "station": "X",
                "begin": "2031-03-03T02:00:00Z",
                "end": "2031-03-03T03:00:00Z",
                "rate": 1,
                "channel:2": "9 bit/s",
            }
        ]
        mission = Mission.of([{"id": "A", "size": 9999, "channel": 2}], rows)
        self.assertEqual({channel: rate.amount for channel, rate in mission.passes[0].channels.items()}, {2: 9})
        found = self.faults(
            Mission.of,
            [{"id": "A"}],
            [*rows, {**rows[0], "begin": "now"}],
            {"store": ["A"], "begin": [1], "end": [2], "rate": [3]},
        )
        self.assertEqual(
            [each.split(": found")[0] for each in found],
            ["row 1 of stores", "row 2 of passes, begin", "row 1 of observations, begin", "row 1 of observations, end"],
        )

    def test_more_than_256_steps(self):
        observations = [
            Observation(
                "CAM",
                utc("03T00:00") + timedelta(minutes=4 * k, seconds=k % 7),
                utc("03T00:02") + timedelta(minutes=4 * k),
                rate=8,
                name=f"O{k}",
            )
            for k in range(150)
        ]
        # between passes no event begins a step; in one of them each does
        self.assertLess(len(small(observations=observations).problem()), 256)
        mission = small(observations=observations, passes=[Pass("X", utc("03T00:00"), utc("03T12:00"), rate=8)])
        found = self.faults(mission.problem)[0]
        self.assertRegex(
            found, "steps from event to event; expected at most 256: plan in parts .horizon=., or .*O.* ends"
        )
        made = mission.plan(horizon=240, look=60)
        self.assertEqual((len(made.parts), len(made.kept)), (3, 3))
        self.assertTrue(all(made.check()))
        for problem, _ in made.parts[1:]:
            self.assertEqual(
                [store.start for store in problem.setup.stores], list(made.holds(problem.times[0]).values())
            )
        self.assertEqual(
            [problem.times[-1] for problem, _ in made.flown], [utc("03T04:00"), utc("03T08:00"), utc("03T12:00")]
        )
        self.assertEqual(sum(row.lost for row in made.passes()), made.loss)
        self.assertEqual(len(made.charts()), 3)


class Planned(unittest.TestCase):
    def test_sheet_by_hand(self):
        # 350 blocks are there as the pass begins, and 408.33 have come as it ends; all are sent; then 291.67 come
        made = small().plan()
        self.assertEqual(made.loss, 0)
        (row,) = made.passes()
        self.assertEqual(
            (row.name, row.store, row.before, row.blocks, row.after, row.lost), ("Malargue 1", "CAM", 350, 409, 0, 0)
        )
        self.assertAlmostEqual(row.minutes, 40.9)
        self.assertAlmostEqual(row.mb, 0.0409)
        self.assertEqual(made.plan.passes(small()).rows, made.passes().rows)

    def test_planned_on(self):
        made = small().plan()
        rest = made.at(utc("03T09:00"))
        # 2 of the last 5 hours have passed: 525 blocks have come, and 409 have left
        self.assertEqual(rest.problem(step=60).setup.stores[0].start, 116)
        self.assertEqual(rest.begin, utc("03T09:00"))
        self.assertEqual(
            made.at(utc("03T09:00"), holds={"CAM": "200 blocks"}).problem(step=60).setup.stores[0].start, 200
        )
        self.assertEqual(rest.plan().passes().rows, ())
        # within the pass: 40 of its minutes are gone
        part = made.at("2031-03-03T06:40:00Z").plan()
        self.assertEqual(part.loss, 0)

    def test_pickled(self):
        mission = made_mission(7)
        self.assertEqual(pickle.loads(pickle.dumps(mission)), mission)
        self.assertEqual(pickle.loads(pickle.dumps(mission.plan())).passes().text(), mission.plan().passes().text())

    def test_made_missions(self):
        for number in range(MISSIONS):
            mission = made_mission(number)
            made = mission.plan()
            with self.subTest(number=number):
                self.assertTrue(all(made.check()))
                self.rates_are_kept(mission, made)
                self.sums_agree(mission, made)

    def rates_are_kept(self, mission, made):
        """What each pass sends until the end of each step is at most what its link, and the link's channels, can send
        until then: octet by octet, from the pass's begin on. Where the better pass is used alone, only its time
        counts."""
        octets = {store.id: 8 * mission.packet_of(store) for store in mission.stores}
        channel_of = {store.id: store.channel for store in mission.stores}
        unit = 8 * made.problem.unit.link

        def sends(one):
            # what a link sends of the channels that stores have
            rate, channels = mission.rates(one)
            return min(
                rate.amount,
                sum(
                    channels[channel].amount if channel in channels else rate.amount
                    for channel in set(channel_of.values())
                ),
            )

        bits = {one.name: 0 for one in mission.passes}
        on_channel = {(one.name, channel): 0 for one in mission.passes for channel in range(8)}
        used = {one.name: Fraction(0) for one in mission.passes}
        for step in made.steps:
            there = [one for one in mission.passes if one.begin <= step.begin and step.end <= one.end]
            best = max(map(sends, there), default=0)
            for one in there:
                rate, channels = mission.rates(one)
                share = step.shares.get(one.name, {})
                if mission.overlap == "both" or sends(one) == best:
                    used[one.name] += seconds(step.end - step.begin)
                else:
                    self.assertFalse(share)
                for store, blocks in share.items():
                    bits[one.name] += blocks * octets[store]
                    on_channel[one.name, channel_of[store]] += blocks * octets[store]
                self.assertLessEqual(bits[one.name], rate.amount * used[one.name])
                self.assertLessEqual(
                    sum(packets * octets[store] for store, packets in share.items()),
                    unit + rate.amount * seconds(step.end - step.begin),
                )
                for channel, its in channels.items():
                    self.assertLessEqual(on_channel[one.name, channel], its.amount * used[one.name])
            self.assertLessEqual(set(step.shares), {one.name for one in there})
            if mission.overlap == "better":
                self.assertLessEqual(len([share for share in step.shares.values() if any(share.values())]), 1)

    def sums_agree(self, mission, made):
        """What passes send and lose is what the plan sends and loses, and what arrives is at least what comes."""
        sheet = made.passes()
        for store in mission.stores:
            sent = sum(step.dumped[store.id] for step in made.steps)
            self.assertEqual(sum(row.blocks for row in sheet if row.store == store.id), sent)
            packets = made.problem.unit.packets[store.id]
            # what is held and what comes rise to units: of packets that are not there none is sent, and all others are
            units = sum(made.plan.by_store[store.id])
            self.assertTrue(sent == units if packets == 1 else sent <= units * packets)
            for step, count in zip(made.steps, made.plan.by_store[store.id]):
                self.assertTrue(step.dumped[store.id] == count * packets or step.held[store.id] == 0)
            came = mission.held_in(store) + sum(step.arrived[store.id] for step in made.steps)
            self.assertEqual(came, sent + made.losses[store.id] + made.steps[-1].held[store.id])
            comes = sum(
                one.blocks_a_second(mission.packet_of(store)) * seconds(one.end - one.begin)
                for one in mission.observations
                if one.store == store.id
            )
            arrived = sum(step.arrived[store.id] for step in made.steps)
            self.assertTrue(comes <= arrived < comes + 1)
        if mission.passes:
            self.assertEqual(sum(row.lost for row in sheet), made.loss)

    def test_no_equal_steps_lose_less(self):
        # begins and ends are multiples of the equal steps, so that these say nothing of a time when there was no pass
        # or no data
        for number in range(MISSIONS // 2):
            for even in (10, 15, 30):
                mission = made_mission(number, even=even, channels=True)
                try:
                    equal = mission.plan(step=even)
                except MissionError:
                    continue
                with self.subTest(number=number, even=even):
                    made = mission.plan()
                    self.assertEqual(made.problem.unit, equal.problem.unit)
                    # in units: where packets differ in length, packets say less, and a unit of several packets is
                    # carried on at more edges of steps
                    carried = len(mission.passes) * len(mission.stores) if made.problem.unit.count > 1 else 0
                    self.assertLessEqual(made.plan.loss, equal.plan.loss + carried)


def load_tests(_loader, tests, _pattern):
    tests.addTests(doctest.DocTestSuite(rudlayog.margins))
    tests.addTests(doctest.DocTestSuite(rudlayog.mission))
    tests.addTests(doctest.DocTestSuite(rudlayog.study))
    return tests


if __name__ == "__main__":
    unittest.main()
