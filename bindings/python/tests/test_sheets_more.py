"""What operations need beside the sheet: the timeline, room to spare, ages, losses in MB, missions that are written and
read again, what is odd, and what a notebook shows."""

import csv
import io
import os
import subprocess
import sys
import tempfile
import unittest
import unittest.mock
import warnings
import xml.etree.ElementTree as xml
from dataclasses import replace
from pathlib import Path

import drawn
import rudlayog
from made_missions import made_mission
from player import Coming, time_of
from rudlayog import check
from rudlayog.mission import Mission, MissionError, MissionWarning, Observation, PacketStore, Pass, Station
from rudlayog.study import each_pass_lost, lost, scaled, study
from test_changes import at, day

WEEK = Path(__file__).resolve().parents[3] / "examples" / "mars_week" / "mission.toml"
PACKAGE = Path(rudlayog.__file__).resolve().parents[1]


class Timelines(unittest.TestCase):
    def test_by_hand(self):
        # 50 MB in two passes of an hour, each of which can send 36 MB: in each of them evenly, over all of the hour
        rows = day().plan().timeline().rows
        self.assertEqual(
            [(row.name, row.begin, row.end, row.store, row.station) for row in rows],
            [(one.name, one.begin, one.end, "A", "S") for one in day().passes],
        )
        self.assertEqual(sum(row.packets for row in rows), 50_000)
        for row in rows:
            self.assertTrue(14_000 <= row.packets <= 36_000)
            self.assertAlmostEqual(row.kbits, row.packets * 8 / 3600)

    def test_equal_rates_are_one_dump(self):
        # what comes in the pass begins two more steps; 80 kbit/s are 10 packets a second in each of the three
        mission = day(
            passes=[Pass("S", at(6), at(7), "80 kbit/s")],
            observations=[Observation("A", at(6, 20), at(6, 40), volume="6 MB"), day().observations[0]],
        )
        self.assertGreater(len(mission.problem()), 4)
        (row,) = mission.plan().timeline().rows
        self.assertEqual((row.begin, row.end, row.packets, row.kbits), (*span_of(mission.passes[0]), 36_000, 80))

    def test_of_many(self):
        for mission in [Mission.read(WEEK), *map(made_mission, range(40))]:
            made = mission.plan()
            timeline = made.timeline()
            sheet = made.passes()
            for one in mission.passes:
                own = [row for row in timeline if row.name == one.name]
                self.assertTrue(all(one.begin <= row.begin < row.end <= one.end for row in own))
                for store in mission.stores:
                    self.assertEqual(
                        sum(row.packets for row in own if row.store == store.id),
                        sum(row.blocks for row in sheet if (row.name, row.store) == (one.name, store.id)),
                    )
        records = list(csv.DictReader(io.StringIO(timeline.text())))
        self.assertEqual(
            (len(records), list(timeline.to_dict())),
            (len(timeline), ["pass", "station", "begin", "end", "store", "packets", "MB", "kbit/s"]),
        )

    def test_what_is_held_follows_the_timeline(self):
        # 50 MB are there, and nothing comes before 14 h: what is held is what the timeline has not sent
        made = day().plan()
        for hour, minute in ((5, 0), (6, 0), (6, 7), (6, 30), (7, 0), (9, 0), (12, 41), (13, 0)):
            utc = made.at(at(hour, minute)).begin
            sent = sum(
                row.packets * min(max((utc - row.begin) / (row.end - row.begin), 0), 1) for row in made.timeline()
            )
            self.assertAlmostEqual(made.holds(utc)["A"], 50_000 - sent, delta=1)

    def test_one_transmitter_for_two_passes(self):
        # T begins while S, which can send more, is used: from 8 h on T is used too. 90 MB go down, 72 and 18.
        passes = [Pass("S", at(6), at(8), "80 kbit/s"), Pass("T", at(7), at(9), "40 kbit/s")]
        seen = [Observation("A", at(14), at(15), volume="90 MB")]
        stores = [PacketStore("A", "90 MB", holds="90 MB")]
        made = day(stores=stores, passes=passes, observations=seen, overlap="better").plan()
        self.assertEqual([edge / 3.6e9 for edge in made.problem.edges], [0, 6, 8, 9, 24])
        self.assertEqual(
            [(row.name, row.before, row.blocks, row.after, row.lost) for row in made.passes()],
            [("S 1", 90_000, 72_000, 18_000, 0), ("T 1", 54_000, 18_000, 0, 0)],
        )

    def test_what_is_held_inside_of_steps(self):
        for number in range(40):
            dice = drawn.seed_of("holds", number)
            made = drawn.drawn_mission(dice).plan()
            timeline = made.timeline()
            for step, before in zip(made.steps, [None, *made.steps]):
                utc = step.begin + dice.random() * (step.end - step.begin)
                held = made.holds(utc)
                for store in made.mission.stores:
                    coming = Coming(made.mission, store)
                    begin, now = (time_of(made.mission, time) for time in (step.begin, utc))
                    come = coming.until(now) - coming.until(begin)
                    sent = [
                        row.packets * ((min(utc, row.end) - max(step.begin, row.begin)) / (row.end - row.begin))
                        for row in timeline
                        if row.store == store.id and row.begin < utc and step.begin < row.end
                    ]
                    there = before.held[store.id] if before else made.mission.held_in(store)
                    wanted = min(there + come - sum(sent), made.mission.size_of(store))
                    self.assertAlmostEqual(held[store.id], float(wanted), delta=2, msg=f"{number} {store.id} {utc}")


def span_of(one):
    return one.begin, one.end


class Ages(unittest.TestCase):
    def test_they_follow_the_timeline(self):
        # 36 MB come in a minute, and go down evenly in an hour, 6 h later: the part f of them is 6 h and f * 59 min old
        seen = [Observation("A", at(0), at(0, 1), volume="36 MB"), Observation("A", at(20), at(21), volume="36 MB")]
        one = Pass("S", at(6), at(7), "80 kbit/s")
        age = day(stores=[PacketStore("A", "36 MB")], passes=[one], observations=seen).plan().ages()["A"]
        self.assertAlmostEqual(age.greatest, 6 + 59 / 60)
        self.assertAlmostEqual(age.median, 6 + 59 / 120)

    def test_by_hand(self):
        # 36 MB arrive from 0 to 2 h, evenly, and go down from 6 h and from 12 h on, 18 MB each
        mission = day(
            stores=[PacketStore("A", "50 MB"), PacketStore("B", "1 MB")],
            passes=[Pass("S", at(6), at(7), "40 kbit/s"), Pass("S", at(12), at(13), "40 kbit/s")],
            observations=[Observation("A", at(0), at(2), volume="36 MB")],
        )
        ages = mission.plan().ages()
        # nothing is lost, so a plan need not send all; what it sends first is the oldest
        self.assertIn(ages["A"].greatest, (6, 11))
        self.assertEqual((ages["B"].greatest, ages["B"].median), (0, 0))
        full = replace(
            mission,
            stores=(PacketStore("A", "36 MB"), PacketStore("B", "1 MB")),
            observations=(*mission.observations, Observation("A", at(20), at(21), volume="36 MB")),
        )
        # all of it must go: the first packet is 6 h old in the first pass, and that from 1 h on is 11 h old in the
        # second
        ages = full.plan().ages()
        self.assertEqual(ages["A"].greatest, 11)
        self.assertTrue(6 <= ages["A"].median <= 11)

    def test_a_store_that_fills_while_it_is_sent(self):
        # in an hour 2 packets a second come and 1 goes down; the store of 1,800 is full after half of it. Until then the
        # packet that is sent after t seconds came after t / 2. Then a bounded store goes on with those that it kept, and
        # a circular one, of which 2 a second leave, one of them lost, with those that are 900 s old.
        for kind, greatest, median in (("bounded", 1800, 900), ("circular", 900, 900)):
            mission = day(
                stores=[PacketStore("A", "1800 blocks", kind)],
                passes=[Pass("S", at(6), at(7), "1 blocks/s")],
                observations=[Observation("A", at(6), at(7), rate="2 blocks/s")],
            )
            made = mission.plan()
            age = made.ages()["A"]
            self.assertEqual(made.loss, 1800)
            self.assertAlmostEqual(age.greatest * 3600, greatest)
            self.assertAlmostEqual(age.median * 3600, median)
            self.assertEqual([made.holds(at(6, minute))["A"] for minute in (0, 10, 15, 30, 45)], [0, 600, 900, 1800, 1800])

    def test_a_full_circular_store_loses_its_oldest(self):
        stores = {kind: PacketStore("A", "10 MB", kind) for kind in ("bounded", "circular")}
        seen = [
            Observation("A", at(0), at(1), volume="10 MB"),
            Observation("A", at(4), at(5), volume="10 MB"),
            Observation("A", at(20), at(21), volume="10 MB"),
        ]
        for kind, age in (("bounded", 6), ("circular", 2)):
            mission = day(stores=[stores[kind]], passes=[Pass("S", at(6), at(7), "80 kbit/s")], observations=seen)
            self.assertEqual(mission.plan().ages()["A"].greatest, age)

    def test_in_a_study(self):
        found = study(day(), each_pass_lost(day()), ages=True, progress=False)
        for answer, one in zip(found, day().passes):
            made = (
                day()
                .changed([variant for variant in each_pass_lost(day()) if variant.name == answer.name][0].changes)
                .plan()
            )
            self.assertEqual(answer.ages, tuple(made.ages_in_line()))
        self.assertEqual(found.to_dict()["A greatest age"], [round(answer.ages[0], 3) for answer in found])
        self.assertNotIn("A greatest age", study(day(), {"x": scaled(1)}, progress=False).to_dict())


class Margins(unittest.TestCase):
    def test_by_hand(self):
        # 50 MB are there, 72 MB can be sent, and then x times 50 MB come into a store of 80 MB
        mission = day(stores=[PacketStore("A", "80 MB", holds="50 MB")])
        margin = mission.margin()
        # 50 MB * 1.6 fill the store
        self.assertEqual(margin.growth.percent, 60.0)
        # what is held, and what comes later, are 50 MB of 80: 37.5 % less
        self.assertEqual(margin.shrink.percent, 37.5)
        self.judged(mission, margin)
        self.assertEqual(mission.margin("A").growth, margin.growth)
        self.assertEqual(mission.margin(["A"]).growth, margin.growth)
        with self.assertRaisesRegex(MissionError, "the store 'B'"):
            mission.margin("B")
        self.assertEqual(day(observations=()).margin().growth.words(), "100000.0 % and more")

    def judged(self, mission, margin):
        self.assertEqual(str(margin.growth.point.check().kind), "least")
        for room in (margin.growth, margin.shrink):
            self.assertTrue(room.check())
            self.assertLessEqual(room.point.loss, margin.loss)
            if room.beyond is not None:
                self.assertTrue(room.beyond.check())
                self.assertGreater(room.beyond.plan.cut.bound * room.beyond.unit, margin.loss)
                self.assertAlmostEqual(room.beyond.percent - room.percent, 0.1)
        today = mission.plan()
        self.assertEqual(margin.plan.loss, today.loss)
        self.assertTrue(all(margin.plan.check()))

    def test_of_the_week_and_of_many(self):
        for mission in [
            Mission.read(WEEK),
            *(drawn.drawn_mission(drawn.seed_of("margin", number)) for number in range(10)),
        ]:
            if len({mission.packet_of(store) for store in mission.stores}) > 1:
                continue
            margin = mission.margin()
            self.judged(mission, margin)
            # the plan with that room loses no more where arrivals have grown
            point = margin.growth.point
            flown = rudlayog.table(point.setup, point.forecast, margin.plan.plan.to_dict()).to_dict()
            self.assertEqual(sum(flown["lost"]) * point.unit, point.loss)
            xml.fromstring(margin.plot().svg)
            self.assertEqual(len(margin.text().splitlines()), 3)


class Megabytes(unittest.TestCase):
    def test_losses(self):
        mission = day(
            stores=[
                PacketStore("A", "50 MB", holds="50 MB"),
                PacketStore("B", "5000 blocks", packet=500, holds="5000 blocks"),
            ],
            observations=[Observation("A", at(1), at(2), volume="3 MB"), Observation("B", at(1), at(2), volume="1 MB")],
        )
        made = mission.plan()
        self.assertEqual(made.losses, {"A": 3000, "B": 2000})
        self.assertEqual((made.loss, made.loss_mb), (5000, 4.0))
        self.assertEqual(sum(row.lost_mb for row in made.passes()), 4.0)
        found = study(mission, {"twice": scaled(2)}, progress=False)
        self.assertEqual((found.mb(found[0]), found.mb(found.base)), (8.0, 4.0))
        self.assertEqual(
            {name: column for name, column in found.to_dict("MB").items() if "MB" in name},
            {"loss MB": [8.0], "change MB": [4.0], "A MB": [6.0], "B MB": [2.0]},
        )
        self.assertTrue(found.text("MB").startswith("variant,loss MB,change MB,A MB,B MB,least,refused\n"))
        with self.assertRaisesRegex(ValueError, "blocks or MB"):
            found.text("GB")


class Written(unittest.TestCase):
    def test_a_mission_is_read_as_it_is_written(self):
        missions = [
            Mission.read(WEEK),
            *map(made_mission, range(20)),
            *(drawn.drawn_mission(drawn.seed_of("written", number)) for number in range(40)),
        ]
        missions.append(missions[0].changed([scaled("1/3"), scaled("1/7")]))
        with tempfile.TemporaryDirectory() as room, warnings.catch_warnings():
            warnings.simplefilter("ignore", MissionWarning)
            for number, mission in enumerate(missions):
                path = Path(room, f"{number}.toml")
                mission.save(path)
                again = Mission.read(path)
                self.assertEqual(again, mission)
                self.assertEqual(again.problem().forecast, mission.problem().forecast)
                files = {}
                for table in ("stores", "stations", "passes", "observations"):
                    files[table] = Path(room, f"{number}-{table}.csv")
                    files[table].write_text(mission.to_csv(table))
                plain = {
                    name: getattr(mission, name)
                    for name in ("begin", "end", "packet", "block", "overlap", "name", "routes", "unit")
                }
                self.assertEqual(Mission.of(**files, **plain), mission)
        with self.assertRaisesRegex(MissionError, "one of stores, stations, passes, observations"):
            mission.to_csv("pass")


class Odd(unittest.TestCase):
    def said(self, **more):
        with warnings.catch_warnings(record=True) as odd:
            warnings.simplefilter("always")
            mission = day(**more)
            mission.plan()
            mission.changed(scaled(2)).plan(horizon=600)
            mission.between(at(3), at(12))
        self.assertTrue(all(each.category is MissionWarning for each in odd))
        return [str(each.message) for each in odd]

    def test_what_is_odd_is_said_once(self):
        self.assertEqual(self.said(), [])
        outside = Pass("S", "2031-03-05T06:00:00Z", "2031-03-05T07:00:00Z", 9)
        self.assertRegex(
            "\n".join(self.said(passes=[outside])),
            "^pass S: the pass S 1 lies outside of the mission, and is left out$",
        )
        self.assertRegex(
            "\n".join(self.said(observations=[Observation("A", at(20), "2031-03-04T07:00:00Z", 9, name="x")])),
            "^observation x: the observation x reaches beyond the mission",
        )
        self.assertRegex(
            "\n".join(self.said(passes=[Pass("S", at(6), at(7), 9, {5: 3})])),
            "^pass S: channel 5 has a rate, and no store has this channel$",
        )
        self.assertRegex(
            "\n".join(self.said(passes=[Pass("S", at(6), at(7), 9, {0: 30})])),
            "^pass S: channel 0 has 30 bit/s, and the link 9 bit/s$",
        )

    def test_the_command_says_it(self):
        with tempfile.TemporaryDirectory() as room:
            path = Path(room, "mission.toml")
            path.write_text(
                day().to_toml()
                + f'\n[[observation]]\nstore = "A"\nbegin = {at(20)}\nend = 2031-03-09T00:00:00Z\nrate = 3\n'
            )
            ran = subprocess.run(
                [sys.executable, "-B", "-m", "rudlayog", path],
                capture_output=True,
                text=True,
                check=True,
                env={**os.environ, "PYTHONPATH": str(PACKAGE)},
            )
            self.assertRegex(
                ran.stderr,
                "^rudlayog: warning: .*mission.toml, line [0-9]+: the observation reaches beyond the mission",
            )
            self.assertTrue(ran.stdout.startswith("| pass |"))


class Rows(unittest.TestCase):
    def test_numbers_of_other_kinds(self):
        rows = [{"id": "A", "size": "5 MB", "channel": 1.0, "packet": 1000.0}]
        one = {"station": "S", "begin": at(6), "end": at(7), "rate": 80}
        self.assertEqual(Mission.of(rows, [one]).stores[0].channel, 1)
        try:
            import numpy
            import pandas
        except ImportError:
            self.skipTest("no pandas")
        frame = pandas.DataFrame([{**rows[0], "channel": numpy.int64(1)}, {"id": "B", "size": "1 MB"}])
        made = Mission.of(frame, [one], packet=numpy.int64(1000), block=1000.0)
        self.assertEqual([(store.channel, store.packet) for store in made.stores], [(1, 1000), (0, None)])
        self.assertEqual((made.packet, made.block), (1000, 1000))

    def test_a_column_that_is_none_is_named_once(self):
        passes = [
            {"station": "S", "begin": at(hour), "end": at(hour + 1), "rate": 80, "colour": "red", "weather": hour}
            for hour in range(5)
        ]
        with self.assertRaises(MissionError) as raised:
            Mission.of([{"id": "A", "size": "5 MB"}], passes)
        self.assertEqual([each.found for each in raised.exception.faults], ["the key colour", "the key weather"])

    def test_of_files(self):
        with tempfile.TemporaryDirectory() as room:
            path = Path(room, "mission.toml")
            path.write_text(
                'packet = "many"\npasses = "passes.csv"\n[[store]]\nid = "A"\nsize = "60 Mb"\nchannel = 9\n'
            )
            Path(room, "passes.csv").write_text("station,begin,end,rate,begin\n")
            with self.assertRaises(MissionError) as raised:
                Mission.read(path)
            words = [str(each).removeprefix(room) for each in raised.exception.faults]
            self.assertRegex(words[0], "^/mission.toml, line 1, packet: found many; expected a whole number")
            self.assertRegex(words[1], "^/mission.toml, line 5, size: found 60 Mb; expected .*Mbit")
            self.assertRegex(words[2], "^/passes.csv, line 1: found the column begin twice")

    def test_no_error_of_another_kind(self):
        values = ([1], {"a": 1}, None, object(), b"x", float("nan"), float("inf"), 10**400, "1e999999", True, "")
        fields = {
            PacketStore: {"id": "A", "size": "5 MB", "type": "bounded", "channel": 0, "holds": 0, "packet": 1000},
            Station: {"name": "S", "rate": 80, "channels": {0: 3}},
            Pass: {"station": "S", "begin": at(6), "end": at(7), "rate": 80, "channels": {0: 3}, "name": "x"},
            Observation: {"store": "A", "begin": at(6), "end": at(7), "rate": 80, "name": "x"},
        }
        names = {PacketStore: "stores", Station: "stations", Pass: "passes", Observation: "observations"}
        for kind, good in fields.items():
            for key in good:
                for value in values:
                    parts = {
                        names[each]: [row if each is not kind else {**row, key: value}] for each, row in fields.items()
                    }
                    objects = {name: [each(**parts[name][0])] for each, name in names.items() if each is not kind}
                    for make in (
                        lambda: Mission.of(**parts),
                        lambda: Mission(**objects, **{names[kind]: [kind(**parts[names[kind]][0])]}),
                    ):
                        with self.subTest(kind=kind, key=key, value=str(value)[:20]), warnings.catch_warnings():
                            warnings.simplefilter("ignore", MissionWarning)
                            try:
                                make().problem()
                            except MissionError:
                                pass
        for key in (
            "begin",
            "end",
            "packet",
            "block",
            "overlap",
            "name",
            "routes",
            "unit",
            "stores",
            "passes",
            "observations",
            "stations",
        ):
            for value in values:
                with self.subTest(key=key, value=str(value)[:20]):
                    try:
                        day(**{key: value}).problem()
                    except MissionError:
                        pass


class Notebooks(unittest.TestCase):
    def test_what_is_shown(self):
        mission = Mission.read(WEEK)
        made = mission.plan()
        shown = [
            mission,
            mission.problem(),
            made.plan,
            made.passes(),
            study(mission, each_pass_lost(mission), progress=False),
            mission.sensitivity(),
            made.timeline(),
            mission.margin(),
            made,
        ]
        for one in shown:
            self.assertLessEqual(len(repr(one)), 300)
            if one is not made:
                self.assertIn("<table>", one._repr_html_())
        stores = [PacketStore(f"STORE{k:03}", "9 MB") for k in range(16)]
        wide = day(stores=stores, observations=(), name="x" * 900)
        self.assertLessEqual(max(map(len, map(repr, (wide, wide.problem(), wide.plan(), wide.plan().plan)))), 300)

    def test_tqdm(self):
        try:
            import tqdm.auto  # noqa: F401
        except ImportError:
            self.skipTest("no tqdm")
        with unittest.mock.patch("tqdm.auto.tqdm") as bar:
            study(day(), {"x": scaled(1)}, progress=True)
        self.assertEqual(bar.return_value.update.call_count, 1)


class Horizons(unittest.TestCase):
    def test_the_week_in_days(self):
        mission = Mission.read(WEEK)
        whole = mission.plan().loss
        # a linear program in continuous time loses 88,509.15
        self.assertEqual(whole, 88_510)
        made = mission.plan(horizon=1440)
        self.assertEqual(
            (len(made.parts), made.kept),
            (
                7,
                tuple(
                    problem.times.index(end)
                    for (problem, _), end in zip(made.parts, (flown.times[-1] for flown, _ in made.flown))
                ),
            ),
        )
        self.assertLessEqual(made.loss, whole * 1.01)
        self.assertTrue(all(made.check()))
        self.assertEqual(sum(row.lost for row in made.passes()), made.loss)
        # without a look ahead each day loses least by itself
        self.assertGreaterEqual(mission.plan(horizon=1440, look=0).loss, made.loss)
        found = study(mission, list(each_pass_lost(mission))[:2], horizon=1440, progress=False)
        self.assertEqual(
            [answer.loss for answer in found],
            [mission.changed(variant.changes).plan(horizon=1440).loss for variant in list(each_pass_lost(mission))[:2]],
        )
        self.assertFalse(found[0].is_least)

    def test_a_study_of_more_than_256_events(self):
        seen = [
            Observation(
                "A",
                f"2031-03-03T{k // 12:02}:{k % 12 * 5:02}:00Z",
                f"2031-03-03T{k // 12:02}:{k % 12 * 5 + 2:02}:30Z",
                volume="1 MB",
            )
            for k in range(200)
        ]
        passes = [Pass("S", at(0), "2031-03-04T00:00:00Z", "40 kbit/s")]
        mission = day(stores=[PacketStore("A", "3 MB")], passes=passes, observations=seen)
        with self.assertRaisesRegex(MissionError, "at most 256: plan in parts"):
            mission.plan()
        variants = {"more": scaled(2), "lost": lost("S 1")}
        found = study(mission, variants, horizon=360, look=30, ages=True, progress=False)
        self.assertEqual(found.base.loss, mission.plan(horizon=360, look=30).loss)
        self.assertEqual(
            [answer.loss for answer in found],
            [mission.changed(each).plan(horizon=360, look=30).loss for each in variants.values()],
        )
        self.assertEqual(found[1].loss, 200_000 - 3_000)
        self.assertIn("at most 256", study_refused(mission))


def study_refused(mission):
    try:
        study(mission, {"more": scaled(2)}, progress=False)
    except MissionError as error:
        return str(error)


class Options(unittest.TestCase):
    def run_words(self, *words, status=0):
        ran = subprocess.run(
            [sys.executable, "-B", "-m", "rudlayog", *map(str, words)],
            capture_output=True,
            text=True,
            check=False,
            env={**os.environ, "PYTHONPATH": str(PACKAGE)},
        )
        self.assertEqual(ran.returncode, status, ran.stderr)
        return ran.stdout, ran.stderr

    def test_each_option_is_used_or_refused(self):
        for words in (
            ("study", "--step", 5),
            ("sensitivity", "--horizon", 60),
            ("passes", "--rates", 2),
            ("margin", "--in-order"),
            ("plan", "--lost"),
            ("passes", "--look", 60),
        ):
            self.assertIn("usage:", self.run_words(WEEK, *words, status=2)[1])
        for name in ("--sizes", "--arrivals", "--rates"):
            out, said = self.run_words(WEEK, "study", name, "abc", status=1)
            self.assertEqual(out, "")
            self.assertIn("a factor above 0" if name == "--sizes" else "a factor of 0 or more", said)
        in_order = list(
            csv.DictReader(io.StringIO(self.run_words(WEEK, "study", "--in-order", "--quiet", "--ages", "--mb")[0]))
        )
        wanted = study(Mission.read(WEEK), each_pass_lost(Mission.read(WEEK)), in_order=True, ages=True, progress=False)
        self.assertEqual([row["HK MB"] for row in in_order], [str(cell) for cell in wanted.to_dict("MB")["HK MB"]])
        self.assertIn("HK median age", in_order[0])

    def test_margin_and_timeline(self):
        mission = Mission.read(WEEK)
        self.assertEqual(self.run_words(WEEK, "margin")[0], mission.margin().text())
        self.assertEqual(self.run_words(WEEK, "margin", "--stores", "CAM,HK")[0], mission.margin("CAM", "HK").text())
        self.assertEqual(self.run_words(WEEK, "timeline")[0], mission.plan().timeline().text())
        with tempfile.TemporaryDirectory() as room:
            self.run_words(WEEK, "margin", "--output", Path(room, "m.svg"))
            self.assertTrue(Path(room, "m.svg").read_text().startswith("<svg"))


if __name__ == "__main__":
    unittest.main()
