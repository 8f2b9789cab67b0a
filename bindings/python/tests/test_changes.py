"""Changes of a mission: the wrong answers that studies gave, each with its number; and what is refused."""

import concurrent.futures
import multiprocessing
import unittest
from dataclasses import replace

from rudlayog import Forecast, Setup, Store, plan
from rudlayog.mission import Mission, MissionError, Observation, PacketStore, Pass, Station
from rudlayog.study import Changed, Replaced, grid, lost, rated, scaled, shortened, sized, study


def at(hour, minute=0):
    return f"2031-03-03T{hour:02}:{minute:02}:00Z"


def day(**more):
    """A store of 50 MB that is full, two passes of an hour, each for 36 MB, and 50 MB that arrive after them."""
    given = {
        "stores": [PacketStore("A", "50 MB", holds="50 MB")],
        "passes": [Pass("S", at(6), at(7), "80 kbit/s"), Pass("S", at(12), at(13), "80 kbit/s")],
        "observations": [Observation("A", at(14), at(15), volume="50 MB")],
        "begin": at(0),
        "end": "2031-03-04T00:00:00Z",
        "packet": 1000,
        "block": 1000,
    }
    return Mission(**{**given, **more})


def loss_of(mission, *changes, **more):
    """What a study answers for some changes; the changed mission planned anew loses it too."""
    (answer,) = study(mission, {"variant": changes}, progress=False, **more)
    assert not answer.refused, answer.refused
    assert answer.loss == mission.changed(changes).plan().loss
    return answer.loss


def refused(mission, *changes):
    (answer,) = study(mission, {"variant": changes}, progress=False)
    assert answer.loss is None
    return answer.refused


class Composed(unittest.TestCase):
    def test_of_one_mission(self):
        for changes, loss in (
            # 50 MB less 18 MB, half a pass; less 18 and 9; twice and four times 50 MB into 50 MB
            ([lost("S 1"), rated(factor=0.5)], 32_000),
            ([rated(factor=0.5), lost("S 1")], 32_000),
            ([rated(factor=0.5), shortened("S 1", late=30)], 23_000),
            ([shortened("S 1", late=30), rated(factor=0.5)], 23_000),
            ([scaled(2), scaled(2)], 150_000),
            ([scaled(4)], 150_000),
            ([lost("S 1"), lost("S 2")], 50_000),
            ([lost("S 1"), lost("S 1")], 14_000),
            ([lost("S 1"), shortened("S 1", late=10)], 14_000),
            ([rated(factor=0.5), rated(factor=2)], 0),
            ([sized("A", factor=2), sized("A", factor="1/2")], 0),
            ([rated(factor=0)], 50_000),
        ):
            with self.subTest(changes=changes):
                self.assertEqual(loss_of(day(), *changes), loss)

    def test_the_first_fault_is_told(self):
        for changes in (
            [lost("S 9"), scaled("many")],
            [scaled("many"), lost("S 9")],
            [sized("B", factor=2), scaled(-1)],
        ):
            with self.assertRaises(MissionError) as raised:
                day().changed(changes)
            self.assertEqual(refused(day(), *changes), str(raised.exception))

    def test_passes_that_overlap(self):
        passes = [Pass("S", at(6), at(7), "80 kbit/s"), Pass("T", at(6, 30), at(7, 30), "80 kbit/s")]
        mission = day(passes=passes, overlap="both")
        self.assertEqual(loss_of(mission, lost("S 1"), lost("T 1")), 50_000)
        self.assertEqual(loss_of(mission, lost("T 1"), shortened("S 1", early=30)), 32_000)
        found = study(mission, grid(one=(lost, ["S 1", "T 1"]), other=(lost, ["S 1", "T 1"])), progress=False)
        self.assertEqual([answer.loss for answer in found], [14_000, 50_000, 50_000, 14_000])

    def test_functions(self):
        later = Changed(lambda mission: mission.without("S 1"))
        self.assertEqual(loss_of(day(), rated(factor=0.5), later), 32_000)
        self.assertEqual(loss_of(day(), later, rated(factor=0.5)), 32_000)
        none = Replaced(lambda setup, forecast: (setup, forecast.having(windows=[0] * len(forecast.windows))))
        (answer,) = study(day(), {"none": [rated(factor=1), none]}, progress=False)
        self.assertEqual(answer.loss, 50_000)
        self.assertIn("such functions after all other changes", refused(day(), none, rated(factor=1)))
        with self.assertRaisesRegex(MissionError, "a function of a setup and a forecast"):
            day().changed(none)
        with self.assertRaisesRegex(MissionError, "expected changes"):
            day().changed("lost")

    def test_of_a_setup_and_a_forecast(self):
        problem = tuple(day().problem())
        losses = [
            answer.loss
            for answer in study(
                problem,
                {"a": [scaled(2), scaled(2)], "b": scaled(4), "c": [sized("A", factor=0.5), sized("A", "50 blocks")]},
                progress=False,
            )
        ]
        self.assertEqual(losses[:2], [150_000, 150_000])
        (answer,) = study(problem, {"a": lost("S 1")}, progress=False)
        self.assertIn("a study of a mission", answer.refused)

    def test_rates_and_sizes(self):
        mission = day(
            stations=[Station("S", "80 kbit/s", {0: "40 kbit/s"})],
            passes=[Pass("S", at(6), at(7)), Pass("S", at(12), at(13))],
        )
        # the channel's 18 MB a pass; with twice the rate its limit is twice as high; half of the first pass gone
        self.assertEqual(loss_of(mission), 14_000)
        self.assertEqual(loss_of(mission, rated("160 kbit/s")), 0)
        self.assertEqual(loss_of(mission, rated("160 kbit/s"), shortened("S 1", late=50)), 50_000 - 6_000 - 36_000)
        self.assertIn("one of rate and factor", refused(mission, rated("160 kbit/s", factor=2)))
        self.assertIn("one of rate and factor", refused(mission, rated()))
        self.assertIn("one of size and factor", refused(mission, sized("A", "3 MB", factor=2)))
        # 1,500 octets are 1 block of 1,000, and twice as many are 3, not 2
        small = day(stores=[PacketStore("A", 1500)])
        self.assertEqual(small.changed(sized("A", factor=2)).problem().setup.stores[0].size, 3)
        # a store that holds more than it has room for
        self.assertIn("at most its size", refused(day(), sized("A", factor=0.5)))

    def test_a_plan_that_stays(self):
        made = day().plan()
        for changes, loss in (
            ([], 0),
            ([lost("S 1")], 14_000 + 36_000 - made_by(made, "S 1", 36_000)),
            ([shortened("S 1", late=30)], None),
            ([shortened("S 1", early=60)], None),
        ):
            (answer,) = study(day(), {"variant": changes}, plan=made, progress=False)
            self.assertEqual(answer.refused, "")
            self.assertGreaterEqual(answer.loss, day().changed(changes).plan().loss)


def made_by(made, name, most):
    return min(sum(row.blocks for row in made.passes() if row.name == name), most)


class Steps(unittest.TestCase):
    def test_no_step_promises_what_cannot_be_sent(self):
        # 50 MB arrive after the pass, in the same hour, and 50 MB more in the afternoon
        seen = [Observation("A", at(6, 30), at(7), volume="50 MB"), Observation("A", at(14), at(15), volume="50 MB")]
        passes = [Pass("S", at(6), at(6, 30), "800 kbit/s")]
        mission = day(stores=[PacketStore("A", "50 MB")], passes=passes, observations=seen)
        for step in (None, 60, 180, 1440):
            self.assertEqual(mission.plan(step=step).loss, 50_000, step)

    def test_one_step_loses_more_than_three(self):
        setup = Setup.of([Store("A", 10)])
        self.assertEqual(plan(setup, Forecast.of([10, 10, 10], {"A": [10, 10, 10]})).loss, 0)
        self.assertEqual(plan(setup, Forecast.of([30], {"A": [30]})).loss, 20)

    def test_one_step_is_enough_in_a_pass(self):
        # 200 kbit/s come while 180 kbit/s leave: 9 MB more, for which there are 2 MB
        mission = day(
            stores=[PacketStore("A", "2 MB")],
            passes=[Pass("S", at(6), at(7), "180 kbit/s")],
            observations=[Observation("A", at(6), at(7), "200 kbit/s")],
        )
        for step in (None, 7, 1440):
            self.assertEqual(mission.plan(step=step).loss, 7_000, step)


class DuringDumps(unittest.TestCase):
    def test_by_hand(self):
        # 45 MB come in the hour of the pass, which sends 36 MB, into a store of 2 MB: in one step 45 - 36 - 2 MB are lost
        mission = day(
            stores=[PacketStore("A", "2 MB")],
            passes=[Pass("S", at(6), at(7), "80 kbit/s")],
            observations=[Observation("A", at(6), at(7), "100 kbit/s")],
        )
        problem = mission.problem()
        self.assertEqual((len(problem), problem.setup.arrivals, problem.least().loss), (3, "during", 7_000))
        # a variant of a mission that loses nothing is planned in steps of its own
        base = replace(mission, observations=(Observation("A", at(6), at(7), "4 kbit/s"),))
        self.assertEqual(base.plan().loss, 0)
        (answer,) = study(base, {"25 times as much": scaled(25)}, progress=False)
        self.assertEqual((answer.loss, answer.is_least), (7_000, True))
        (answer,) = study(day(), {"without S 1": lost("S 1")}, progress=False)
        self.assertEqual((answer.loss, answer.bound), (14_000, 14_000))
        self.assertIn("no timeline loses fewer", day().changed(lost("S 1")).plan().passes().markdown())

    def test_a_pass_that_ends_earlier_ends_its_step(self):
        # 4 MB come evenly into a store of 2 MB over two hours, in the first of which 80 kbit/s could send 36 MB. With a
        # pass of half an hour all that comes from 6:30 on is kept or lost: 3 - 2 MB.
        mission = day(
            stores=[PacketStore("A", "2 MB")],
            passes=[Pass("S", at(6), at(7), "80 kbit/s")],
            observations=[Observation("A", at(6), at(8), volume="4 MB")],
        )
        self.assertEqual(mission.plan().loss, 0)
        (answer,) = study(mission, {"half": shortened("S 1", early=30)}, progress=False)
        self.assertEqual(answer.loss, 1_000)

    def test_a_margin(self):
        # what comes in the pass is sent as it comes: 36 MB are sent, and 40 MB stay. 111.1 % more are 75.996 MB
        mission = day(
            stores=[PacketStore("A", "40 MB")],
            passes=[Pass("S", at(6), at(7), "80 kbit/s")],
            observations=[Observation("A", at(6), at(7), "80 kbit/s")],
        )
        growth = mission.margin().growth
        self.assertEqual((growth.percent, growth.words()), (111.1, "111.1 %"))
        self.assertEqual(day().margin().growth.words(), "0.0 %")


class Units(unittest.TestCase):
    def test_windows_above_a_million(self):
        # 4 Mbit/s for an hour are 1.8 million packets: all that two stores hold
        stores = [PacketStore(name, "900 MB", holds="900 MB") for name in ("A", "B")]
        seen = [Observation(name, at(14), at(15), volume="900 MB") for name in ("A", "B")]
        made = day(stores=stores, passes=[Pass("S", at(6), at(7), "4 Mbit/s")], observations=seen).plan()
        self.assertEqual((made.loss, made.problem.unit.count), (0, 2))
        self.assertTrue(all(made.check()))
        large = day(
            stores=[PacketStore("A", "64 GB", holds="64 GB")],
            passes=[Pass("S", at(6), at(6, 10), "500 Mbit/s")],
            observations=[Observation("A", at(14), at(15), volume="64 GB")],
        )
        made = large.plan()
        # 37.5 GB leave, but for less than a unit of 64 packets
        self.assertEqual(made.problem.unit.count, 64)
        self.assertTrue(26_500_000 <= made.loss < 26_500_064)
        self.assertAlmostEqual(made.loss_mb, 26_500, delta=0.064)
        self.assertAlmostEqual(sum(row.mb for row in made.passes()), 37_500, delta=0.064)
        self.assertAlmostEqual(sum(row.minutes for row in made.passes()), 10, delta=0.001)
        self.assertEqual(loss_of(large, lost("S 1")), 64_000_000)
        self.assertAlmostEqual(loss_of(large, scaled(2), scaled(2)), 64_000_000 * 4 - 37_500_000, delta=256)

    def test_packets_of_different_lengths(self):
        stores = [
            PacketStore("A", "10000 blocks", holds="10000 blocks", packet=290),
            PacketStore("B", "9000 blocks", packet=1000),
        ]
        # 2.9 MB in an hour
        rate = f"{2_900_000 * 8}/3600 bit/s"
        mission = day(
            stores=stores,
            passes=[Pass("S", at(6), at(7), rate)],
            observations=[Observation("A", at(14), at(15), volume="10000 blocks")],
            block=1024,
        )
        self.assertEqual(mission.plan().loss, 0)

    def test_rounding_is_told(self):
        mission = day(
            stores=[PacketStore("A", "2500500 octets", holds="1 octets")],
            passes=[Pass("S", at(6), at(7), "8 bit/s")],
            observations=(),
        )
        rows = {row["of"]: row for row in mission.problem().rounding()}
        self.assertEqual((rows["A, size"]["blocks"], rows["A, size"]["octets"]), (2500, 500))
        self.assertEqual((rows["A, holds"]["blocks"], rows["A, holds"]["octets"]), (1, 999))
        # 3,600 octets in an hour are 3 packets
        self.assertEqual((rows["S 1"]["blocks"], rows["S 1"]["octets"]), (3, 600))
        self.assertEqual(mission.problem().rounding_cost(), {"sizes": 500, "arrivals": 999, "windows": 600})
        self.assertIn("Rounding to whole packets may cost at most", mission.plan().passes().html())


class Overlaps(unittest.TestCase):
    PASSES = [Pass("S", at(6), at(7), "80 kbit/s"), Pass("T", at(6), at(7), "80 kbit/s")]

    def faults(self, **more):
        with self.assertRaises(MissionError) as raised:
            day(**more)
        return [str(each) for each in raised.exception.faults]

    def test_they_are_stated(self):
        (found,) = self.faults(passes=self.PASSES)
        self.assertIn('overlap = "both"', found)
        self.assertEqual(day(passes=self.PASSES, overlap="both").plan().loss, 0)
        self.assertEqual(day(passes=self.PASSES, overlap="better").plan().loss, 14_000)

    def test_a_row_twice(self):
        one = self.PASSES[0]
        self.assertIn("the same row", self.faults(passes=[one, replace(one)])[0])
        seen = Observation("A", at(14), at(15), volume="50 MB")
        self.assertIn("the same row", self.faults(observations=[seen, replace(seen)])[0])

    def test_two_passes_of_a_station(self):
        for overlap in (None, "both", "better"):
            found = self.faults(passes=[self.PASSES[0], Pass("S", at(6, 30), at(8), "80 kbit/s")], overlap=overlap)
            self.assertIn("one pass over S at a time", found[0])

    def test_the_better_one_sends_more_of_what_there_is(self):
        # the link of T is faster, but it has 10 kbit/s for the channel of the store
        passes = [self.PASSES[0], Pass("T", at(6), at(7), "160 kbit/s", {0: "10 kbit/s"})]
        self.assertEqual(day(passes=passes, overlap="better").plan().loss, 14_000)


class Workers(unittest.TestCase):
    def test_a_function_that_cannot_be_sent(self):
        variants = {f"x {number}": scaled(number / 400) for number in range(401)}
        variants["x 200"] = lambda mission: mission.without("S 1")
        with concurrent.futures.ProcessPoolExecutor(2, multiprocessing.get_context("spawn")) as pool:
            found = study(day(), variants, executor=pool, progress=False)
        self.assertEqual([answer.name for answer in found if answer.refused], ["x 200"])
        self.assertTrue(found.is_whole)

    def test_chunks(self):
        for chunk in (0, -1):
            with self.assertRaisesRegex(ValueError, "at least 1 variant"):
                study(day(), {"a": scaled(1)}, chunk=chunk)


if __name__ == "__main__":
    unittest.main()
