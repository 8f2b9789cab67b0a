"""Plans that serve the stores in order, and their certificates. The examples are worked out by hand.

Three stores of 4, 3 and 2 blocks, which are empty, and three steps:

    step  window   A  B  C
       1       2   3  2  1
       2       3   3  2  2
       3       0   1  1  0

Before step 2 only the window of step 1 sends, 2 blocks. By then 6 blocks come to A, 2 more than it holds; 4 to B, 1 more; and 3 to C, 1 more.
So A alone, or A that is served first, loses nothing where it has the whole window of step 1. B then loses 1: the stretches of A and B from step
1 to 2 have 2 + 1 - 2 = 1. So does C: with its stretch they have 2 + 1 + 1 - 2 = 2. In step 2 one block of A and one of B must leave, for those
that come in step 3, and the window has 3.

In the other order C and B have one block each of that window, and lose nothing; A loses 2.
"""

import contextlib
import io
import tempfile
import unittest
from pathlib import Path

from made_missions import made_mission
from rudlayog import Certificate, Cut, Forecast, Plan, Refusal, Setup, Store, Stretch, chart, check, plan, table
from rudlayog.__main__ import main
from rudlayog.study import Variant, each_pass_lost, scaled, study

STORES = [Store("A", 4), Store("B", 3), Store("C", 2)]
SETUP = Setup.of(STORES)
WINDOWS, ARRIVALS = [2, 3, 0], {"A": [3, 3, 1], "B": [2, 2, 1], "C": [1, 2, 0]}
FORECAST = Forecast.of(WINDOWS, ARRIVALS)
BACKWARDS = Setup.of(STORES[::-1]), Forecast.of(WINDOWS, dict(reversed(ARRIVALS.items())))
DUMPS = {"A": [2, 1, 0], "B": [0, 1, 0], "C": [0, 1, 0]}
ALL = Cut((Stretch("A", 1, 2), Stretch("B", 1, 2), Stretch("C", 1, 2)), (), 2)
FIRSTS = (Certificate(1, 0, Cut((), (), 0)), Certificate(2, 1, Cut((Stretch("A", 1, 2), Stretch("B", 1, 2)), (), 1)))
TEXT = """\
mmplan 3
stores A B C
dump 1 2 0 0
dump 2 1 1 1
dump 3 0 0 0
loss 2
stretch A 1 2
stretch B 1 2
stretch C 1 2
bound 2
first 1
loss 0
bound 0
first 2
loss 1
stretch A 1 2
stretch B 1 2
bound 1
end
"""
MISSION = """\
packet = 1000
begin = 2031-03-03T00:00:00Z
end = 2031-03-04T00:00:00Z
store = [{id = "CAM", size = "30 blocks"}, {id = "HK", size = "20 blocks"}]
station = [{name = "Kiruna", rate = "1 kbit/s"}]
pass = [{station = "Kiruna", begin = 2031-03-03T06:00:00Z, end = 2031-03-03T06:02:00Z}]
observation = [
    {store = "CAM", begin = 2031-03-03T01:00:00Z, end = 2031-03-03T05:00:00Z, volume = "40 kB"},
    {store = "HK", begin = 2031-03-03T01:00:00Z, end = 2031-03-03T05:00:00Z, volume = "25 kB"},
]
"""


def lost_by(setup, forecast, made):
    """What each store loses, by the table of the library."""
    columns = table(setup, forecast, made).to_dict()
    return {store.id: sum(gone for gone, name in zip(columns["lost"], columns["store"]) if name == store.id) for store in setup.stores}


class Texts(unittest.TestCase):
    def test_certificates_are_read(self):
        made = Plan(TEXT)
        self.assertEqual((made.loss, made.cut, made.firsts), (2, ALL, FIRSTS))
        self.assertEqual(made.by_store, {store: tuple(column) for store, column in DUMPS.items()})
        self.assertEqual(repr(made), "<Plan of 3 steps for A, B, C: loses 2>")

    def test_they_are_written(self):
        self.assertEqual(Plan.of(DUMPS, 2, ALL, FIRSTS).text, TEXT)
        self.assertEqual(Plan.of({"A": [1]}, 0, Cut((), (1,), 0), ()).text, "mmplan 3\nstores A\ndump 1 1\nloss 0\ncount 1 channels\nbound 0\nend\n")

    def test_counts_of_first_stores(self):
        counted = Certificate(1, 5, Cut((Stretch("A", 1, 3),), (1, 2), -5))
        made = Plan.of({"A": [0, 0, 0], "B": [0, 0, 0]}, 7, Cut((Stretch("B", 2, 3),), (2,), 6), (counted,))
        self.assertEqual((made.firsts, made.cut.by_channels, made.cut.bound, made.loss), ((counted,), (2,), 6, 7))

    def test_other_texts_have_none(self):
        self.assertIsNone(Plan.of(DUMPS, 2, ALL).firsts)
        self.assertEqual(Plan.of({"A": [1]}, 0, None, ()).firsts, ())

    def test_what_is_no_whole_number(self):
        with self.assertRaisesRegex(ValueError, "stores: 1.5 is no whole number"):
            Plan.of(DUMPS, 2, ALL, [Certificate(1.5, 0, Cut((), (), 0))])


class Verdicts(unittest.TestCase):
    def test_least_in_order(self):
        verdict = check(SETUP, FORECAST, TEXT)
        self.assertEqual((verdict.kind, verdict.line, verdict.loss, verdict.stores, bool(verdict)), ("least in order", "least 2 in order", 2, None, True))

    def test_first_not_shown(self):
        nothing = Certificate(2, 0, Cut((), (), 0))
        # the window of step 2 is counted: 7 - 4 - 2 - 3
        too_long = Certificate(1, 0, Cut((Stretch("A", 1, 3),), (), -2))
        # what comes to C in step 2 is its size: the bound stays
        with_c = Cut((*FIRSTS[1].cut.stretches, Stretch("C", 2, 2)), (), 1)
        # B and C send in step 1, and A loses 2
        other = {"A": [0, 1, 0], "B": [1, 1, 0], "C": [1, 1, 0]}
        cases = {
            "a loss that is too small": (Plan.of(DUMPS, 2, ALL, (FIRSTS[0], nothing)), 2),
            "a cut that shows too little": (Plan.of(DUMPS, 2, ALL, (too_long, FIRSTS[1])), 1),
            "another store first": (Plan.of(other, 2, ALL, FIRSTS), 1),
            "a cut with another store": (Plan.of(DUMPS, 2, ALL, (FIRSTS[0], Certificate(2, 1, with_c))), 2),
        }
        for name, (made, stores) in cases.items():
            verdict = check(SETUP, FORECAST, made)
            self.assertEqual((verdict.kind, verdict.line, verdict.stores, bool(verdict)), ("first not shown", f"first {stores} not shown", stores, False), name)
            self.assertEqual((verdict.loss, verdict.bound, verdict.place, verdict.step), (None, None, None, None), name)

    def test_what_comes_before_the_first_stores(self):
        self.assertEqual(check(SETUP, FORECAST, Plan.of(DUMPS, 1, ALL, FIRSTS)).line, "loss is 2")
        self.assertEqual(check(SETUP, FORECAST, Plan.of(DUMPS, 2, ALL)).line, "least 2")

    def test_too_few_and_out_of_order(self):
        for firsts, line in ((FIRSTS[:1], 14), (FIRSTS[1:], 11), (FIRSTS[::-1], 11), ((FIRSTS[0], FIRSTS[0]), 14), ((*FIRSTS, Certificate(3, 2, ALL)), 19)):
            with self.assertRaises(Refusal) as raised:
                check(SETUP, FORECAST, Plan.of(DUMPS, 2, ALL, firsts))
            self.assertEqual(raised.exception.text(), f"34 PlanText line {line}")


class Plans(unittest.TestCase):
    def test_stores_are_served_in_order(self):
        made = plan(SETUP, FORECAST, in_order=True)
        self.assertEqual(made.loss, 2)
        self.assertEqual([first.loss for first in made.firsts], [0, 1])
        self.assertTrue(all(first.loss == first.cut.bound for first in made.firsts))
        # no other cut shows these
        self.assertEqual((made.cut, made.firsts[1].cut), (ALL, FIRSTS[1].cut))
        self.assertEqual(made.dumps[0], (2, 0, 0))
        self.assertEqual(lost_by(SETUP, FORECAST, made), {"A": 0, "B": 1, "C": 1})
        self.assertEqual(check(SETUP, FORECAST, made).line, "least 2 in order")

    def test_the_other_order(self):
        made = plan(*BACKWARDS, in_order=True)
        self.assertEqual((made.loss, [first.loss for first in made.firsts]), (2, [0, 0]))
        self.assertEqual(made.dumps[0], (1, 1, 0))
        self.assertEqual(lost_by(*BACKWARDS, made), {"C": 0, "B": 0, "A": 2})

    def test_one_store_has_no_first(self):
        made = plan(Setup.of(STORES[:1]), Forecast.of(WINDOWS, {"A": ARRIVALS["A"]}), in_order=True)
        self.assertEqual((made.loss, made.firsts), (0, ()))
        self.assertTrue(made.text.startswith("mmplan 3\n"))

    def test_without_it_the_plan_is_as_it_was(self):
        self.assertEqual(plan(SETUP, FORECAST, in_order=False), plan(SETUP, FORECAST))
        self.assertIsNone(plan(SETUP, FORECAST).firsts)

    def test_charts(self):
        made = plan(SETUP, FORECAST, in_order=True)
        plain, shaded = chart(SETUP, FORECAST, made).svg, chart(SETUP, FORECAST, made, worth=True).svg
        self.assertTrue(plain.startswith("<svg") and shaded.startswith("<svg"))
        # the window of step 1 is worth 2, one block for each that is lost
        self.assertNotEqual(plain, shaded)
        self.assertEqual(made._repr_svg_(), plain)


class Missions(unittest.TestCase):
    def test_the_plan_of_a_mission(self):
        for number in range(5):
            mission = made_mission(number)
            made = mission.plan(in_order=True)
            self.assertEqual(made.plan.loss, mission.plan().plan.loss)
            self.assertEqual([verdict.kind for verdict in made.check()], ["least in order"])
            self.assertEqual([verdict.kind for verdict in mission.plan(horizon=400, in_order=True).check() if verdict.kind != "least in order"], [])

    def test_a_study(self):
        for number in range(5):
            mission = made_mission(number, apart=True)
            variants = [*each_pass_lost(mission), Variant("more", (scaled(2),))]
            in_order, free = study(mission, variants, in_order=True), study(mission, variants)
            # in the units of the problem: where packets differ in length, packets say less
            self.assertEqual([answer.cut.bound for answer in in_order], [answer.cut.bound for answer in free])
            self.assertTrue(all(answer.is_least and sum(answer.by_store) == answer.loss for answer in in_order))
            problem = mission.problem()
            made = mission.plan(in_order=True)
            units = lost_by(problem.setup, problem.forecast, made.plan)
            self.assertEqual(dict(zip(in_order.stores, in_order.base.by_store)), made.losses)
            # of packets that are lost, each is there: no more than the units that are lost, and a part of one
            for store, count in units.items():
                self.assertLess(made.losses[store], (count + 1) * problem.unit.packets[store])

    def test_the_command(self):
        with tempfile.TemporaryDirectory() as room:
            file = Path(room, "mission.toml")
            file.write_text(MISSION)
            said = io.StringIO()
            with contextlib.redirect_stdout(said):
                self.assertEqual(main([str(file), "plan", "--in-order"]), 0)
            # 40 blocks come to CAM, which holds 30, and 25 to HK, which holds 20, before the pass
            made = Plan(said.getvalue())
            self.assertEqual((made.stores, made.loss), (("CAM", "HK"), 15))
            self.assertEqual([first.loss for first in made.firsts], [10])


if __name__ == "__main__":
    unittest.main()
