"""Studies: what variants lose, whoever works them out, and where a worker dies."""

import concurrent.futures
import multiprocessing
import os
import pickle
import random
import signal
import subprocess
import sys
import tempfile
import threading
import unittest
from dataclasses import replace
from fractions import Fraction
from pathlib import Path

import compare
from made_missions import made_mission
from rudlayog import Forecast, Plan, Refusal, Setup, Store, _library, check, plan, table
from rudlayog import _answering as answering
from rudlayog import study as studies
from rudlayog._base import Base
from rudlayog._found import Found, FoundTable
from rudlayog._parts import remade
from rudlayog.mission import Mission
from rudlayog.study import (
    Changed,
    Replaced,
    Variant,
    answers,
    each_pass_lost,
    each_store_sized,
    grid,
    lost,
    rated,
    scaled,
    shortened,
    sized,
    study,
)

try:
    import distributed
except ImportError:
    distributed = None

EXAMPLES = Path(__file__).resolve().parents[3] / "examples"
# A mission whose passes overlap nowhere and whose channels have no rates, and one with both.
PLAIN = made_mission(3, apart=True, channels=False)
MIXED = next(
    mission
    for mission in map(made_mission, range(9, 99))
    if len(mission.passes) > 3 and any(mission.rates(one)[1] for one in mission.passes)
)


def without_store_names(study):
    return [(answer.name, answer.loss, answer.by_store, answer.bound, answer.refused) for answer in study]


def die_once(mission, folder):
    """Ends this process the first time that it is called with this folder."""
    flag = Path(folder, "died")
    try:
        flag.touch(exist_ok=False)
    except FileExistsError:
        return mission
    os._exit(9)


def die_always(mission):
    """Ends this process, if it is not that of the test."""
    if multiprocessing.parent_process() is not None:
        os._exit(9)
    return mission


class DiesOnce:
    """A change that ends the process in which it is made for the first time."""

    def __init__(self, folder):
        self.folder = folder

    def __call__(self, mission):
        return die_once(mission, self.folder)


def variants_of(mission):
    stores = [store.id for store in mission.stores]
    return [
        *each_pass_lost(mission),
        *each_store_sized(mission, 1.25),
        *(Variant(f"{store} x {factor}", (scaled(factor, store),)) for store in stores for factor in (0, 0.5, 1.1, 3)),
        Variant("all half", (scaled("1/2"),)),
        Variant("late", (shortened(mission.passes[0].name, late=3, early=1.5),)),
        Variant("rates", (rated(factor=0.8),)),
        Variant("one rate", (rated("2 kbit/s", of=[mission.passes[0].station]),)),
        Variant("two changes", (lost(mission.passes[0].name), sized(stores[0], "70 blocks"))),
    ]


def lost_by(setup, forecast, text):
    """What each store loses by a plan text, by the table of the library."""
    columns = table(setup, forecast, text).to_dict()
    return [
        sum(gone for gone, name in zip(columns["lost"], columns["store"]) if name == store.id) for store in setup.stores
    ]


class Losses(unittest.TestCase):
    """The losses by store that come with a plan."""

    def agree(self, setup, forecast):
        texts, losses = (bytes(setup), bytes(forecast)), _library.LossesTold()
        text = _library.told(_library.rudlayog_plan_losses, texts=texts, more=(losses,))
        self.assertEqual(text, _library.told(_library.rudlayog_plan, texts=texts))
        by_store = lost_by(setup, forecast, Plan(text))
        self.assertEqual(list(losses.by_store), by_store + [0] * (_library.STORES - len(by_store)))
        self.assertEqual(sum(losses.by_store), Plan(text).loss)
        return by_store

    def test_they_are_those_of_the_plan_that_is_printed(self):
        for setup in sorted(EXAMPLES.glob("*/setup.toml")):
            if setup.with_name("forecast.csv").exists():
                self.agree(Setup.read(setup), Forecast.read(setup.with_name("forecast.csv")))
        self.agree(*Mission.read(EXAMPLES / "mars_week" / "mission.toml").problem())
        dice = random.Random(7)
        losing = 0
        for _ in range(200):
            stores = compare.setup(dice)
            losing += sum(map(bool, self.agree(stores, compare.forecast(dice, stores)))) > 1
        self.assertGreater(losing, 20)

    def test_as_many_stores_and_steps_as_there_may_be(self):
        dice = random.Random(3)
        stores = Setup.of(
            [Store(f"S{place}", dice.randint(1, 60), channel=place % 8) for place in range(_library.STORES)]
        )
        windows = [dice.choice([0, 0, 90]) for _ in range(256)]
        by_store = self.agree(
            stores, Forecast.of(windows, {store.id: [dice.randint(0, 9) for _ in windows] for store in stores.stores})
        )
        self.assertEqual((len(by_store), min(by_store) > 0, len(set(by_store)) > 8), (16, True, True))

    def test_a_study_tells_them(self):
        # HK has 5 blocks in step 1, and holds 3, whatever leaves it. SCI holds 10 of 4 and 9, but for those that leave
        # it in step 1.
        stores = Setup.of([Store("HK", 3), Store("SCI", 10)])
        forecast = Forecast.of([2, 0], {"HK": [5, 0], "SCI": [4, 9]})
        wider = Replaced(lambda setup, forecast: (setup, forecast.having(windows=[3, 0])))
        found = study(
            (stores, forecast), {"wider": wider, "none": scaled(0), "larger": sized("HK", "4 blocks")}, progress=False
        )
        self.assertEqual((found.base.loss, found.base.by_store), (3, (2, 1)))
        self.assertEqual([(answer.loss, answer.by_store) for answer in found], [(2, (2, 0)), (0, (0, 0)), (2, (1, 1))])
        self.assertEqual(study((stores, forecast), {}, by_store=False, progress=False).base.by_store, ())

    def test_a_refused_call_tells_none(self):
        losses = _library.LossesTold((7,) * _library.STORES)
        with self.assertRaises(Refusal):
            _library.told(
                _library.rudlayog_plan_losses, texts=(bytes(PLAIN.problem().setup), b"step,window\n"), more=(losses,)
            )
        self.assertEqual(list(losses.by_store), [0] * _library.STORES)


class Answers(unittest.TestCase):
    def test_each_is_the_plan_of_its_mission(self):
        for mission in (PLAIN, MIXED):
            found = study(mission, variants_of(mission))
            self.assertEqual(found.base.loss, mission.plan().loss)
            for answer, one in zip(found, mission.passes):
                self.assertEqual(answer.name, f"without {one.name}")
                problem = remade(mission.without(one.name), unit=mission.problem().unit.count).problem()
                again = plan(problem.setup, problem.forecast)
                losses = lost_by(problem.setup, problem.forecast, again)
                packets = problem.unit.packets.values()
                # of units with several packets those are lost that are there
                most = sum(units * each for units, each in zip(losses, packets))
                self.assertTrue(answer.loss == most if set(packets) == {1} else answer.loss <= most)
                self.assertTrue(answer.is_least)
            for answer in found:
                self.assertEqual(answer.refused, "", answer.name)
                self.assertEqual(sum(answer.by_store), answer.loss, answer.name)
            named = {answer.name: answer for answer in found}
            halves = tuple(
                replace(
                    one,
                    rate=one.rate and one.rate.times(Fraction(1, 2)),
                    volume=one.volume and replace(one.volume, amount=one.volume.amount / 2),
                )
                for one in mission.observations
            )
            half = remade(mission, observations=halves, unit=mission.problem().unit.count)
            self.assertEqual(named["all half"].loss, half.plan().loss)

    def test_quick_texts_are_those_of_the_changed_mission(self):
        told = 0
        for mission in (PLAIN, MIXED, *map(made_mission, range(20))):
            quick = Base.of_mission(mission).quick
            for variant in variants_of(mission):
                texts = quick.texts(variant.changes)
                if texts:
                    told += 1
                    problem = mission.changed(variant.changes).problem()
                    self.assertEqual(texts[:2], (bytes(problem.setup), bytes(problem.forecast)), variant.name)
        self.assertGreater(told, 200)

    def test_rows_that_come_in_any_order(self):
        found = FoundTable(2)
        found.put(2, Variant("c", parameters={"y": 1}), Found(None, refused="no"))
        found.put(0, Variant("a", parameters={"x": None, "y": 2.5}), Found(7, (3, 4), 7, "cut"))
        self.assertEqual((len(found), list(found.rows())), (3, [0, 2]))
        study_of = studies.Study(found, studies.Answer("as it is", 5, (5, 0), 5, "", "", {}), ("A", "B"), False)
        self.assertEqual(len(study_of), 2)
        self.assertEqual(study_of[0], studies.Answer("a", 7, (3, 4), 7, "cut", "", {"x": None, "y": 2.5}))
        self.assertEqual(study_of[-1], studies.Answer("c", None, (), None, "", "no", {"y": 1}))
        self.assertEqual(study_of[:1], (study_of[0],))
        self.assertEqual(study_of.worst(), [study_of[0]])
        self.assertEqual(
            study_of.text(),
            "variant,x,y,loss,change,A,B,bound,least,refused\na,,2.5,7,2,3,4,7,True,\nc,,1,,,,,,False,no\n",
        )
        again = pickle.loads(pickle.dumps(study_of))
        self.assertEqual((again, repr(again)), (study_of, "<Study of 2 variants; as it is 5 blocks are lost>"))

    def test_certificates_are_for_the_steps_of_the_mission(self):
        for mission in (PLAIN, MIXED, *map(made_mission, range(20))):
            base = Base.of_mission(mission)
            for variant in variants_of(mission):
                answer = studies.answer_of(answering.Task(base), variant)
                problem = mission.changed(variant.changes).problem()
                made = plan(problem.setup, problem.forecast)
                self.assertEqual(
                    check(problem.setup, problem.forecast, Plan.of(made.to_dict(), made.loss, answer.cut)).line,
                    f"least {made.loss}",
                    variant.name,
                )

    def test_functions(self):
        name = PLAIN.passes[0].name
        found = study(
            PLAIN,
            {"gone": lambda mission: mission.without(name), "more": [lambda mission: mission.without(name), scaled(2)]},
        )
        self.assertEqual(found[0].loss, PLAIN.changed(lost(name)).plan().loss)
        self.assertGreaterEqual(found[1].loss, found[0].loss)
        problem = PLAIN.problem()
        setup, forecast = problem
        wide = Replaced(
            lambda setup, forecast: (setup, forecast.having(windows=[window + 5 for window in forecast.windows]))
        )
        found = study((setup, forecast), {"wide": wide, "less": scaled(0.5)})
        self.assertEqual(
            found[0].loss, plan(setup, forecast.having(windows=[window + 5 for window in forecast.windows])).loss
        )
        self.assertLessEqual(found[1].loss, found.base.loss)

    def test_refusals_stand_in_their_row(self):
        found = study(
            PLAIN,
            {
                "no pass": lost("no such pass"),
                "no store": sized("NONE", 5),
                "too large": sized(PLAIN.stores[0].id, "9 GB"),
                "fails": lambda mission: 1 / 0,
                "good": scaled(1),
            },
        )
        self.assertEqual([answer.loss is None for answer in found], [True, True, False, True, False])
        self.assertIn("one of the passes", found[0].refused)
        self.assertIn("one of the stores", found[1].refused)
        # 9 GB are counted in a larger unit
        self.assertEqual(found[2].refused, "")
        self.assertIn("ZeroDivisionError", found[3].refused)
        self.assertEqual((found.change(found[0]), found.change(found[4])), (None, 0))
        self.assertEqual(len(found.text().splitlines()), 6)

    def test_fixed_plan(self):
        made = MIXED.plan()
        found = study(MIXED, each_pass_lost(MIXED), plan=made)
        anew = study(MIXED, each_pass_lost(MIXED))
        # a plan that stays is counted in units
        self.assertGreaterEqual(found.base.loss, made.loss)
        for fixed, free, one in zip(found, anew, MIXED.passes):
            self.assertGreaterEqual(fixed.loss, free.loss)
            self.assertEqual(sum(fixed.by_store), fixed.loss)
        setup, forecast = PLAIN.problem()
        own = plan(setup, forecast)
        windows = [window // 2 for window in forecast.windows]
        (half,) = study(
            (setup, forecast),
            {"half": Replaced(lambda setup, forecast: (setup, forecast.having(windows=windows)))},
            plan=own,
        )
        # the checker says what dumps that are cut down to the windows lose
        dumps = [[0] * len(own.stores) for _ in windows]
        for step, window in enumerate(windows):
            for place, blocks in enumerate(own.dumps[step]):
                dumps[step][place] = min(blocks, window - sum(dumps[step]))
        verdict = check(setup, forecast.having(windows=windows), dict(zip(own.stores, zip(*dumps))))
        self.assertEqual(half.loss, verdict.loss)

    def test_a_fixed_plan_is_flown_as_the_table_says(self):
        dice = random.Random(11)
        for number in range(60):
            arrivals = dice.choice(["before", "during"])
            stores = [Store(name, dice.randint(3, 9), channel=dice.randint(0, 1), start=dice.randint(0, 3)) for name in "AB"]
            setup = Setup.of(stores, arrivals=arrivals)
            columns = {name: [dice.randint(0, 6) for _ in range(8)] for name in "AB"}
            sizes = {"size:B": [dice.randint(0, 9) for _ in range(8)]} if dice.random() < 0.5 else {}
            forecast = Forecast.of([dice.choice([0, 4, 9]) for _ in range(8)], columns, {"limit:1": [5] * 8}, sizes)
            own = plan(setup, forecast)
            (answer,) = study((setup, forecast), {"more": scaled(2, "B")}, plan=own, progress=False)
            more = forecast.having(arrivals={"B": [2 * each for each in columns["B"]]})
            self.assertEqual(answer.by_store, tuple(lost_by(setup, more, own)), number)

    def test_grid(self):
        store = PLAIN.stores[0].id
        found = study(
            PLAIN,
            grid(arrivals=(scaled, [0.5, 1, 2]), size=(lambda blocks: sized(store, f"{blocks} blocks"), [45, 400])),
        )
        self.assertEqual(
            [answer.parameters for answer in found][:2], [{"arrivals": 0.5, "size": 45}, {"arrivals": 0.5, "size": 400}]
        )
        losses = {tuple(answer.parameters.values()): answer.loss for answer in found}
        self.assertTrue(losses[0.5, 400] <= losses[1, 400] <= losses[2, 400] <= losses[2, 45])

    def test_pictures(self):
        from rudlayog.pictures import picture_of

        store = PLAIN.stores[0].id
        found = study(
            PLAIN,
            grid(arrivals=(scaled, [0.5, 1, 2]), size=(lambda blocks: sized(store, f"{blocks} blocks"), [45, 400])),
        )
        for parameters in ((), ("arrivals",), ("arrivals", "size")):
            self.assertIn("<svg", picture_of(found, parameters, matplotlib=False).svg)
            self.assertIn("<svg", found.plot(*parameters).svg)
        with self.assertRaisesRegex(ValueError, "no variant has the parameter x; there are arrivals, size"):
            found.plot("x")
        with tempfile.TemporaryDirectory() as room:
            picture_of(found, (), matplotlib=False).save(Path(room, "study.svg"))
            self.assertIn("as it is", Path(room, "study.svg").read_text())


class Executors(unittest.TestCase):
    def setUp(self):
        self.variants = variants_of(MIXED)
        self.wanted = without_store_names(study(MIXED, self.variants))

    def test_the_same_table(self):
        with concurrent.futures.ThreadPoolExecutor(2) as threads:
            self.assertEqual(without_store_names(study(MIXED, self.variants, executor=threads, chunk=3)), self.wanted)
        with concurrent.futures.ProcessPoolExecutor(2, multiprocessing.get_context("spawn")) as processes:
            self.assertEqual(
                without_store_names(study(MIXED, iter(self.variants), executor=processes, chunk=5)), self.wanted
            )
        self.assertEqual(sorted(place for place, _ in answers(MIXED, self.variants)), list(range(len(self.variants))))
        with self.assertRaisesRegex(TypeError, "none of concurrent.futures"):
            study(MIXED, self.variants, executor=7)

    def test_a_process_that_dies(self):
        with tempfile.TemporaryDirectory() as room:
            variants = [*self.variants[:20], Variant("dies", (Changed(DiesOnce(room)),)), *self.variants[20:]]
            with concurrent.futures.ProcessPoolExecutor(2, multiprocessing.get_context("spawn")) as processes:
                found = study(MIXED, variants, executor=processes, chunk=4)
        self.assertEqual([row for row in without_store_names(found) if row[0] != "dies"], self.wanted)
        self.assertEqual(found[20].loss, found.base.loss)

    def test_a_variant_that_always_ends_its_process(self):
        variants = [*self.variants[:5], Variant("dies", (Changed(die_always),)), *self.variants[5:]]
        with concurrent.futures.ProcessPoolExecutor(2, multiprocessing.get_context("spawn")) as processes:
            found = study(MIXED, variants, executor=processes, chunk=1)
        self.assertIn("BrokenProcessPool", found[5].refused)
        self.assertEqual([row for row in without_store_names(found) if row[0] != "dies"], self.wanted)

    def test_an_interrupt_gives_what_is_done(self):
        def endless():
            while True:
                yield from self.variants

        main = threading.main_thread().ident
        timer = threading.Timer(1.5, lambda: signal.pthread_kill(main, signal.SIGINT))
        timer.start()
        found = study(MIXED, endless())
        self.assertFalse(found.is_whole)
        self.assertGreater(len(found), 0)
        self.assertEqual(without_store_names(found)[0], self.wanted[0])

    @unittest.skipUnless(distributed, "no distributed")
    def test_an_interrupt_leaves_the_workers_of_a_cluster(self):
        # in a group of processes of its own, all of which are interrupted, as by a terminal
        program = Path(__file__).with_name("interrupted_cluster.py")
        ran = subprocess.run(
            [sys.executable, "-B", program],
            capture_output=True,
            text=True,
            timeout=300,
            start_new_session=True,
            env={**os.environ, "PYTHONPATH": os.pathsep.join(sys.path)},
        )
        self.assertEqual(ran.stdout, "interrupted: some rows, and the workers live\n", ran.stderr[-2000:])

    @unittest.skipUnless(distributed, "no distributed")
    def test_a_cluster(self):
        with distributed.LocalCluster(
            n_workers=3, threads_per_worker=1, processes=True, dashboard_address=None
        ) as cluster, distributed.Client(cluster) as client:
            self.assertEqual(without_store_names(study(MIXED, self.variants, executor=client, chunk=4)), self.wanted)
            # one of its workers is killed while it works
            many = self.variants * 30
            victims = list(client.run(os.getpid).values())
            seen = 0
            for place, answer in answers(MIXED, many, executor=client, chunk=4):
                seen += 1
                if seen == 100:
                    os.kill(victims[0], signal.SIGKILL)
                self.assertEqual(
                    (answer.name, answer.loss, answer.by_store, answer.bound, answer.refused),
                    self.wanted[place % len(self.wanted)],
                )
            self.assertEqual(seen, len(many))
            self.assertNotIn(victims[0], client.run(os.getpid).values())


if __name__ == "__main__":
    unittest.main()
