"""What a study answers beside what the changed mission loses when it is planned anew, on missions and changes that are
drawn by chance; and the least loss beside a linear program. Prints the seed; SEED and MISSIONS set it and how many
missions there are."""

import os
import random
import sys
import unittest
import warnings

import drawn
from rudlayog import Plan, check
from rudlayog._base import Base
from rudlayog.mission import MissionError, MissionWarning
from rudlayog.study import grid, lost, scaled, sized, study
from rudlayog.variants import changes_of

try:
    import least
except ImportError:
    least = None

SEED = os.environ.get("SEED") or str(random.SystemRandom().randrange(10**6))
MISSIONS = int(os.environ.get("MISSIONS", "300"))
sys.stderr.write(f"test_study_changed: SEED={SEED} MISSIONS={MISSIONS}\n")


class Changed(unittest.TestCase):
    def setUp(self):
        self.enterContext(warnings.catch_warnings())
        warnings.simplefilter("ignore", MissionWarning)
        # how many variants have texts that are made quickly, and how many of these have other steps than the mission
        self.quick = self.other_steps = 0

    def anew(self, mission, answer, changes):
        """The changed mission planned anew loses what the answer says, and its cut shows that it is least."""
        try:
            made = mission.changed(changes).plan()
        except MissionError as error:
            self.assertEqual((answer.loss, answer.refused), (None, str(error)))
            return False
        self.assertEqual(answer.refused, "")
        texts = Base.of_mission(mission).quick.texts(changes_of(changes))
        if texts is not None:
            self.quick += 1
            self.assertEqual(texts[:2], tuple(map(bytes, made.problem)))
            self.other_steps += made.problem.edges != mission.problem().edges
        self.assertEqual(
            (answer.loss, answer.by_store, answer.is_least), (made.loss, tuple(made.losses.values()), True)
        )
        self.assertTrue(all(made.check()))
        again = Plan.of(made.plan.to_dict(), made.plan.loss, answer.cut)
        self.assertTrue(check(made.problem.setup, made.problem.forecast, again), answer.name)
        return True

    def test_answers_are_plans_of_the_changed_mission(self):
        answered = 0
        for number in range(MISSIONS):
            dice = drawn.seed_of(SEED, number)
            mission = drawn.drawn_mission(dice)
            variants = {f"variant {place}": drawn.drawn_changes(dice, mission) for place in range(4)}
            for answer, changes in zip(study(mission, variants, progress=False), variants.values()):
                with self.subTest(number=number, seed=SEED, changes=changes):
                    answered += self.anew(mission, answer, changes)
        self.assertGreater(answered, 2 * MISSIONS)
        self.assertGreater(self.quick, MISSIONS // 2)
        self.assertGreater(self.other_steps, MISSIONS // 2)

    def test_grids(self):
        for number in range(MISSIONS // 10):
            dice = drawn.seed_of(SEED, number)
            mission = drawn.drawn_mission(dice)
            names = [one.name for one in mission.passes[:3]]
            axes = {
                "one": (lost, names),
                "other": (lost, names),
                "arrivals": (scaled, [0.5, "4/3"]),
                "size": {"+": sized(mission.stores[0].id, factor=2)},
            }
            variants = list(grid(**axes))
            for answer, variant in zip(study(mission, variants, progress=False), variants):
                with self.subTest(number=number, seed=SEED, variant=variant.name):
                    self.assertTrue(self.anew(mission, answer, variant.changes))

    def test_changes_one_after_the_other(self):
        for number in range(MISSIONS // 10):
            dice = drawn.seed_of(SEED, number)
            mission = drawn.drawn_mission(dice)
            changes = drawn.drawn_changes(dice, mission)
            by_one = mission
            try:
                for change in changes:
                    by_one = by_one.changed(change)
            except MissionError:
                # as where a pass is changed that is lost already
                continue
            self.assertEqual(mission.changed(changes), by_one)

    @unittest.skipUnless(least, "no scipy")
    def test_the_least_loss_is_that_of_a_linear_program(self):
        for number in range(MISSIONS // 3):
            dice = drawn.seed_of(SEED, number)
            mission = drawn.drawn_mission(dice)
            if mission.passes:
                try:
                    mission = mission.changed(drawn.drawn_changes(dice, mission))
                except MissionError:
                    pass
            made = mission.plan()
            problem = made.problem
            with self.subTest(number=number, seed=SEED):
                self.assertAlmostEqual(made.plan.loss, least.least_blocks(*problem), delta=1e-3)


if __name__ == "__main__":
    unittest.main()
