"""The least losses of random problems, with arrivals before and during dumps and with sizes by step, beside those of
linear programs of scipy, which are written here from the rule of a step (docs/FORMATS.md) alone; and some of the plans
as docs/check_plan.py judges them."""

import importlib.util
import os
import random
import subprocess
import sys
import tempfile
import unittest
from pathlib import Path

from rudlayog import Forecast, Limit, Setup, Store, check, plan

if importlib.util.find_spec("scipy"):
    from scipy.optimize import linprog
    from scipy.sparse import coo_matrix

MOST = 1_000_000
# How many problems of each kind, how many are solved as one program, and how many plans are judged by the other
# checker.
PROBLEMS = int(os.environ.get("PROBLEMS", "2000"))
TOGETHER = 50
JUDGED = 10
CHECKER = Path(__file__).resolve().parents[3] / "docs" / "check_plan.py"
KINDS = [(arrivals, sized) for arrivals in ("before", "during") for sized in (False, True)]


def problem(dice, arrivals, sized):
    """A small problem: of one to three stores and one to seven steps, half of them with limits."""
    names = ["SCI", "HK", "X"][: dice.randint(1, 3)]
    sizes = [dice.randint(1, 12) for _ in names]
    stores = [
        Store(name, size, dice.choice(["bounded", "circular"]), dice.randint(0, 1), dice.randint(0, size))
        for name, size in zip(names, sizes)
    ]
    steps, most = dice.randint(1, 7), dice.choice([4, 9])

    def column(bound):
        return [dice.choice([0, dice.randint(0, bound)]) for _ in range(steps)]

    has_limits = dice.random() < 0.5
    limits = [Limit(channel, dice.randint(0, 6)) for channel in range(2) if has_limits and dice.random() < 0.5]
    by_step = {f"limit:{channel}": column(6) for channel in range(2) if has_limits and dice.random() < 0.5}
    with_sizes = dice.sample(names, dice.randint(1, len(names))) if sized else []
    room = {
        f"size:{name}": [dice.choice([0, 3, 8, MOST, dice.randint(0, 12)]) for _ in range(steps)]
        for name in names
        if name in with_sizes
    }
    forecast = Forecast.of(column(2 * most), {name: column(most) for name in names}, by_step, room)
    return Setup.of(stores, [], limits, arrivals), forecast


def limit_in(setup, forecast, channel, step):
    """What may leave a channel in a step, from 0: the lesser of the setup's limit and of the forecast's."""
    own = [each.blocks for each in setup.limits if each.channel == channel]
    return min([*own, forecast.limits.get(f"limit:{channel}", [MOST] * (step + 1))[step]])


def least_losses(problems):
    """The least loss of each problem, by one linear program: of each store and step it has what is lost, what is sent
    and what is held as the step ends, none of which is negative."""
    equal, right, rooms, most = [], [], [], []
    first, losses = 0, []
    for setup, forecast in problems:
        steps, stores = range(len(forecast.windows)), setup.stores
        lost, sent, held = (
            {
                (place, step): first + kind * len(stores) * len(steps) + place * len(steps) + step
                for place in range(len(stores))
                for step in steps
            }
            for kind in range(3)
        )
        first += 3 * len(stores) * len(steps)
        losses.append(sorted(lost.values()))
        for place, store in enumerate(stores):
            for step in steps:
                # What was held and what arrives is lost, sent or held.
                at, row = (place, step), len(right)
                equal += [(row, lost[at], 1), (row, sent[at], 1), (row, held[at], 1)]
                if step:
                    equal.append((row, held[place, step - 1], -1))
                right.append(forecast.arrivals[store.id][step] + (0 if step else store.start))
                # The size holds what is there after arrivals and losses; during dumps also after the dumps.
                row = len(most)
                rooms.append((row, held[at], 1))
                if setup.arrivals == "before":
                    rooms.append((row, sent[at], 1))
                by_step = forecast.sizes.get(f"size:{store.id}")
                most.append(min(store.size, by_step[step]) if by_step else store.size)
        for step in steps:
            channels = {store.channel for store in stores}
            sums = [(range(len(stores)), forecast.windows[step])]
            for channel in channels:
                those = [place for place, store in enumerate(stores) if store.channel == channel]
                sums.append((those, limit_in(setup, forecast, channel, step)))
            for places, blocks in sums:
                rooms += [(len(most), sent[place, step], 1) for place in places]
                most.append(blocks)
    return solved(first, losses, (equal, right), (rooms, most))


def solved(count, losses, equal, rooms):
    """The sums of these variables where the sum of all is least."""
    weights = [0] * count
    for place in (place for each in losses for place in each):
        weights[place] = 1
    (matrix, right), (rows, most) = ((made(cells, len(bounds), count), bounds) for cells, bounds in (equal, rooms))
    found = linprog(weights, A_ub=rows, b_ub=most, A_eq=matrix, b_eq=right, method="highs")
    return [sum(found.x[place] for place in each) for each in losses]


def made(cells, rows, columns):
    """A matrix with these numbers in these places."""
    where, across, numbers = zip(*cells)
    return coo_matrix((numbers, (where, across)), shape=(rows, columns)).tocsr()


class OtherChecker(unittest.TestCase):
    @unittest.skipUnless(CHECKER.exists(), "no docs/check_plan.py")
    def test_says_the_same(self):
        for arrivals, sized in KINDS:
            dice = random.Random(f"judged {arrivals} {sized}")
            for _ in range(JUDGED):
                setup, forecast = problem(dice, arrivals, sized)
                found = plan(setup, forecast)
                with tempfile.TemporaryDirectory() as folder:
                    files = [Path(folder, name) for name in ("setup.toml", "forecast.csv", "plan.txt")]
                    for file, text in zip(files, (setup, forecast, found)):
                        file.write_bytes(bytes(text))
                    ran = subprocess.run([sys.executable, "-B", CHECKER, *files], capture_output=True, text=True)
                words = f"loss {found.loss}, bound {found.loss}: no plan loses fewer\n"
                self.assertEqual((ran.stdout, ran.stderr), (words, ""), f"{setup.text()}\n{forecast.text()}")


@unittest.skipUnless(importlib.util.find_spec("scipy"), "no scipy")
class Kinds(unittest.TestCase):
    def compare(self, arrivals, sized):
        """Compares the losses of as many problems, which must not all lose nothing."""
        dice, lossy = random.Random(f"{arrivals} {sized}"), 0
        for begin in range(0, PROBLEMS, TOGETHER):
            problems = [problem(dice, arrivals, sized) for _ in range(min(TOGETHER, PROBLEMS - begin))]
            for (setup, forecast), least in zip(problems, least_losses(problems)):
                found = plan(setup, forecast)
                self.assertAlmostEqual(found.loss, least, places=5, msg=f"{setup.text()}\n{forecast.text()}")
                verdict = check(setup, forecast, found)
                self.assertEqual((verdict.kind, verdict.loss), ("least", found.loss))
                lossy += found.loss > 0
        self.assertGreater(lossy, PROBLEMS // 4)

    def test_before_dumps(self):
        self.compare("before", False)

    def test_before_dumps_with_sizes_by_step(self):
        self.compare("before", True)

    def test_during_dumps(self):
        self.compare("during", False)

    def test_during_dumps_with_sizes_by_step(self):
        self.compare("during", True)


if __name__ == "__main__":
    unittest.main()
