#!/usr/bin/env python3
"""Writes problems of several families, each with and without limits of channels, as folders with a setup and a
forecast. The same call writes the same octets, whatever the version of Python.

    python3 bench/make.py [FOLDER]        FOLDER is bench/out where it is not said
"""

import sys
from dataclasses import replace
from pathlib import Path

from mission import mission
from problem import Problem, Store

MOST = 1_000_000
STORES = 16
STEPS = 256
CHANNELS = 8


class Numbers:
    """Numbers that look random, by SplitMix64 (Steele, Lea and Flood, 2014)."""

    def __init__(self, seed):
        self.state = seed

    def upto(self, most):
        """A number from 0 to the most."""
        self.state = (self.state + 0x9E3779B97F4A7C15) % 2**64
        z = self.state
        z = (z ^ (z >> 30)) * 0xBF58476D1CE4E5B9 % 2**64
        z = (z ^ (z >> 27)) * 0x94D049BB133111EB % 2**64
        return (z ^ (z >> 31)) % (most + 1)

    def between(self, least, most):
        return least + self.upto(most - least)


def one_store():
    """One store that gets about what its passes, two steps in eight, can take."""
    numbers = Numbers(1)
    return Problem(
        [Store("SCI", 60_000)],
        [numbers.between(20_000, 60_000) if step % 8 < 2 else 0 for step in range(STEPS)],
        [[numbers.upto(20_000)] for _ in range(STEPS)],
        {0: 45_000},
    )


def random_stores(numbers, least_size):
    stores = []
    for place in range(STORES):
        size = numbers.between(least_size, MOST)
        kind = ("circular", "bounded")[numbers.upto(1)]
        start = numbers.upto(size)
        stores.append(Store(f"S{place + 1}", size, kind, numbers.upto(CHANNELS - 1), start))
    return stores


def random_numbers():
    """The largest problem: each number is any of its range, so far more comes than can leave."""
    numbers = Numbers(2)
    return Problem(
        random_stores(numbers, 1),
        [numbers.upto(MOST) for _ in range(STEPS)],
        [[numbers.upto(MOST) for _ in range(STORES)] for _ in range(STEPS)],
        {channel: numbers.upto(MOST // 4) for channel in range(CHANNELS)},
    )


def random_balanced():
    """The largest size, where about as much comes as can leave."""
    numbers = Numbers(3)
    return Problem(
        random_stores(numbers, 1),
        [numbers.upto(MOST) for _ in range(STEPS)],
        [[numbers.upto(2 * MOST // STORES) // 2 for _ in range(STORES)] for _ in range(STEPS)],
        {channel: numbers.between(MOST // 16, MOST // 8) for channel in range(CHANNELS)},
    )


def tight_windows():
    """Bursts in the first and the last quarter fill large stores, and narrow windows empty them in between: blocks are
    kept for hundreds of steps."""
    numbers = Numbers(4)
    quarter = STEPS // 4
    bursts = set(range(quarter)) | set(range(STEPS - quarter, STEPS))
    return Problem(
        [Store(f"S{place + 1}", 700_000, "bounded", place % CHANNELS) for place in range(STORES)],
        [numbers.between(40_000, 70_000) for _ in range(STEPS)],
        [[numbers.upto(30_000) if step in bursts else 0 for _ in range(STORES)] for step in range(STEPS)],
        {channel: numbers.between(6_500, 8_500) for channel in range(CHANNELS)},
    )


def chain():
    """Stores that overflow one after another: each is filled over 16 steps of its own, the next from the middle of them on, and
    no channel alone can empty its two stores in time."""
    numbers = Numbers(5)
    stride = STEPS // STORES
    return Problem(
        [Store(f"S{place + 1}", 200_000, "bounded", place // 2, 150_000) for place in range(STORES)],
        [numbers.between(20_000, 40_000) for _ in range(STEPS)],
        [
            [numbers.between(20_000, 40_000) if 0 <= step - stride * place < 2 * stride else 0 for place in range(STORES)]
            for step in range(STEPS)
        ],
        {channel: numbers.between(8_000, 12_000) for channel in range(CHANNELS)},
    )


def stair():
    """Stores each larger than the one before and filled at the same pace, so that their overflows lie apart as stairs do; the
    channels pair a small store with a large one."""
    numbers = Numbers(6)
    return Problem(
        [Store(f"S{place + 1}", 60_000 * (place + 1), "bounded", place % CHANNELS) for place in range(STORES)],
        [numbers.between(30_000, 90_000) for _ in range(STEPS)],
        [[numbers.upto(9_000) for _ in range(STORES)] for _ in range(STEPS)],
        {channel: numbers.between(5_000, 9_000) for channel in range(CHANNELS)},
    )


def burst():
    """Bursts into small stores: in one step of four a store gets up to three times its size, in a quarter of the steps no
    window is open, and each window serves a few channels."""
    numbers = Numbers(7)
    return Problem(
        [Store(f"S{place + 1}", numbers.between(5_000, 30_000), "bounded", place % CHANNELS) for place in range(STORES)],
        [numbers.upto(3) and numbers.upto(90_000) for _ in range(STEPS)],
        [[(numbers.upto(3) == 0) * numbers.upto(30_000) for _ in range(STORES)] for _ in range(STEPS)],
        {channel: numbers.between(2_000, 15_000) for channel in range(CHANNELS)},
    )


FAMILIES = {
    "one_store": one_store,
    "mission": mission,
    "random": random_numbers,
    "balanced": random_balanced,
    "tight": tight_windows,
    "chain": chain,
    "stair": stair,
    "burst": burst,
}


def main(folder):
    for name, family in FAMILIES.items():
        problem = family()
        replace(problem, limits={}).write(folder / name)
        problem.write(folder / f"{name}_limited")


if __name__ == "__main__":
    here = Path(__file__).resolve().parent
    main(Path(sys.argv[1]) if len(sys.argv) > 1 else here / "out")
