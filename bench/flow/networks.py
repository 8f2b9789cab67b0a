#!/usr/bin/env python3
"""Writes the network that the planner builds of each problem of make.py, as text into FOLDER/NAME/network.txt.

    python3 bench/flow/networks.py [FOLDER]        FOLDER is bench/out where it is not said

The first line is `nodes arcs`, and each further line is an arc, `from to capacity`, where the capacity `-` is no limit.
Blocks flow from node 0 to node 1. crates/mm_planner/specs/Network.antt says what the nodes and arcs mean.
"""

import sys
from dataclasses import replace
from pathlib import Path

BENCH = Path(__file__).resolve().parents[1]
sys.path.insert(0, str(BENCH))

from make import CHANNELS, FAMILIES  # noqa: E402

SOURCE = 0
SINK = 1

# of each step, from 1: a node for what comes to each store, one for what it holds, the channels' nodes and the pass
STEP_NODES = 41
OUT_NODES = 16
CHANNEL_NODES = 32
PASS_NODE = 40


def step_arcs(problem, step):
    """The arcs of a step, kind by kind: from, to, and the capacity or None."""
    first, stores = STEP_NODES * step, list(enumerate(problem.stores))
    last = step == len(problem.windows)
    passed, channels = first + PASS_NODE, first + CHANNEL_NODES
    come, hold, keep, take = [], [], [], []
    for place, store in stores:
        held = first + OUT_NODES + place
        blocks = problem.arrivals[step - 1][place] + (store.start if step == 1 else 0)
        come.append((SOURCE, first + place, blocks))
        hold.append((first + place, held, store.size))
        keep.append((held, SINK if last else first + STEP_NODES + place, None))
        take.append((held, channels + store.channel, None))
    limits = [(channels + channel, passed, problem.limits.get(channel)) for channel in range(CHANNELS)]
    return come + hold + keep + take + limits + [(passed, SINK, problem.windows[step - 1])]


def network(problem):
    """The network of a problem, as text."""
    steps = len(problem.windows)
    arcs = [arc for step in range(1, steps + 1) for arc in step_arcs(problem, step)]
    lines = [f"{STEP_NODES * (steps + 1)} {len(arcs)}"]
    lines += [f"{source} {to} {'-' if capacity is None else capacity}" for source, to, capacity in arcs]
    return "\n".join(lines) + "\n"


def write(folder):
    """Writes all networks into folders of their own, and returns the names and the files."""
    files = []
    for name, family in FAMILIES.items():
        problem = family()
        for named, limited in ((name, replace(problem, limits={})), (f"{name}_limited", problem)):
            file = folder / named / "network.txt"
            file.parent.mkdir(parents=True, exist_ok=True)
            file.write_text(network(limited))
            files.append((named, file))
    return files


if __name__ == "__main__":
    write(Path(sys.argv[1]) if len(sys.argv) > 1 else BENCH / "out")
