#!/usr/bin/env python3
"""Measures what a variant of a study takes. On one thread it is compared with the call in C, whose texts and buffer are
there already: each of many variants is answered once in a round, after the others, and the least time of some rounds
counts. Then threads for all processors work at once, beside as many that make C calls alone: on a busy machine both get
the same share of it. Then as many processes. And scipy's linprog (HiGHS) solves the same problem, where it is
installed. Prints a line for each."""

import os
import sys
import time
from concurrent.futures import ProcessPoolExecutor, ThreadPoolExecutor
from dataclasses import replace
from itertools import combinations, cycle
from pathlib import Path

sys.path.insert(0, str(Path(__file__).resolve().parents[1]))
sys.path.insert(0, str(Path(__file__).resolve().parent))
from rudlayog._answering import Task  # noqa: E402
from rudlayog._base import Base  # noqa: E402
from rudlayog.mission import Mission, Pass, Station  # noqa: E402
from rudlayog.study import Variant, answer_of, each_pass_lost, each_store_sized, grid, lost, rated, scaled, study  # noqa: E402
from what_if import c_call  # noqa: E402

EXAMPLE = Path(__file__).resolve().parents[3] / "examples" / "mars_week" / "mission.toml"
SECONDS = 1.0
ROUNDS = 5


def texts_of(base, variant):
    """The texts of a variant."""
    return tuple(map(bytes, base.mission.changed(variant.changes).problem()))


def times_of(base, variants):
    """What a variant takes without and with its losses by store, and what the C call takes: the mean of the least
    processor times, in microseconds."""
    alone, whole = Task(base, by_store=False), Task(base)
    calls = [
        (lambda v=v: answer_of(alone, v), lambda v=v: answer_of(whole, v), c_call(*texts_of(base, v))) for v in variants
    ]
    least = [[float("inf")] * 3 for _ in calls]
    for _ in range(ROUNDS):
        for times, kinds in zip(least, calls):
            for place, call in enumerate(kinds):
                begin = time.thread_time()
                call()
                times[place] = min(times[place], time.thread_time() - begin)
    return [sum(column) / len(variants) * 1e6 for column in zip(*least)]


def a_second(work, workers):
    """How many variants a second that many threads answer, where `work` answers some and says how many."""
    count, begin = 0, time.perf_counter()
    with ThreadPoolExecutor(workers) as pool:
        while time.perf_counter() - begin < SECONDS:
            count += work(pool, workers)
        return count / (time.perf_counter() - begin)


def gains(mission, base, workers):
    """How many times as many variants, without and with the losses by store, and C calls that many threads answer as
    one does. They take turns, and the greatest gain counts."""
    kinds = list(each_pass_lost(mission)) * 16
    texts = [texts_of(base, variant) for variant in kinds[:14]]

    def in_c(pool, threads):
        def calls(_):
            for each in texts:
                c_call(*each)()

        list(pool.map(calls, range(16)))
        return 16 * len(texts)

    works = [
        lambda pool, threads: len(study(mission, kinds, executor=pool, by_store=False, progress=False)),
        lambda pool, threads: len(study(mission, kinds, executor=pool, progress=False)),
        in_c,
    ]
    rates = [[(a_second(work, 1), a_second(work, workers)) for work in works] for _ in range(2)]
    return [(max(one for one, _ in column), max(many for _, many in column)) for column in zip(*rates)]


def in_processes(mission, workers):
    """How many times as many variants a second, with the losses by store, that many processes answer as one thread."""
    kinds, rates = list(each_pass_lost(mission)) * 64, []
    for kind, count in ((ThreadPoolExecutor, 1), (ProcessPoolExecutor, workers)):
        with kind(count) as pool:
            study(mission, kinds[:64], executor=pool, progress=False)
            begin = time.perf_counter()
            for _ in range(ROUNDS):
                study(mission, kinds, executor=pool, progress=False)
            rates.append(ROUNDS * len(kinds) / (time.perf_counter() - begin))
    return rates[1] / rates[0]


def linprog_time(setup, forecast):
    """What scipy takes for the same problem, and the loss that it finds."""
    try:
        from least import least_blocks
    except ImportError:
        return None
    begin = time.perf_counter()
    found = least_blocks(setup, forecast)
    return time.perf_counter() - begin, round(found)


def overlapping(mission):
    """The mission with a third station, of which each second pass overlaps one over another station."""
    more = [
        Pass(
            "Cebreros",
            one.begin + (one.end - one.begin) / 2,
            one.end + (one.end - one.begin) / 3,
            "90 kbit/s",
            {1: "50 kbit/s"},
        )
        for one in mission.passes[::2]
    ]
    return replace(
        mission, passes=(*mission.passes, *more), stations=(*mission.stations, Station("Cebreros")), overlap="both"
    )


def variants_for(mission):
    """2,000 variants of passes lost and arrivals scaled: a pass or two lost beside some factor, and arrivals scaled
    alone."""
    names = [one.name for one in mission.passes]
    pairs = [*((name,) for name in names), *combinations(names, 2)][:100]
    axes = {
        "lost": {" and ".join(pair): lost(*pair) for pair in pairs},
        "arrivals": (scaled, [0.9 + k / 50 for k in range(15)]),
    }
    return [*grid(**axes), *(Variant(f"x {k}", (scaled(0.5 + k / 1000),)) for k in range(500))]


def rates_for(mission):
    """2,000 variants in which rates change: of all passes, and of one."""
    return [
        Variant(f"rates x {k}", (rated(factor=0.5 + k / 1000, of=(of,) if k % 2 else ()),))
        for k, of in zip(range(2000), cycle(one.name for one in mission.passes))
    ]


def rate_of(mission, variants, pool, clock):
    """How many of 2,000 variants are answered in a second of this clock."""
    study(mission, variants[:200], executor=pool, progress=False)
    begin = clock()
    found = study(mission, variants, executor=pool, progress=False)
    seconds = clock() - begin
    assert len(found) == len(variants) == 2000 and not any(answer.refused for answer in found)
    return len(variants) / seconds


def print_rates(mission, base):
    """Variants a second of a processor, in one thread, and as many C calls; and by the clock on the wall in one thread
    and in four processes, which says something on a quiet machine alone."""
    variants = variants_for(mission)
    kinds = (
        ("mars_week", mission, variants),
        ("with passes that overlap", overlapping(mission), variants_for(overlapping(mission))),
        ("where rates change", mission, rates_for(mission)),
    )
    with ThreadPoolExecutor(1) as pool:
        told = ", ".join(
            f"{name} {max(rate_of(one, own, pool, time.process_time) for _ in range(3)):.0f}" for name, one, own in kinds
        )
        alone = max(rate_of(mission, variants, pool, time.perf_counter) for _ in range(3))
    with ProcessPoolExecutor(4) as pool:
        many = max(rate_of(mission, variants, pool, time.perf_counter) for _ in range(3))
    call = c_call(*map(bytes, (base.setup, base.forecast)))
    begin = time.process_time()
    for _ in range(1000):
        call()
    in_c = 1000 / (time.process_time() - begin)
    print(
        f"study: 2000 variants of passes lost and arrivals scaled, or of rates, variants a second of a processor: {told}; "
        f"C calls "
        f"{in_c:.0f}; by the clock on the wall {alone:.0f}, in four processes {many:.0f}, {many / alone:.2f} times as "
        f"many; "
        f"load {os.getloadavg()[0]:.1f}"
    )


def main():
    """The program."""
    mission = Mission.read(EXAMPLE)
    base = Base.of_mission(mission)
    names = [one.name for one in mission.passes]
    kinds = {
        "two passes lost": [Variant("", (lost(*pair),)) for pair in combinations(names, 2)][::2],
        "arrivals of one store scaled": [
            Variant("", (scaled(k / 100, store.id),)) for k in range(97, 104) for store in mission.stores
        ],
        "a store larger": [variant for k in range(101, 108) for variant in each_store_sized(mission, k / 100)],
    }
    for kind, variants in kinds.items():
        in_python, by_store, in_c = times_of(base, variants)
        print(
            f"study: {kind}: {in_python:.0f} us in Python, {in_c:.0f} us in C, {in_python / in_c:.2f} times; "
            f"with the losses by store {by_store:.0f} us, {by_store / in_c:.2f} times"
        )
    print_rates(mission, base)
    workers = os.cpu_count() or 1
    (one, many), (one_by_store, many_by_store), (one_in_c, many_in_c) = gains(mission, base, workers)
    print(
        f"study: in {workers} threads {many / one:.2f} times as many variants a second as in one, "
        f"{many_by_store / one_by_store:.2f} times with "
        f"the losses by store; C calls alone {many_in_c / one_in_c:.2f} times; in one thread {one:.0f}, "
        f"{one_by_store:.0f} and {one_in_c:.0f}"
    )
    print(
        f"study: in {workers} processes {in_processes(mission, workers):.2f} times as many variants a second as in "
        f"one thread"
    )
    found = linprog_time(base.setup, base.forecast)
    if found is None:
        print("study: linprog is passed over: no scipy")
    else:
        answer = answer_of(Task(base), Variant("as it is"))
        print(
            f"study: linprog takes {found[0] * 1e3:.0f} ms for the same problem, and finds {found[1]}; the plan loses "
            f"{answer.loss}"
        )


if __name__ == "__main__":
    main()
