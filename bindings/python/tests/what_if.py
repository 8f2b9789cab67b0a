#!/usr/bin/env python3
"""Measures what a variant of a plan takes in Python and in C. A variant has other windows, other arrivals in one store, or other start
volumes, and its answer is the loss. The C call has its texts and its buffer already. Prints a line for each example and kind of variant."""

import ctypes
import sys
import time
from collections.abc import Callable
from pathlib import Path

sys.path.insert(0, str(Path(__file__).resolve().parents[1]))
from rudlayog import Forecast, Setup, _library, plan  # noqa: E402

EXAMPLES = Path(__file__).resolve().parents[3] / "examples"
VARIANTS = 8
ROUNDS = 50


def least_times(*calls: Callable[[], object]) -> list[float]:
    """The processor time of each call, in microseconds: the least that was met, where the calls are made in turn."""
    least = [float("inf")] * len(calls)
    for _ in range(ROUNDS):
        for place, call in enumerate(calls):
            begin = time.thread_time()
            call()
            least[place] = min(least[place], time.thread_time() - begin)
    return [seconds * 1e6 for seconds in least]


def c_call(setup: bytes, forecast: bytes) -> Callable[[], object]:
    """The call in C."""
    room, answer = ctypes.create_string_buffer(_library.PLAN_ROOM), _library.Answer()
    return lambda: _library.rudlayog_plan(setup, len(setup), forecast, len(forecast), room, len(room), answer)


def windows_of(base: Forecast, variant: int) -> list[int]:
    """Other windows: each one in VARIANTS is smaller."""
    return [window - (window > 0 and step % VARIANTS == variant) for step, window in enumerate(base.windows)]


def arrivals_of(base: Forecast, variant: int) -> dict[str, list[int]]:
    """Other arrivals in one store."""
    store = list(base.arrivals)[variant % len(base.arrivals)]
    return {store: [blocks + (step % VARIANTS == variant) for step, blocks in enumerate(base.arrivals[store])]}


def measured(make: Callable[[], tuple[Setup, Forecast]]) -> list[float]:
    """What a variant takes in Python, and in C."""
    texts = [bytes(text) for text in make()]
    return least_times(lambda: plan(*make()).loss, c_call(*texts))


def main() -> None:
    """The program."""
    for name in ("mission", "tight"):
        setup, base = Setup.read(EXAMPLES / name / "setup.toml"), Forecast.read(EXAMPLES / name / "forecast.csv")
        kinds: dict[str, Callable[[int], tuple[Setup, Forecast]]] = {
            "windows": lambda variant: (setup, base.having(windows=windows[variant])),
            "arrivals": lambda variant: (setup, base.having(arrivals=arrivals[variant])),
            "start volumes": lambda variant: (setup.holding(held[variant]), base),
        }
        windows = [windows_of(base, variant) for variant in range(VARIANTS)]
        arrivals = [arrivals_of(base, variant) for variant in range(VARIANTS)]
        held = [{store.id: min(store.size, store.start + variant) for store in setup.stores} for variant in range(VARIANTS)]
        for kind, make in kinds.items():
            times = [measured(lambda: make(variant)) for variant in range(VARIANTS)]
            in_python, in_c = (sum(column) / VARIANTS for column in zip(*times, strict=True))
            print(f"what if: {name}, other {kind}: {in_python:.0f} us in Python, {in_c:.0f} us in C, {in_python / in_c:.2f} times")


if __name__ == "__main__":
    main()
