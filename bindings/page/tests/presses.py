"""Keys that are pressed in the mission's table of steps, in Chromium: how long the page's thread was busy at a time. A
busy machine makes such pauses longer, but hardly the processor time that they take."""

from __future__ import annotations

import os
import time
from collections.abc import Callable
from pathlib import Path
from statistics import median
from typing import Any

from browsers import Chromium
from compare import ready

PRESSES, KEYS, BETWEEN = 2000, ("1", "2", "Backspace", "Backspace"), 0.01
PAUSE = 50  # milliseconds, above which Chromium calls a task long
OPEN = """
const at = id => document.getElementById(id), wait = ms => new Promise(done => setTimeout(done, ms)),
  it = at("example");
it.value = "mission"; it.dispatchEvent(new Event("change", { bubbles: true })); await wait(1000);
if (KIND === "in order") at("in-order").click();
await wait(3000);
const cell = document.querySelector('[data-cell="10 1"]'); cell.focus(); cell.select();
// What each number is worth is asked for all the time.
if (KIND === "asking") setInterval(() => at("ask").click(), 100);
"""
# Tasks that Chromium calls long; how long a key waited until the page took it, and until the page showed it.
WATCH = """
const seen = (window.seen = { tasks: [], waited: 0, shown: [] });
new PerformanceObserver(list => seen.tasks.push(...list.getEntries().map(it => it.duration)))
  .observe({ entryTypes: ["longtask"] });
new PerformanceObserver(list => {
  for (const it of list.getEntries()) {
    seen.waited = Math.max(seen.waited, it.processingStart - it.startTime);
    if (it.name === "keydown") seen.shown.push(it.duration);
  }
}).observe({ type: "event", durationThreshold: 16 });
"""
TASK = "ThreadControllerImpl::RunTask"


def tasks_of(events: list[dict[str, Any]]) -> list[float]:
    """The processor time of each task of the page's thread, in milliseconds."""
    names = {(it["pid"], it["tid"]): it["args"]["name"] for it in events if it["ph"] == "M"
        and it["name"] == "thread_name"}
    threads: dict[tuple[int, int], list[float]] = {}
    for it in events:
        if it["ph"] == "X" and it["name"] == TASK and names.get((it["pid"], it["tid"])) == "CrRendererMain":
            threads.setdefault((it["pid"], it["tid"]), []).append(it.get("tdur", 0) / 1000)
    # Another page of the browser has a thread of this name too, which does little.
    return max(threads.values(), key=sum)


def pressed(kind: Callable[..., Any], page: Path, what: str, presses: int = PRESSES) -> str:
    """What was seen while keys were pressed, in words: plans that are plain or in order, or what numbers are worth is
    asked for all the time."""
    browser: Chromium = kind()
    try:
        ready(browser, str(page))
        browser.run(OPEN.replace("KIND", f"'{what}'"))
        browser.run(WATCH)
        browser.record()
        for turn in range(presses):
            browser.key(KEYS[turn % len(KEYS)])
            time.sleep(BETWEEN)
        load, took = os.getloadavg()[0], tasks_of(browser.recorded())
        seen = browser.run("return window.seen;")
    finally:
        browser.close()
    tasks, shown = seen["tasks"], seen["shown"] or [0]
    said = f"{len(tasks)} pauses of more than {PAUSE} ms" + (f", the longest of {max(tasks):.0f} ms" if tasks else "")
    said += (
        f"; a key waited at most {seen['waited']:.0f} ms, and was shown after {median(shown):.0f} ms (median) and at "
        f"most {max(shown):.0f} ms"
    )
    said += (
        f"; of processor time a key took {sum(took) / presses:.1f} ms, the longest task {max(took):.1f} ms, and "
        f"{sum(it > PAUSE for it in took)} more than {PAUSE} ms"
    )
    return f"{browser.name}: {presses} keys pressed, {said}; on {os.cpu_count()} processors of load {load:.0f}"
