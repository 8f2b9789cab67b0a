"""Passes in the chart: dragged, stretched, moved by keys, and taken back. What the page then holds is what the program
prints for texts in which the pass was typed with those times."""

from __future__ import annotations

import json
from datetime import datetime, timezone
from typing import Any

import missions
from browsers import Browser
from faults import FOLDER, clock, start
from use import Use, with_cell
from wants import week_files

# The place of a pass in the window, of its left and of its right end, and of its middle; and how many microseconds are
# one pixel.
PLACE = """
at("lanes").scrollIntoView({ block: "center" });
await wait(50);
const box = cell("pass NTH all").getBoundingClientRect(), lane = cell("pass NTH all").parentElement
  .getBoundingClientRect(), y = box.top + box.height / 2, { edges } = rudlayog.state;
return { left: [box.left, y], right: [box.right, y], middle: [box.left + box.width / 2, y],
  micros: edges ? (edges.at(-1) - edges[0]) / lane.width : 0, width: lane.width };
"""
SPANS = "return rudlayog.state.passes.map(({ from, to }) => [from, to]);"
KEY = (
    "const it = document.activeElement; it.dispatchEvent(new KeyboardEvent('keydown', { key: KEY, shiftKey: SHIFT, "
    "bubbles: true, cancelable: true }));"
)
SECOND = 1_000_000
MINUTE = 60 * SECOND


def place(use: Use, nth: int) -> dict[str, Any]:
    return dict(use.do(PLACE.replace("NTH", str(nth))))


def spans(use: Use) -> list[tuple[int, int]]:
    return [(int(begin), int(end)) for begin, end in use.do(SPANS)]


def drag(use: Use, point: list[float], by: float, drops: bool = True) -> None:
    """Drags from a point to the right by so many pixels, in several moves."""
    x, y = point
    use.browser.point("Moved", x, y)
    use.browser.point("Pressed", x, y)
    for part in (0.3, 0.7, 1.0):
        use.browser.point("Moved", x + by * part, y)
        use.do("await wait(40);")
    if drops:
        use.browser.point("Released", x + by, y)
        use.do("await settle(); await wait(30);")


def key(use: Use, name: str, shift: bool = False) -> None:
    use.do(KEY.replace("KEY", json.dumps(name)).replace("SHIFT", json.dumps(shift)) + "await wait(20);")


def written(micros: int) -> str:
    return f"{datetime.fromtimestamp(micros / SECOND, timezone.utc):%Y-%m-%dT%H:%M:%SZ}"


def forecast_of(use: Use, nth: int) -> bytes:
    """What the Python package makes of the mission with a pass as it stands in the page now."""
    begin, end = spans(use)[nth]
    files = week_files()
    rows = files["passes.csv"].decode().splitlines()
    rows[1 + nth] = ",".join([rows[1 + nth].split(",")[0], written(begin), written(end)])
    return str(missions.said_by_package({**files, "passes.csv": "\n".join([*rows, ""]).encode()})["forecast"]).encode()


def as_typed(use: Use, what: str, nth: int) -> None:
    """Expects that all that is shown is of the mission with the pass where it is now, and of whole seconds."""
    use.expect(f"{what}: whole seconds", all(time % SECOND == 0 for time in spans(use)[nth]), spans(use)[nth])
    use.planned(what, use.state()["setup"], forecast_of(use, nth))


def dragged(use: Use) -> None:
    """A pass of a mission is moved, and stretched at both ends; undone, and taken back."""
    start(use, "mars_week")
    use.do("for (let nth = 0; nth < 3; nth++) press('closer'); await wait(60);")
    first = spans(use)
    forecast = use.state()["forecast"]
    for what, point, ends in (("all", "middle", (0, 1)), ("begin", "left", (0,)), ("end", "right", (1,))):
        start(use, "mars_week")
        use.do("for (let nth = 0; nth < 2; nth++) press('closer'); await wait(60);")
        at = place(use, 0)
        offset = {"middle": 0, "left": 2, "right": -2}[point]
        micros = use.do("const [{ from, to }] = rudlayog.state.passes; return (to - from) / cell('pass 0 all')"
            ".getBoundingClientRect().width;")
        drag(use, [at[point][0] + offset, at[point][1]], -20 if point == "right" else 20)
        now = spans(use)
        by = [now[0][end] - first[0][end] for end in (0, 1)]
        wanted = (-20 if point == "right" else 20) * micros
        use.expect(f"{what}: moved by as much", all(abs(by[end] - wanted) < 3 * micros for end in ends), by, wanted)
        use.expect(f"{what}: nothing else", all(by[end] == 0 for end in (0, 1) if end not in ends)
            and now[1:] == first[1:], by)
        use.expect(f"{what}: one length", what != "all" or by[0] == by[1], by)
        as_typed(use, what, 0)
        use.do("press('undo'); await settle();")
        use.expect(f"{what}: undone at once", spans(use) == first and use.state()["forecast"] == forecast)
        use.do("press('redo'); await settle();")
        use.expect(f"{what}: done again", spans(use) == now)
        use.do("press('undo'); await settle();")
    at = place(use, 0)
    drag(use, at["middle"], 25, drops=False)
    use.expect("a drag is shown while it lasts", spans(use)[0] != first[0])
    key(use, "Escape")
    use.browser.point("Moved", at["middle"][0] + 60, at["middle"][1])
    use.browser.point("Released", at["middle"][0] + 60, at["middle"][1])
    use.do("await settle();")
    use.do("cell('pass 0 all').focus();")
    key(use, "ArrowRight")
    pushed = spans(use)
    drag(use, place(use, 0)["middle"], 25, drops=False)
    use.do("await wait(30);")
    moved = spans(use)[0][0] - pushed[0][0]
    use.expect("a drag begins where keys have moved the pass", abs(moved / micros - 25) < 3,
        moved / micros)
    key(use, "Escape")
    use.browser.point("Released", *at["middle"])
    use.expect("Escape takes back the drag alone", spans(use) == pushed, spans(use)[:1], pushed[:1])
    use.do("press('undo'); await settle();")
    use.expect("Escape takes a drag back", spans(use) == first and use.state()["forecast"] == forecast, spans(use)[:2])


def by_keys(use: Use) -> None:
    """Passes are moved by keys: by minutes, hours and seconds; and the next pass gets the focus."""
    start(use, "mars_week")
    first = spans(use)
    use.do("cell('pass 0 all').focus();")
    for name, shift, by in (("ArrowRight", False, MINUTE), ("ArrowLeft", True, -SECOND), ("PageUp", False, 60 * MINUTE),
        ("ArrowLeft", False, -MINUTE), ("PageDown", False, -60 * MINUTE)):
        before = spans(use)[0]
        key(use, name, shift)
        now = spans(use)[0]
        use.expect(f"{name}: moved", now == (before[0] + by, before[1] + by), before, now)
    use.do("await settle();")
    use.expect("keys: the focus stays", use.do("return document.activeElement.dataset.cell;") == "pass 0 all")
    as_typed(use, "keys", 0)
    key(use, "Escape")
    use.do("await settle();")
    use.expect("keys: Escape takes all of them back", spans(use) == first, spans(use)[0])
    use.do("cell('pass 0 end').focus();")
    key(use, "ArrowRight")
    use.expect("keys: the end alone", spans(use)[0] == (first[0][0], first[0][1] + MINUTE), spans(use)[0])
    use.do("press('undo'); await settle(); cell('pass 0 all').focus();")
    key(use, "ArrowDown")
    use.expect("keys: the next pass", use.do("return document.activeElement.dataset.cell;") == "pass 1 all")
    said = use.do("return [document.activeElement.getAttribute('aria-label'), "
        "document.activeElement.getAttribute('aria-valuetext'), at('told').textContent];")
    words = "Pass 2, Malargue, 03 Mar 14:25 to 20:25 UTC: 291.6 MB at most, 108 kbit/s; 291.6 sent: "
    use.expect("a pass is told", said[0] == "pass 2, Malargue" and said[1] == said[2] and said[1].startswith(words),
        said)


def beside_others(use: Use) -> None:
    """A pass goes no further than the next one that it may not meet, and past it where the pointer does."""
    start(use, "mars_week")
    first = spans(use)
    use.do("cell('pass 0 end').focus();")
    for _ in range(9):
        key(use, "PageUp")
    use.expect("an end stops at the next pass", spans(use)[:2] == [(first[0][0], first[1][0]), first[1]],
        spans(use)[:3])
    use.do("press('undo'); await settle();")
    use.expect("as it was", spans(use) == first)
    at = place(use, 0)
    drag(use, at["middle"], 17.5 * 60 * MINUTE / at["micros"])
    now = spans(use)
    use.expect("a pass that is moved past another comes after it", now[0] == first[1] and now[2] == first[2]
        and first[1][1] < now[1][0] < now[1][1] < first[2][0], now[:3])
    use.expect("the focus goes with it", use.do("return document.activeElement.dataset.cell;") == "pass 1 all",
        use.do("return document.activeElement.dataset.cell;"))


def with_steps_alone(use: Use, setup: bytes, forecast: bytes) -> None:
    """Passes that were found in windows go by whole steps, with a clock and without one."""
    for begins in ("", "2026-11-27 06:00"):
        start(use)
        if begins:
            clock(use, begins)
        rows = forecast.decode().split("\n")
        windows = [row.split(",")[1] for row in rows[1:-1]]
        use.do("cell('pass 0 all').focus();")
        key(use, "ArrowRight")
        moved = forecast
        for step in range(7, 13):
            moved = with_cell(moved, step, 2, "0" if step == 7 else windows[step - 2])
        use.planned(f"steps {begins}: moved", setup, moved)
        key(use, "Escape")
        use.planned(f"steps {begins}: taken back", setup, forecast)
        use.do("cell('pass 0 end').focus();")
        key(use, "ArrowLeft")
        use.planned(f"steps {begins}: shorter", setup, with_cell(forecast, 11, 2, "0"))
        key(use, "Escape")
        use.do("cell('pass 0 begin').focus();")
        key(use, "ArrowLeft")
        use.planned(f"steps {begins}: longer", setup, with_cell(forecast, 6, 2, windows[6]))
        key(use, "Escape")
        use.planned(f"steps {begins}: as it was", setup, forecast)


def typed_first(use: Use) -> None:
    """A pass of which something cannot be read stays where it is, with what was typed."""
    start(use, "mars_week")
    first = spans(use)
    use.type("pass 0 rate", "fast")
    use.do("await settle(); cell('pass 0 all').focus();")
    key(use, "ArrowRight")
    said = use.do("return [rudlayog.state.passes[0].bad, at('told').textContent];")
    use.expect("a pass that cannot be read is not moved", spans(use) == first and said[0] == {"rate": "fast"}
        and said[1].startswith("A cell of it cannot be read, so it is not moved. Pass 1, New Norcia"), said)


def dragging(browser: Browser, page: str) -> tuple[int, list[str]]:
    """How many expectations there were, and those that did not hold."""
    use = Use(browser, page)
    dragged(use)
    by_keys(use)
    beside_others(use)
    with_steps_alone(use, (FOLDER / "setup.toml").read_bytes(), (FOLDER / "forecast.csv").read_bytes())
    typed_first(use)
    return use.count, use.found
