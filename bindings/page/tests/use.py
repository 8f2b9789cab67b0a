"""The page as a planner uses it. After each step what it holds and shows must be what the program prints for texts that
are changed here, without the page."""

from __future__ import annotations

import base64
import json
import re
import tempfile
import time
from collections.abc import Sequence
from itertools import accumulate
from pathlib import Path
from typing import Any

from browsers import Browser, Chromium
from cases import TOP
from compare import base64_of, ready
from program import IN_ORDER, PLAN, WORTH, text

HELPERS = """
const at = id => document.getElementById(id), { rudlayog } = window;
const written = octets =>
  { let text = ""; for (let at = 0; at < octets.length; at += 32768) text += String.fromCharCode(
  ...octets.subarray(at, at + 32768)); return btoa(text); };
const wait = ms => new Promise(done => setTimeout(done, ms));
const settle = async () => { do await wait(15); while (rudlayog.state.isBusy); };
const cell = name => document.querySelector(`[data-cell="${name}"]`);
const type = (input, value) => { input.focus(); input.value = value;
  input.dispatchEvent(new Event("input", { bubbles: true })); };
const press = id => at(id).click();
const answer = words => [...document.querySelectorAll("#question[open] button")].find(
  it => it.textContent === words)?.click();
"""
STATE = """
await settle();
for (let turn = 0; turn < 3000 && !(at("chart").complete && at("chart").naturalWidth > 0); turn++) await wait(10);
const { state } = rudlayog, octets = it => (it ? written(it) : null);
return JSON.stringify({ said: at("said").textContent, line: at("line").textContent, more: at("more").textContent,
  expected: at("expected").textContent, before: at("before").textContent,
  note: at("note").textContent, box: at("verdict").className, isJudged: !at("judging").hidden, isDrawn:
  at("chart").complete && at("chart").naturalWidth > 0, alt: at("chart").alt,
  bad: [...document.querySelectorAll("[aria-invalid=true]")].map(it => it.dataset.cell),
  setup: octets(state.setup), forecast: octets(state.forecast), given: octets(state.given), plan: octets(state.plan),
  chart: octets(state.drawn), table: octets(state.table), worths: octets(state.worths), shaded: octets(state.shaded),
  isInBlocks: !at("in-units").checked, isInOrder: at("in-order").checked, isStill: at("in-order").disabled,
    isOrdered: !document.body.classList.contains("unordered"),
    losses: [...at("losses").children].map(it => it.textContent),
  stores: [...at("stores").tBodies[0].rows].map(row =>
    [...row.cells].map(it => it.firstElementChild?.value ?? it.textContent)),
    all: [...at("stores").tFoot.rows[0].cells].map(it => it.textContent),
  passes: [...at("passes").tBodies[0].rows].map(row =>
    [...row.cells].map(it => it.firstElementChild?.value || it.textContent)) });
"""


def with_cell(forecast: bytes, step: int, column: int, value: str) -> bytes:
    """A forecast with another cell; both count from 1, and column 2 is the window."""
    lines = forecast.decode().split("\n")
    words = lines[step].split(",")
    words[column - 1] = value
    lines[step] = ",".join(words)
    return "\n".join(lines).encode()


def records(table: bytes) -> list[list[str]]:
    return [line.split(",") for line in table.decode().split("\n")[1:-1]]


def plain(number: str) -> int:
    return int(re.sub(r"[, ]|\(.*\)", "", number) or 0)


class Use:
    """A browser with the page, and how many expectations did not hold."""

    def __init__(self, browser: Browser, page: str) -> None:
        self.browser, self.page, self.count, self.found = browser, page, 0, list[str]()
        # What the program is asked for: how it plans, and how it draws.
        self.plan, self.chart = PLAN, "chart"
        ready(browser, page)

    def do(self, script: str) -> Any:
        return self.browser.run(f"{HELPERS}{script}")

    def expect(self, what: str, holds: bool, *more: object) -> None:
        self.count += 1
        if not holds:
            self.found.append(f"{what} {more}")

    def state(self) -> dict[str, Any]:
        said: dict[str, Any] = json.loads(self.do(STATE))
        for name in ("setup", "forecast", "given", "plan", "chart", "table", "worths", "shaded"):
            said[name] = base64.b64decode(said[name]) if said[name] is not None else None
        return said

    def drop(self, *files: tuple[str, bytes]) -> None:
        """Drops files on the page."""
        given = json.dumps([[name, base64_of(octets)] for name, octets in files])
        self.do(
            f"const {{ taken }} = rudlayog.state, data = new DataTransfer(); for (const [name, text] of {given}) "
            f"data.items.add(new File([Uint8Array.from(atob(text), it => it.charCodeAt(0))], name));"
            "document.body.dispatchEvent(new DragEvent('drop', { dataTransfer: data, bubbles: true, cancelable: true "
            "})); while (rudlayog.state.taken === taken) {{ answer('Go on without a file'); await wait(10); }}"
        )

    def type(self, cell: str, value: str) -> None:
        self.do(f"type(cell({json.dumps(cell)}), {json.dumps(value)});")

    def press(self, found: str, key: str = " ") -> None:
        """Presses a button or a switch, by a key where the browser lets a test do so."""
        self.do(f"document.querySelector({json.dumps(found)}).focus();")
        if isinstance(self.browser, Chromium):
            self.browser.key(key)
        else:
            self.do("document.activeElement.click();")

    def planned(self, what: str, setup: bytes, forecast: bytes, judged: bytes = b"") -> dict[str, Any]:
        """Expects that all that is shown is what the program prints for these texts."""
        said = self.state()
        plan = judged or text(self.plan, setup, forecast)
        for name, wanted in (("setup", setup), ("forecast", forecast), ("given", judged), ("plan", plan)):
            self.expect(f"{what}: {name}", said[name] == wanted, said[name][:300] if said[name] else None)
        self.expect(f"{what}: line", said["line"] == text("check", setup, forecast, plan).decode().strip(),
            said["line"])
        for name, task in (("chart", self.chart), ("table", "table")):
            self.expect(f"{what}: {name}", said[name] == text(task, setup, forecast, plan))
        if not judged:
            self.expect(f"{what}: the order", said["isInOrder"] == said["isOrdered"] == (self.plan == IN_ORDER),
                said["isInOrder"], said["isOrdered"])
        self.expect(f"{what}: drawn", said["isDrawn"])
        if said["isInBlocks"]:
            self.added_up(what, said)
        return said

    def added_up(self, what: str, said: dict[str, Any]) -> None:
        """Expects that what the page adds up are the sums of the program's table."""
        rows = records(said["table"])
        sums = {"arrives": 3, "lost": 4, "sent": 5}
        for store in said["stores"]:
            own = [row for row in rows if row[2] == store[0]]
            wanted = [sum(int(row[sums[name]]) for row in own) for name in ("arrives", "sent", "lost")]
            wanted += [int(own[-1][6]), max(int(row[6]) for row in own)]
            self.expect(f"{what}: sums of {store[0]}", [plain(it) for it in store[6:9] + store[10:]] == wanted, store,
                wanted)
        if said["isOrdered"] and said["box"] == "least":
            self.in_order(what, said)
        for cells in said["passes"]:
            steps = [int(it) for it in cells[1].split(" to ")]
            own = [row for row in rows if steps[0] <= int(row[0]) <= steps[-1]]
            self.expect(f"{what}: sent in pass {cells[1]}", plain(cells[8]) == sum(int(row[5]) for row in own), cells)
            by_store = [sum(int(row[5]) for row in own if row[2] == store[0]) for store in said["stores"]]
            self.expect(f"{what}: sent by store in pass {cells[1]}", [plain(it) for it in cells[12:]] == by_store,
                cells)

    def in_order(self, what: str, said: dict[str, Any]) -> None:
        """Expects that what the first stores are said to lose are the plan's certificates and the sums of the table,
        and a sentence for each that loses."""
        whole, *firsts = map(int, re.findall(rb"^loss (\d+)$", said["plan"], re.M))
        lost = [plain(store[8]) for store in said["stores"]]
        shown = [plain(store[9]) for store in said["stores"]]
        self.expect(f"{what}: what the first stores lose", shown == [*firsts, whole] == list(accumulate(lost)), shown,
            firsts, lost)
        begins = [f"{store[0]} loses {store[8]}" for store in said["stores"] if plain(store[8])]
        self.expect(f"{what}: why stores lose", [re.split(", |: ", it)[0] for it in said["losses"]] == begins,
            said["losses"], begins)


def edits(use: Use, setup: bytes, forecast: bytes) -> None:
    """Windows, arrivals, sizes, starts and limits; what cannot be read; and undo."""
    use.drop(("setup.toml", setup), ("forecast.csv", forecast))
    said = use.planned("dropped", setup, forecast)
    use.expect("dropped: said", said["said"] == "26,260 blocks are lost, and no plan that fits loses fewer",
        said["said"])
    use.expect("dropped: words of the chart", said["alt"].startswith(
        "26,260 of 874,394 blocks are lost, and no plan loses fewer"), said["alt"])
    use.do("press('keep');")
    other = with_cell(forecast, 90, 2, "0")
    use.type("90 1", "0")
    said = use.planned("a window", setup, other)
    use.expect("a window: more", re.fullmatch(r"[\d,]+ more than the reference, 26,260", said["more"]) is not None,
        said["more"])
    more = with_cell(other, 100, 7, "123")
    use.type("100 6", "123")
    use.planned("what arrives", setup, more)
    sized = setup.replace(b"size = 10000\n", b"size = 20000\n", 1)
    use.type("store 0 size", "20000")
    use.planned("a size", sized, more)
    started = sized.replace(b"size = 4000\n", b"size = 4000\nstart = 7\n", 1)
    use.type("store 1 start", "7")
    use.planned("a start", started, more)
    limited = started.replace(b"blocks = 2400", b"blocks = 1200")
    use.type("limit 0 blocks", "1200")
    use.planned("a limit", limited, more)
    for cell, typed, line, mark in (
        ("7 1", "1x", "refused 31 Cell row 7 column 2", ["7 1"]),
        ("7 1", '1,"', "refused 31 Cell row 7 column 2", ["7 1"]),
        ("8 3", "1000001", "refused 33 Limit name arrivals", ["8 3"]),
        ("store 2 size", "0", "refused 33 Limit name size", ["store 2 size"]),
        ("store 2 size", "", "refused 28 SetupField row 3 name size", ["store 2 size"]),
        ("store 2 size", "4x", "refused 28 SetupField row 3 name size", ["store 2 size"]),
        ("limit 0 blocks", "-1", "refused 33 Limit name blocks", ["limit 0 blocks"]),
    ):
        was = use.do(f"return cell({json.dumps(cell)}).value;")
        use.type(cell, typed)
        said = use.state()
        use.expect(f"{typed} in {cell}", (said["line"], said["bad"], said["box"]) == (line, mark, "refused"),
            said["line"], said["bad"], said["expected"])
        use.expect(f"{typed} in {cell} stays", use.do(f"return cell({json.dumps(cell)}).value;") == typed)
        use.type(cell, was)
        use.planned(f"{cell} mended", limited, more)
    use.do("for (let turn = 0; turn < 30 && !at('undo').disabled; turn++) press('undo');")
    for _ in range(30):
        use.do("if (!at('redo').disabled) press('redo');")
    use.planned("all undone and done again", limited, more)
    use.do("press('back');")
    use.planned("back", setup, forecast)
    use.do("press('undo');")
    use.planned("back undone", limited, more)
    use.do("press('redo');")


def passes(use: Use, setup: bytes, forecast: bytes) -> None:
    """What a pass is worth, one that is cancelled, one more, names, times, and the rest from a step on."""
    use.do("await settle(); for (let turn = 0; turn < 900 && at('passes').dataset.worth !== 'known'; turn++) await "
        "wait(20);")
    worth = [cells[10] for cells in use.state()["passes"]]
    use.do("document.querySelectorAll('[data-act^=cancel]')[4].click();")
    lacking = forecast
    for step in range(79, 84):
        lacking = with_cell(lacking, step, 2, "0")
    said = use.planned("a pass cancelled", setup, lacking)
    use.expect("a pass cancelled: worth", said["more"] == f"{worth[4]} more than the reference, 26,260", said["more"],
        worth)
    use.do("press('undo');")
    use.type("pass 0 station", "Kiruna")
    use.do(
        "at('begins').value = '2026-11-27 06:00'; at('begins').dispatchEvent(new Event('input', { bubbles: true }));")
    said = use.planned("names and times", setup, forecast)
    use.expect("names and times: the first pass",
        said["passes"][0][1:5] == ["7 to 11", "27 Nov 12:00", "27 Nov 17:00", "Kiruna"], said["passes"][0])
    # 30 minutes of step 14 and 45 of step 15, at 900 blocks an hour.
    use.do(
        "const form = at('pass'); form.station.value = 'Redu'; form.from.value = '2026-11-27 19:30'; form.to.value = "
        "'2026-11-27 20:45'; form.rate.value = '900'; form.requestSubmit();"
    )
    more = with_cell(with_cell(forecast, 14, 2, "450"), 15, 2, "675")
    said = use.planned("a pass more", setup, more)
    use.expect("a pass more: its row", said["passes"][1][1:8] == ["14 to 15", "2026-11-27 19:30",
        "2026-11-27 20:45", "Redu", "900 blocks/h", "Cancel", "1,125"], said["passes"][1])
    table = records(said["table"])
    use.do("at('step').value = '61'; press('rest');")
    held = {row[2]: row[6] for row in table if row[0] == "60"}
    rest, nth = [], ""
    for line in setup.decode().split("\n"):
        nth = re.sub(r'^id = "(\w+)"$', r"\1", line) if line.startswith("id") else nth
        if not line.startswith("start ="):
            rest.append(line)
        if line.startswith("start ="):
            rest.append(f"start = {held[nth]}")
        elif line.startswith("size =") and f'id = "{nth}"' in setup.decode() and not has_start(setup.decode(), nth):
            rest.append(f"start = {held[nth]}")
    lines = more.decode().split("\n")
    later = [lines[0], *(f"{step - 60},{lines[step].split(',', 1)[1]}" for step in range(61, 257)), ""]
    said = use.planned("the rest", "\n".join(rest).encode(), "\n".join(later).encode())
    lost = sum(int(row[4]) for row in table if int(row[0]) <= 60)
    total = lost + int(said["line"].split()[1])
    use.expect("the rest: before", said["before"] == f"In the 60 steps before, {lost:,} were lost: {total:,} in all.",
        said["before"])
    use.expect("the rest: times", said["passes"][0][2] == "30 Nov 12:00", said["passes"][0])
    for _ in range(4):
        use.do("press('undo');")
    use.planned("undone", setup, forecast)


SHOWN = """
const isSeen = it => it.offsetParent !== null, cells = place =>
  [...at("grid").tBodies[0].rows].map(row => row.cells[place].textContent);
return JSON.stringify(
  { isSeen: ["worths", "held-worth"].map(at)
  .concat([at("grid").tHead.rows[0].cells[3], at("grid").tBodies[0].rows[7].cells[3]]).map(isSeen),
  asked: at("asked").textContent, held: at("held-worth").textContent, caption: at("worths").caption.textContent, tab:
  at("worths").parentElement.tabIndex,
  rows: [...at("worths").tBodies[0].rows].map(row => [...row.cells].map(it => it.textContent)),
    windows: [cells(3), cells(4)] });
"""


def worths(use: Use, setup: bytes, forecast: bytes) -> None:
    """What each number is worth: asked for by the button, hidden by a change, and there again once that is undone."""
    said = json.loads(use.do(SHOWN))
    use.expect("worth: not asked", not any(said["isSeen"]) and not said["asked"], said["isSeen"], said["asked"])
    use.press("#ask")
    use.do("for (let turn = 0; turn < 6000 && !rudlayog.state.worths; turn++) await wait(20);")
    wanted = text("sensitivity", setup, forecast)
    use.expect("worth: the program's", use.state()["worths"] == wanted)
    rows = records(wanted)
    windows, others = [row for row in rows if row[0] == "window"], [row for row in rows if row[0] != "window"]
    step = next(int(row[2]) for row in windows if int(row[3]) and int(row[5]) > 1 and int(row[6]) > 1)
    use.do(f"cell('{step} 1').dispatchEvent(new FocusEvent('focusin', {{ bubbles: true }}));")
    said = json.loads(use.do(SHOWN))
    use.expect("worth: shown", all(said["isSeen"]), said["isSeen"])
    use.expect("worth: by keys", (said["caption"], said["tab"]) == ("What sizes and limits are worth, in blocks", 0),
        said["caption"], said["tab"])
    use.expect("worth: windows", [[plain(it) for it in cells] for cells in said["windows"]] == [
        [int(row[column]) for row in windows] for column in (4, 5)])
    names = [f"size of {row[1]}" if row[0] == "size" else f"limit of channel {row[1]}" for row in others]
    use.expect("worth: sizes and limits", [[row[0], *map(plain, row[1:5])] for row in said["rows"]] == [
        [name, *map(int, row[3:])] for name, row in zip(names, others)], said["rows"])
    _, _, _, _, _, most, without = windows[step - 1]
    words = (
        f"Step {step}: One block more in this window saves 1 block, and up to {int(most):,} in all; without this "
        f"window {int(without):,} more are lost."
    )
    use.expect("worth: a window in words", said["held"] == words, said["held"], words)
    use.type("90 1", "0")
    use.expect("worth: after a change", use.state()["worths"] is None)
    said = json.loads(use.do(SHOWN))
    use.expect("worth: after a change, hidden", not any(said["isSeen"]) and said["asked"].startswith("Out of date"),
        said["isSeen"], said["asked"])
    use.do("press('undo');")
    use.expect("worth: undone", use.state()["worths"] == wanted and all(json.loads(use.do(SHOWN))["isSeen"]))
    use.planned("worth: asked", setup, forecast)


SHADED = "for (let turn = 0; turn < 6000 && !rudlayog.state.shaded; turn++) await wait(20);"


def shaded(use: Use, setup: bytes, forecast: bytes) -> None:
    """The chart whose windows are shaded by what they are worth: asked for by a switch, and plain after each change."""
    use.press("#shade")
    use.do(SHADED)
    use.chart = WORTH
    use.planned("shaded", setup, forecast)
    use.expect("shaded: said", re.search(r"The shaded chart took [\d.]+ s\.$",
        said := json.loads(use.do(SHOWN))["asked"]) is not None, said)
    use.press("#shade")
    use.chart = "chart"
    use.planned("shaded no more", setup, forecast)
    use.press("#shade")
    use.chart = WORTH
    use.planned("shaded as before", setup, forecast)
    use.type("90 1", "0")
    use.chart = "chart"
    use.planned("shaded: after a change, plain", setup, with_cell(forecast, 90, 2, "0"))
    use.do("press('undo');")
    use.chart = WORTH
    use.planned("shaded: undone", setup, forecast)
    use.press("#in-order")
    use.plan, use.chart = IN_ORDER, "chart"
    use.planned("shaded: another plan, plain", setup, forecast)
    use.press("#ask")
    use.do(SHADED)
    use.chart = WORTH
    use.planned("shaded: another plan, asked again", setup, forecast)
    use.do("press('undo');")
    use.press("#shade")
    use.plan, use.chart = PLAN, "chart"
    use.planned("shaded: the switch is off", setup, forecast)


def moved_down(setup: bytes, forecast: bytes, nth: int) -> tuple[bytes, bytes]:
    """The mission in which a store has changed places with the next one. The first line is a comment."""
    first, rest = setup.decode().split("\n", 1)
    tables, rows = rest.split("\n\n"), [line.split(",") for line in forecast.decode().split("\n")]
    for row, at in ((tables, nth), *((row, nth + 2) for row in rows if len(row) > 1)):
        row[at], row[at + 1] = row[at + 1], row[at]
    return "\n".join([first, "\n\n".join(tables)]).encode(), "\n".join(map(",".join, rows)).encode()


def in_order(use: Use, setup: bytes, forecast: bytes) -> None:
    """A plan that serves the stores in order, and stores that are moved."""
    use.planned("before the order", setup, forecast)
    use.press("#in-order")
    use.plan = IN_ORDER
    said = use.planned("in order", setup, forecast)
    words = (
        "26,260 blocks are lost, and no plan that fits loses fewer, nor does any lose fewer of the first stores, "
        "however many"
    )
    use.expect("in order: said", (said["said"], said["box"]) == (words, "least"), said["said"], said["box"])
    other = with_cell(forecast, 90, 2, "0")
    use.type("90 1", "0")
    use.planned("in order: a window", setup, other)
    use.do("press('undo');")
    texts = setup, forecast
    for press, nth, key, focus in (("down 8", 8, "Enter", "up 9"), ("up 9", 8, " ", "up 8"),
        ("up 8", 7, "Enter", "up 7"), ("down 0", 0, " ", "down 1")):
        texts = moved_down(*texts, nth)
        use.press(f"[data-act='{press}']", key)
        said = use.planned(f"moved {press}", *texts)
        held = use.do("return [document.activeElement.dataset.act, document.activeElement.getAttribute('aria-label')];")
        way, place = focus.split()
        use.expect(f"moved {press}: the focus", held == [focus, f"Move {said['stores'][int(place)][0]} {way}"], held)
        use.expect(f"moved {press}: said", said["note"] == f"{said['stores'][int(place)][0]} is store {int(place) + 1} "
            f"of 10 now.", said["note"])
    for _ in range(4):
        use.do("press('undo');")
    use.planned("moved back by undo", setup, forecast)
    use.do("press('undo');")
    use.plan = PLAN
    use.planned("the order undone", setup, forecast)
    use.do("press('redo');")
    use.plan = IN_ORDER
    use.planned("the order again", setup, forecast)
    use.do("press('in-order');")
    use.plan = PLAN
    marked = (
        "\ufeff# all\r\n[[store]] # one\r\nid = \"A\"\r\nsize = 4\r\ntype = \"bounded\"\r\nchannel = 0\r\n\r\n# of "
        "B\r\n[[store]]\r\nid = \"B\"\r\nsize = 5\r\ntype = \"circular\"\r\nchannel = 1"
    )
    swapped = (
        "\ufeff# all\r\n# of B\r\n[[store]]\r\nid = \"B\"\r\nsize = 5\r\ntype = \"circular\"\r\nchannel = "
        "1\r\n\r\n[[store]] # one\r\nid = \"A\"\r\nsize = 4\r\ntype = \"bounded\"\r\nchannel = 0\r\n"
    )
    use.drop(("setup.toml", marked.encode()), ("forecast.csv", b"step,window,A,B\r\n1,2,30,40\r\n"))
    use.press("[data-act='up 1']")
    use.planned("moved with comments", swapped.encode(), b"step,window,B,A\r\n1,2,40,30\r\n")
    use.drop(("setup.toml", setup), ("forecast.csv", forecast))


def has_start(setup: str, name: str) -> bool:
    """Whether the table of a store has a start."""
    own = setup.split(f'id = "{name}"')[1].split("[[")[0]
    return "\nstart =" in own


def judged(use: Use, setup: bytes, forecast: bytes) -> None:
    """Plans that are given: the example's, one that sends too much, one whose loss is wrong, one for another
    problem."""
    plan = (TOP / "examples" / "mission" / "plan.txt").read_bytes()
    for what, given in (("given", plan), ("too much", plan.replace(b"dump 1 0", b"dump 1 5")),
        ("a wrong loss", plan.replace(b"loss 26260", b"loss 26259"))):
        use.drop(("plan.txt", given))
        said = use.planned(what, setup, forecast, given)
        use.expect(f"{what}: said", said["isJudged"] and said["box"] == ("least" if what == "given" else "wrong"),
            said["box"])
    use.drop(("plan.txt", (TOP / "examples" / "first_run" / "plan.txt").read_bytes()))
    use.expect("another plan", use.state()["line"] == "refused 35 Shape", use.state()["line"])
    use.do("press('anew');")
    use.planned("anew", setup, forecast)
    third = text(IN_ORDER, setup, forecast)
    use.drop(("plan.txt", third))
    said = use.planned("given in order", setup, forecast, third)
    use.expect("given in order: said", said["isOrdered"] and said["isStill"] and said["box"] == "least"
        and said["said"].endswith("however many"), said["said"])
    other = re.sub(rb"(\nfirst 3\nloss )\d+", rb"\g<1>999999", third)
    use.drop(("plan.txt", other))
    said = use.planned("first not shown", setup, forecast, other)
    words = (
        "No plan that fits loses fewer blocks; but what the plan says of its first 3 stores does not show that none "
        "loses fewer of them"
    )
    use.expect("first not shown: said", (said["line"], said["said"], said["box"]) == (
        "first 3 not shown", words, "wrong"), said["said"], said["line"])
    whole, *firsts = map(int, re.findall(rb"^loss (\d+)$", third, re.M))
    shown = [store[9] for store in said["stores"]]
    use.expect("first not shown: the stores", shown == [
        f"{firsts[0]:,}", f"{firsts[1]:,}", *["not shown"] * 7, f"{whole:,}"], shown)
    use.do("press('anew');")
    use.planned("anew again", setup, forecast)


def columns(use: Use, setup: bytes, forecast: bytes) -> None:
    """What the columns of the steps show, a step that is pressed on the chart, and the texts."""
    table = records(text("table", setup, forecast, text("plan", setup, forecast)))
    steps = int(table[-1][0])
    for what, column in (("dumped", 5), ("held", 6), ("lost", 4)):
        use.do(f"document.querySelector('[data-shows={what}]').click();")
        shown = use.do("return [...at('grid').tBodies[0].rows].map(row => [...row.cells].slice(7).map(it => "
            "it.textContent.replaceAll(',', '')));")
        use.expect(f"the column {what}", shown == [
            [row[column] for row in table if int(row[0]) == step] for step in range(1, steps + 1)])
    for step in (1, 60, 175, 256):
        found = use.do(
            f"const image = at('chart'); image.scrollIntoView(); const box = image.getBoundingClientRect(), x = 181 + "
            f"({step} - 1) * 3;"
            "image.dispatchEvent(new MouseEvent('click', { bubbles: true, clientX: "
            "Math.round(box.left + box.width * x / 1100), "
            "clientY: box.top + 5 })); return document.querySelector('#grid .at')?.cells[0].textContent;"
        )
        use.expect(f"step {step} on the chart", found == str(step), found)
    use.do("document.querySelector('[data-shows=arrived]').click();")
    small = (b'[[store]]\nid = "SCI"\nsize = 4\ntype = "bounded"\nchannel = 0\n',
        b'step,window,SCI\r\n1,2,3\r\n2,"2",3\r\n3,0,4\r\n')
    for name, octets in zip(("setup", "forecast"), small):
        use.do(f"document.querySelector('details').open = true; type(at('{name}'), {json.dumps(octets.decode())});")
    # A text area has line feeds alone.
    use.planned("typed as texts", small[0], small[1].replace(b"\r\n", b"\n"))
    use.drop(("setup.toml", small[0]), ("forecast.csv", small[1]))
    use.planned("a quoted cell", *small)
    use.type("3 2", "9")
    use.planned("a quoted cell, edited", small[0], b"step,window,SCI\r\n1,2,3\r\n2,2,3\r\n3,0,9\r\n")
    use.drop(("setup.toml", setup), ("forecast.csv", forecast))


def reloaded(use: Use, setup: bytes, forecast: bytes) -> None:
    """What is typed outlives a reload, and a warning comes before it is left."""
    browser = use.browser
    more = with_cell(forecast, 5, 2, "77")
    use.planned("before the reload", setup, forecast)
    use.do("at('begins').value = '2026-11-27 06:00'; at('begins').dispatchEvent(new Event('input', { bubbles: true "
        "})); cell('5 1').focus(); cell('5 1').select();")
    if isinstance(browser, Chromium):
        for key in ("7", "7"):
            browser.key(key)
    else:
        use.type("5 1", "77")
    use.planned("keys", setup, more)
    use.press("#in-order")
    use.plan = IN_ORDER
    use.press("[data-act='down 4']", "Enter")
    moved = moved_down(setup, more, 4)
    use.planned("keys, in order", *moved)
    use.do("await wait(500);")
    if isinstance(browser, Chromium):
        use.expect("no faults in the console", not (found := browser.faults()), found)
    ready(browser, use.page)
    if isinstance(browser, Chromium):
        use.expect("a warning before what was typed is left", browser.dialogs() == ["beforeunload"], browser.dialogs())
    use.planned("reloaded, in order", *moved)
    use.expect("reloaded: the clock", use.do("return at('begins').value;") == "2026-11-27 06:00")
    use.drop(("setup.toml", setup), ("forecast.csv", forecast))


def keyboard(use: Use, browser: Chromium, setup: bytes, forecast: bytes) -> None:
    """The table by keys alone, and Ctrl+Z."""
    use.planned("before keys", setup, forecast)
    use.do("cell('1 1').focus();")
    for key in ("ArrowDown", "ArrowDown", "ArrowRight", "ArrowUp", "ArrowLeft", "ArrowDown", "Enter"):
        browser.key(key)
    use.expect("the arrow keys", use.do("return document.activeElement.dataset.cell;") == "4 1",
        use.do("return document.activeElement.dataset.cell;"))
    use.expect("one cell by Tab", use.do("return [...document.querySelectorAll('#grid input')].filter(it => "
        "it.tabIndex === 0).map(it => it.dataset.cell);") == ["4 1"])
    for key in "55":
        browser.key(key)
    use.planned("keys in a cell", setup, with_cell(forecast, 4, 2, "55"))
    browser.key("z", 2)
    use.planned("Ctrl+Z", setup, forecast)
    browser.key("z", 2 + 8)
    use.planned("Ctrl+Shift+Z", setup, with_cell(forecast, 4, 2, "55"))
    browser.key("z", 2)
    unnamed = use.do(
        "return [...document.querySelectorAll('input, button, select, textarea')].filter(it => it.offsetParent && "
        "!(it.getAttribute('aria-label') || it.labels?.length || it.textContent.trim())).map(it => it.outerHTML);"
    )
    use.expect("a name for each control", not unnamed, unnamed[:3])


def saved(use: Use, browser: Chromium, setup: bytes, forecast: bytes) -> None:
    """Files that are saved, and one that is opened again."""
    use.do("at('begins').value = '2026-11-27 06:00'; at('begins').dispatchEvent(new Event('input', { bubbles: true "
        "})); press('in-order');")
    use.plan = IN_ORDER
    use.press("[data-act='down 4']", "Enter")
    setup, forecast = moved_down(setup, forecast, 4)
    use.planned("before saving", setup, forecast)
    plan = text(IN_ORDER, setup, forecast)
    wanted = {"plan.txt": plan, "chart.svg": text("chart", setup, forecast, plan),
        "table.csv": text("table", setup, forecast, plan), "setup.toml": setup, "forecast.csv": forecast}
    with tempfile.TemporaryDirectory() as folder:
        browser.downloads(folder)
        for which in ("plan", "chart", "table", "setup", "forecast", "session"):
            use.do(f"document.querySelector('[data-saves={which}]').click(); await wait(250);")
        for _ in range(40):
            if len([it for it in Path(folder).iterdir() if not it.name.endswith(".crdownload")]) == len(wanted) + 1:
                break
            time.sleep(0.1)
        for name, octets in wanted.items():
            file = Path(folder, name)
            use.expect(f"saved {name}", file.exists() and file.read_bytes() == octets)
        session = Path(folder, "rudlayog.json")
        use.expect("saved rudlayog.json", session.exists())
        whole = session.read_bytes() if session.exists() else b""
    use.drop(("setup.toml", (TOP / "examples" / "tight" / "setup.toml").read_bytes()),
        ("forecast.csv", (TOP / "examples" / "tight" / "forecast.csv").read_bytes()))
    use.do("press('in-order');")
    use.drop(("rudlayog.json", whole))
    use.planned("opened again, in order", setup, forecast)
    use.expect("opened again: the clock", use.do("return at('begins').value;") == "2026-11-27 06:00")
    use.drop(("broken.json", b'{"rudlayog": 2}'))
    use.expect("no session", "no file that this page saved" in use.state()["note"], use.state()["note"])
    use.planned("kept", setup, forecast)
    use.do("for (let turn = 0; turn < 5; turn++) press('undo');")
    use.plan = PLAN


def in_use(browser: Browser, page: str) -> tuple[int, Sequence[str]]:
    """How many expectations there were, and those that did not hold."""
    folder = TOP / "examples" / "mission"
    setup, forecast = (folder / "setup.toml").read_bytes(), (folder / "forecast.csv").read_bytes()
    use = Use(browser, page)
    edits(use, setup, forecast)
    passes(use, setup, forecast)
    worths(use, setup, forecast)
    shaded(use, setup, forecast)
    in_order(use, setup, forecast)
    judged(use, setup, forecast)
    columns(use, setup, forecast)
    if isinstance(browser, Chromium):
        keyboard(use, browser, setup, forecast)
        saved(use, browser, setup, forecast)
    reloaded(use, setup, forecast)
    if isinstance(browser, Chromium):
        use.expect("no faults in the console", not (found := browser.faults()), found)
    return use.count, use.found
