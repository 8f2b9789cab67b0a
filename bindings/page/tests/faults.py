"""What once was wrong in the page, each tried as a planner met it: work that was lost, answers of other sessions,
stations and times of passes, texts that are valid, and texts that are too long."""

from __future__ import annotations

import json
import tempfile
import time
from pathlib import Path

import missions
from browsers import Browser
from cases import TOP
from compare import ready
from program import text
from use import Use, records, with_cell

GO_ON, STAY = "Go on without a file", "Stay here"
FOLDER = TOP / "examples" / "mission"
OPEN = (
    "const it = at('example'); it.value = NAME; it.dispatchEvent(new Event('change', { bubbles: true })); await "
    "wait(60); "
)
LEAVE = (
    "const leaving = new Event('beforeunload', { cancelable: true }); window.dispatchEvent(leaving); return "
    "leaving.defaultPrevented;"
)
KEPT = (
    "press('close'); await wait(60); answer('Go on without a file'); await wait(120); return "
    "[...at('kept-list').tBodies[0].rows].map(row => [...row.cells].slice(1, 3).map(it => it.textContent));"
)
LAST_SAVED = (
    "for (let turn = 0; turn < 400 && rudlayog.saved.filter(it => it.type === TYPE).length === BEFORE; turn++) await "
    "wait(20); return rudlayog.saved.filter(it => it.type === TYPE).at(-1).text();"
)


def example(use: Use, name: str) -> None:
    use.do(OPEN.replace("NAME", json.dumps(name)) + "await settle();")


def start(use: Use, name: str = "mission") -> None:
    """A page as it comes, with an example: nothing is kept in the browser."""
    use.do("window.addEventListener('pagehide', () => { localStorage.clear(); sessionStorage.clear(); });")
    ready(use.browser, use.page)
    use.do("localStorage.clear(); sessionStorage.clear();")
    example(use, name)


def asked(use: Use) -> bool:
    return bool(use.do("await wait(60); return !!document.querySelector('#question[open]');"))


def work_is_kept(use: Use, setup: bytes, forecast: bytes) -> None:
    """What was typed is asked for before it is left, stays in the list, and outlives a reload."""
    start(use)
    use.expect("an example alone is left without a question", not use.do(LEAVE))
    typed = with_cell(forecast, 90, 2, "17")
    use.type("90 1", "17")
    use.expect("what is typed is warned of", use.do(LEAVE))
    use.do(OPEN.replace("NAME", "'tight'"))
    use.expect("another example asks", asked(use))
    use.do(f"answer('{STAY}'); await settle();")
    use.planned("stayed", setup, typed)
    use.do(OPEN.replace("NAME", "'tight'") + f"answer('{GO_ON}'); await settle();")
    use.expect("another example is open", use.state()["setup"] == (TOP / "examples/tight/setup.toml").read_bytes())
    rows = use.do(KEPT)
    cards = use.do("return [...document.querySelectorAll('#cards .card')].map(it => it.dataset.example);")
    use.expect("examples on the start screen", cards == ["mars_week", "two_passes", "mission", "in_order"], cards)
    loss = text("check", setup, typed, text("plan", setup, typed)).decode().split()[1]
    use.expect("the list has what was typed, with its loss",
        [name for name, lost in rows if lost.replace(",", "") == loss] == ["mission"], rows, loss)
    use.do("[...document.querySelectorAll('[data-act^=kept-open]')].find(it => it.getAttribute('aria-label') === 'Open "
        "mission').click(); await wait(60); await settle();")
    use.planned("out of the list", setup, typed)
    use.expect("what comes out of the list is in no file", use.do(LEAVE))
    use.do("document.querySelector('[data-saves=session]').click(); await wait(300);")
    use.expect("what is in a file is left without a question", not use.do(LEAVE))
    use.expect("what was worked on stays in the list, also where it is in a file", ["mission"] == [
        name for name, _ in use.do(KEPT) if name == "mission"])
    use.do("[...document.querySelectorAll('[data-act^=kept-open]')].find(it => it.getAttribute('aria-label') === 'Open "
        "mission').click(); await wait(60); await settle();")
    use.expect("and once more", ["mission"] == [name for name, _ in use.do(KEPT) if name == "mission"])
    use.do("[...document.querySelectorAll('[data-act^=kept-open]')].find(it => it.getAttribute('aria-label') === 'Open "
        "mission').click(); await wait(60); await settle();")
    use.type("91 1", "5")
    use.do("await wait(500);")
    ready(use.browser, use.page)
    use.planned("after a reload", setup, with_cell(typed, 91, 2, "5"))
    use.expect("after a reload it is still in no file", use.do(LEAVE))


def tabs(use: Use, setup: bytes, forecast: bytes) -> None:
    """Two tabs with one session: neither writes over the other."""
    start(use)
    use.type("90 1", "11")
    use.do("await settle(); await wait(500);")
    first = use.browser.tab()
    ready(use.browser, use.page)
    use.do("document.querySelector('[data-act^=kept-open]').click(); await wait(60); await settle();")
    use.planned("the other tab", setup, with_cell(forecast, 90, 2, "11"))
    use.type("90 1", "22")
    use.do("await settle(); await wait(500);")
    use.browser.go(first)
    use.type("91 1", "33")
    use.do("await settle(); await wait(500);")
    kept = use.do("return Object.keys(localStorage).filter(it => it.startsWith('rudlayog session')).map(it => "
        "JSON.parse(JSON.parse(localStorage[it]).session).forecast);")
    wanted = {with_cell(forecast, 90, 2, "22").decode(),
        with_cell(with_cell(forecast, 90, 2, "11"), 91, 2, "33").decode()}
    use.expect("both tabs are kept", wanted <= set(kept), len(kept))


def answers(use: Use, setup: bytes, forecast: bytes) -> None:
    """Each answer is of the session that it was asked of, whatever is typed in the same moment."""
    start(use)
    use.do("await settle();")
    other = with_cell(forecast, 90, 2, "7")
    before = use.do("return rudlayog.saved.filter(it => it.type === 'text/plain').length;")
    use.do("press('ask'); type(cell('90 1'), '7'); document.querySelector('[data-saves=plan]').click();")
    plan = use.do(LAST_SAVED.replace("TYPE", "'text/plain'").replace("BEFORE", str(before)))
    use.expect("the plan that is saved fits what is shown", plan.encode() == text("plan", setup, other))
    use.planned("typed while worth was asked", setup, other)
    more = with_cell(other, 89, 2, "0")
    use.do("type(cell('89 1'), '0'); press('keep'); await wait(60); await settle();")
    loss = int(text("check", setup, more, text("plan", setup, more)).split()[1])
    use.expect("a variant has its own loss", use.do("return rudlayog.state.variants.at(-1).loss;") == loss, loss)
    third = with_cell(more, 40, 2, "1")
    use.do("type(cell('40 1'), '1'); at('step').value = '61'; press('rest'); await wait(60); await settle();")
    table = records(text("table", setup, third, text("plan", setup, third)))
    held = {row[2]: row[6] for row in table if row[0] == "60"}
    starts = use.do("return [...at('stores').tBodies[0].rows].map(row => [row.cells[0].textContent, "
        "row.cells[5].firstElementChild.value]);")
    use.expect("the rest starts with what the plan of then holds", dict(starts) == held, starts, held)


def written_again(use: Use) -> None:
    """A page that is written to the same path with another mission asks, and shows its own."""
    document = Path(use.page).read_text(encoding="utf-8")
    setup = '[[store]]\nid = "A"\nsize = 4\ntype = "bounded"\nchannel = 0\n'

    def write(path: Path, window: int) -> None:
        session = json.dumps({"rudlayog": 1, "setup": setup, "forecast": f"step,window,A\n1,{window},9\n"}).replace(
            "<", "\\u003c")
        path.write_text(document.replace('id="session">null<', f'id="session">{session}<'), encoding="utf-8")

    with tempfile.TemporaryDirectory() as folder:
        own, file = use.page, Path(folder, "mine.html")
        use.do("localStorage.clear(); sessionStorage.clear();")
        write(file, 1)
        use.page = str(file)
        ready(use.browser, use.page)
        use.planned("as Python wrote it", setup.encode(), b"step,window,A\n1,1,9\n")
        use.type("1 1", "3")
        use.do("await settle(); await wait(500);")
        ready(use.browser, use.page)
        use.planned("the same page again", setup.encode(), b"step,window,A\n1,3,9\n")
        write(file, 2)
        ready(use.browser, use.page)
        use.expect("another mission asks", asked(use))
        use.do("answer('Open what the page comes with'); await settle();")
        use.planned("what the page comes with", setup.encode(), b"step,window,A\n1,2,9\n")
        use.page = own
        use.do("localStorage.clear(); sessionStorage.clear();")
        ready(use.browser, use.page)


ROWS = (
    "return [...at('passes').tBodies[0].rows].map(row => [...row.cells].slice(0, 12).map(it => "
    "it.firstElementChild?.value || it.textContent));"
)
ADD = (
    "const form = at('pass'); for (const [name, value] of Object.entries(GIVEN)) form[name].value = value; "
    "form.requestSubmit(); await wait(30); await settle(); return [at('note').textContent, "
    "at('pass-fault').textContent];"
)


def add(use: Use, **given: str) -> list[str]:
    found: list[str] = use.do(ADD.replace("GIVEN",
        json.dumps({"station": "", "rate": "900", "unit": "blocks/h", **given})))
    return found


def clock(use: Use, begins: str) -> None:
    use.do(f"type(at('begins'), {json.dumps(begins)}); at('begins').blur(); await settle();")


def stations(use: Use, forecast: bytes) -> None:
    """A name goes with its pass."""
    start(use)
    clock(use, "2026-11-27 06:00")
    # A name counts as it is typed; nobody has to leave the cell.
    use.type("pass 0 station", "Kiruna")
    use.expect("a station that is typed", use.do(
        "await settle(); return rudlayog.state.passes[0].station;") == "Kiruna")
    use.do("document.querySelector('[data-act=\"cancel 0\"]').click(); await wait(60); await settle();")
    add(use, station="Redu", **{"from": "2026-11-27 12:00", "to": "2026-11-27 14:00"})
    names = [row[4] for row in use.do(ROWS)]
    use.expect("a pass in place of a cancelled one has its own name",
        names[0] == "Redu" and "Kiruna" not in "".join(names), names)
    use.drop(("setup.toml", (FOLDER / "setup.toml").read_bytes()), ("forecast.csv", with_cell(forecast, 7, 2, "9")))
    names = [row[4] for row in use.do("await settle();" + ROWS)]
    use.expect("another forecast has no names of before", not any(names), names)


def times(use: Use) -> None:
    """Passes have their times, and what is wrong with them is said."""
    start(use)
    clock(use, "2026-02-30 06:00")
    use.expect("no date is refused", use.do("return [at('begins').getAttribute('aria-invalid'), "
        "at('clock-fault').textContent.startsWith('A time is written')];") == ["true", True])
    for typed in ("2026-11-27T06:00:00Z", "2026-331T06:00:00Z", "2026-11-27T07:00:00+01:00", "2026-11-27 06:00:00.000",
        "2026-W48-5T06:00"):
        clock(use, typed)
        use.expect(
            f"the date {typed}", use.do("return at('grid').tBodies[0].rows[1].cells[1].textContent;") == "27 Nov 07:00")
    add(use, station="Redu", **{"from": "2026-11-27 19:30", "to": "2026-11-27 20:45"})
    row = next(row for row in use.do(ROWS) if row[4] == "Redu")
    use.expect("a pass has its times", row[1:4] == ["14 to 15", "2026-11-27 19:30", "2026-11-27 20:45"], row)
    note, fault = add(use, station="Redu", **{"from": "2026-11-27 19:30", "to": "2026-11-27 20:45"})
    use.expect("a pass twice is refused", fault == "This pass is there already.", fault)
    note, fault = add(use, station="Kiruna", **{"from": "2026-11-27 20:00", "to": "2026-11-27 21:00"})
    use.expect("an overlap is said", "overlaps pass 2, Redu: both windows count" in note, note, fault)
    remarks = [row[11] for row in use.do(ROWS) if row[4] == "Redu"]
    use.expect("an overlap stays said", bool(remarks) and "overlaps pass 3, Kiruna" in remarks[0], remarks)
    note, fault = add(use, station="Redu", **{"from": "2026-11-27 01:00", "to": "2026-11-27 06:30"})
    use.expect("a cut is said", "begins before step 1, and is cut there" in note, note, fault)
    for to, said in (("2026-11-29 25:00", "time of the end cannot be read"),
        ("2026-11-29 09:00", "ends before it begins"), ("2026-11-31 10:00", "time of the end cannot be read")):
        note, fault = add(use, station="Redu", **{"from": "2026-11-29 10:00", "to": to})
        use.expect(f"a pass to {to}", said in fault, fault)
    clock(use, "2026-11-27 06:00:30")
    use.do("at('step').value = '3'; press('rest'); await wait(60); await settle();")
    use.expect("the rest keeps seconds", use.do("return at('begins').value;") == "2026-11-27 08:00:30",
        use.do("return at('begins').value;"))
    use.do("at('step').value = '5.5'; press('go');")
    use.expect("step 5.5", "no step 5.5" in use.do("return at('note').textContent;"))
    use.do("at('step').value = '5.5'; press('rest'); await wait(60);")
    use.expect("the rest from 5.5", "whole number" in use.do("return at('note').textContent;"))


def numbers(use: Use) -> None:
    """Numbers in every form that TOML has, and such as are none."""
    forecast = b"step,window,A,B\n1,2,9,9\n2,1,3,3\n"
    setup = (
        b"[[ store ]]\nid = 'A'\nsize = 1_0# x\ntype = \"bounded\"\nchannel = 0x1\nstart = 1_2\n\n[[store]] # "
        b"two\n\"id\" = \"B\"\nsize = +5 # y\ntype = 'circular'\nchannel = 0\n"
    )
    use.drop(("setup.toml", setup), ("forecast.csv", forecast))
    use.do("await settle();")
    shown = use.do("return [...at('stores').tBodies[0].rows].map(row => [...row.cells].slice(0, 6).map(it => "
        "it.firstElementChild?.value ?? it.textContent));")
    use.expect("each form is read", [row[0] for row in shown] == ["A", "B"]
        and [row[3:] for row in shown] == [["1", "10", "12"], ["0", "5", "0"]], shown)
    use.expect("no NaN", "NaN" not in use.do("return document.body.innerText;"))
    use.type("store 0 size", "20")
    use.type("store 1 size", "6")
    use.planned("sizes beside comments", setup.replace(b"1_0# x", b"20# x").replace(b"+5 # y", b"6 # y"), forecast)
    use.type("1 1", "1x")
    clock(use, "2026-11-27 06:00")
    add(use, station="Redu", **{"from": "2026-11-27 06:00", "to": "2026-11-27 07:00"})
    use.expect("a window that cannot be read stays as it is",
        use.do("return new TextDecoder().decode(rudlayog.state.forecast);").startswith("step,window,A,B\n1,1x,"))
    bad = {"rudlayog": 1, "setup": setup.decode(), "forecast": forecast.decode(), "minutes": 1e12,
        "before": {"steps": "x", "lost": None}, "reference": {"loss": "x", "session": {}},
        "passes": [{"from": 3, "windows": [[1, "x"]]}]}
    use.drop(("bad.json", json.dumps(bad).encode()))
    use.do("await settle();")
    use.expect("bad numbers of a file", "NaN" not in use.do(
        "return document.body.innerText + at('before').textContent;"))
    use.do("type(at('begins'), '2026-11-27 06:00'); type(at('minutes'), '1e12'); await settle(); type(at('minutes'), "
        "'1000000000000'); await settle();")
    use.expect("long steps are refused", use.do("return at('minutes').getAttribute('aria-invalid');") == "true")


def long_texts(use: Use) -> None:
    """What is too long is refused, and laid out by nobody."""
    setup, header = (FOLDER / "setup.toml").read_bytes(), (FOLDER / "forecast.csv").read_bytes().split(b"\n")[0]
    row = b",0" * (header.count(b","))
    for what, forecast in (
        ("10,080 rows", header + b"\n" + b"".join(b"%d%b\n" % (step, row) for step in range(1, 10081))),
        ("100,000 rows", header + b"\n" + b"".join(b"%d%b\n" % (step, row) for step in range(1, 100001))),
        ("300,000 columns", header + b",X" * 300_000 + b"\n1" + row + b",0" * 300_000 + b"\n"),
        ("300,000 quoted columns", b'"step"' + header[4:] + b',"X"' * 300_000 + b"\n1" + row + b",0" * 300_000 + b"\n"),
    ):
        use.do("rudlayog.longest = 0;")
        began = time.monotonic()
        use.drop(("setup.toml", setup), ("forecast.csv", forecast))
        use.do("await settle(); await wait(500);")
        took, pause = time.monotonic() - began, use.do("return rudlayog.longest;")
        use.expect(f"{what}: refused", use.state()["line"].startswith("refused "), use.state()["line"])
        use.expect(f"{what}: no table", use.do("return at('grid-box').hidden && !at('grid-none').hidden;"))
        began = time.monotonic()
        ready(use.browser, use.page)
        # Others who use the processors make it longer, so that it is told and fails nothing.
        print(f"page: {use.browser.name}, {what} are refused after {took:.1f} s, with a pause of at most {pause:.0f} "
            f"ms; the page is ready again after {time.monotonic() - began:.1f} s", flush=True)


def files(use: Use) -> None:
    """A file of which nothing is known replaces nothing."""
    start(use)
    setup, forecast = (FOLDER / "setup.toml").read_bytes(), (FOLDER / "forecast.csv").read_bytes()
    mission = (TOP / "examples" / "mars_week" / "mission.toml").read_bytes()
    table = text("table", setup, forecast, text("plan", setup, forecast))
    for name, octets, said in (
        ("table.csv", table, "table.csv: nothing that this page opens"),
        ("empty.toml", b"\n", "empty.toml: nothing that this page opens"),
        ("setup.toml", b"", "setup.toml: nothing that this page opens"),
        ("pyproject.toml", b"[project]\nname = 'x'\n", "pyproject.toml: nothing that this page opens"),
        ("picture.png", b"\x89PNG\r\n\x1a\n" + bytes(200), "picture.png: nothing that this page opens. Opened are"),
        ("notes.txt", b"some words\n", "notes.txt: nothing that this page opens"),
        ("mission.toml", mission,
        "mission.toml names passes.csv and observations.csv: open the files together with it."),
        ("passes.csv", b"station,begin,end\nA,1,2\n", "passes.csv: the header does not begin with step."),
    ):
        use.drop((name, octets))
        note = use.do("return at('note').textContent;")
        use.expect(f"{name}: said", note.startswith(said), note)
        use.planned(f"{name}: nothing is replaced", setup, forecast)
    for names in (("one.toml", "two.toml"), ("a.csv", "b.csv"), ("saved.json", "setup.toml")):
        octets = {"toml": setup, "csv": forecast, "json": b"{}"}
        use.drop(*((name, octets[name.split(".")[1]]) for name in names))
        note = use.do("return at('note').textContent;")
        use.expect(f"{names}: said", note == f"Nothing is opened: {' and '.join(names)} do not go together. Open one "
            "of them.", note)
        use.planned(f"{names}: nothing is replaced", setup, forecast)
    use.do("const { taken } = rudlayog.state, data = new DataTransfer(), file = new File([], 'folder'); "
        "Object.defineProperty(file, 'arrayBuffer', { value: () => Promise.reject(new Error('a folder')) }); "
        "data.items.add(file);"
           "const event = new DragEvent('drop', { bubbles: true, cancelable: true, dataTransfer: data }); "
           "document.body.dispatchEvent(event); while (rudlayog.state.taken === taken) await wait(10);")
    use.planned("a folder: nothing is replaced", setup, forecast)


def keys(use: Use, setup: bytes, forecast: bytes) -> None:
    """Escape, Ctrl+Z in a form, and a storage without room."""
    start(use)
    press = (
        "const it = document.activeElement; it.dispatchEvent(new KeyboardEvent('keydown', { key: KEY, ctrlKey: CTRL, "
        "bubbles: true, cancelable: true }));"
    )
    use.do("cell('90 1').focus();")
    use.type("90 1", "4")
    use.type("90 1", "44")
    use.do(press.replace("KEY", "'Escape'").replace("CTRL", "false") + "await wait(60); await settle();")
    use.planned("Escape", setup, forecast)
    use.expect("Escape: the cell", use.do("return cell('90 1').value;") == forecast.decode().split("\n")[90].split(",")[
        1])
    typed = with_cell(forecast, 90, 2, "4")
    use.type("90 1", "4")
    use.do("at('pass').station.focus(); at('pass').station.value = 'Ki';" + press.replace("KEY", "'z'").replace(
        "CTRL", "true") + "await settle();")
    use.planned("Ctrl+Z in a form", setup, typed)
    use.do("try { for (let size = 1 << 22; size > 8; size >>= 1) for (let nth = 0; nth < 99; nth++) "
        "localStorage.setItem(`junk ${size} ${nth}`, 'x'.repeat(size)); } catch {} "
           "for (let size = 1 << 20; size > 8; size >>= 1) try { for (let nth = 0; nth < 99; nth++) "
           "localStorage.setItem(`more ${size} ${nth}`, 'x'.repeat(size)); } catch {}")
    use.type("91 1", "4")
    told = use.do("await settle(); await wait(700); return at('kept-note').textContent;")
    use.expect("no room is told", told == "This browser has no room for what was changed last, "
        "and does not keep it: save all in one file.", told)
    use.do("localStorage.clear();")


SPAN = "begin = 2031-03-03T00:00:00Z\nend = 2031-03-03T12:00:00Z\n"
STATION_H = '[[station]]\nname = "H"\nrate = "2 kbit/s"\nchannels = { 1 = "0.5 kbit/s" }\n'
LIMITED = (
    f'name = "limited"\n{SPAN}overlap = "better"\n'
    + "".join(f'[[store]]\nid = "{id}"\nsize = "400 blocks"\nchannel = {nth}\n' for nth, id in enumerate("AB"))
    + f'[[station]]\nname = "G"\nrate = "2 kbit/s"\n{STATION_H}'
    + "".join(f'[[pass]]\nstation = "{name}"\nbegin = 2031-03-03T{hour}:00:00Z\nend = 2031-03-03T{hour}:40:00Z\n'
    for name, hour in (("G", "02"), ("H", "06"), ("G", "09")))
    + "".join(f'[[observation]]\nstore = "{id}"\nrate = "300 bit/s"\n{SPAN}' for id in "AB")
).encode()
CANCEL = "document.querySelector('[data-act=\"cancel NTH\"]').click(); await wait(60); await settle();"


def cancel(use: Use, nth: int) -> None:
    use.do(CANCEL.replace("NTH", str(nth)))


def limited(use: Use) -> tuple[bytes, bytes]:
    """A page with a mission in which one pass has a limit on a channel: its setup and its forecast."""
    start(use)
    use.drop(("mission.toml", LIMITED))
    said = use.state()
    return said["setup"], said["forecast"]


def limits_follow(use: Use) -> None:
    """The limit of a channel goes with the last pass that has one, and comes with the first; what was typed stays."""
    files = {"mission.toml": LIMITED}
    setup, forecast = limited(use)
    use.expect("a limit by step", b",limit:1\n" in forecast, forecast[:60])
    cancel(use, 1)
    without = missions.forecast_without(files, "H 1")
    use.expect("no limit is left", b"limit" not in without, without[:60])
    use.planned("the last pass with a limit is cancelled", setup, without)
    add(use, station="H", rate="", **{"from": "2031-03-03 06:00", "to": "2031-03-03 06:40"})
    use.planned("a pass with a limit again", setup, forecast)
    step = next(nth for nth, line in enumerate(forecast.decode().split("\n")[1:], 1) if not line.endswith(",0"))
    use.do("press('in-units');")
    use.type(f"{step} 4", "7")
    use.do("await settle();")
    cancel(use, 1)
    use.expect("a limit that was typed stays", use.state()["forecast"].decode().split("\n")[step].endswith(",7"),
        use.state()["forecast"][:300])


STEPS = "const { forecast, edges } = rudlayog.state; return [new TextDecoder().decode(forecast), edges];"


def typed_stays(use: Use) -> None:
    """What was typed in a step of a mission stays at its time, whatever becomes of the passes; and so it does after the
    rest is planned from a step on."""
    limited(use)
    use.do("press('in-units');")
    before, edges = use.do(STEPS)
    place = next(nth for nth, line in enumerate(before.split("\n")[1:]) if line.startswith("3,"))
    use.type("3 1", "77")
    use.type("3 2", "x")
    use.do("await settle();")
    for nth in (2, 0):
        use.do(f"document.querySelector('[data-act=\"cancel {nth}\"]').click(); await wait(60); await settle();")
    forecast, now = use.do(STEPS)
    step = now.index(edges[place])
    use.expect("a typed step has its time", now[step + 1] == edges[place + 1] and len(now) < len(edges), now, edges)
    use.expect("a typed step has what was typed", forecast.split("\n")[step + 1].split(",")[1:3] == ["77", "x"],
        forecast[:300])
    limited(use)
    use.do("press('in-units'); at('step').value = '3'; press('rest'); await wait(60); await settle();")
    rest = use.state()["forecast"]
    last = use.do("return rudlayog.state.passes.length - 1;")
    use.do(f"document.querySelector('[data-act=\"cancel {last}\"]').click(); await wait(60); await settle();")
    use.expect("the rest without its last pass", use.state()["forecast"] != rest)
    add(use, station="G", rate="", **{"from": "2031-03-03 09:00", "to": "2031-03-03 09:40"})
    use.expect("the rest with it again", use.state()["forecast"] == rest, use.state()["forecast"][:300], rest[:300])
    # A text with a step less is no more of the mission's steps, and stays as it is.
    use.do("at('texts-box').open = true; await wait(60); const it = at('forecast'); type(it, "
        "`${it.value.trim().split('\\n').slice(0, -1).join('\\n')}\\n`); at('texts-box').open = false; await settle();")
    shorter = use.state()["forecast"]
    cancel(use, 0)
    use.expect("a text with other steps stays", use.state()["forecast"] == shorter != rest)


def texts_are_there(use: Use, setup: bytes, forecast: bytes) -> None:
    """The texts and the plan are there as soon as they are opened, and so a key in them changes them alone."""
    start(use)
    texts = use.do("for (const id of ['texts-box', 'plan-box']) at(id).open = true; for (let turn = 0; turn < 300 "
        "&& !at('plan').textContent; turn++) await wait(10); return ['setup', 'forecast'].map(id => "
        "at(id).value).concat(at('plan').textContent);")
    wanted = [it.decode() for it in (setup, forecast, text("plan", setup, forecast))]
    use.expect("the texts are there", texts == wanted, [it[:40] for it in texts])
    use.do("type(at('setup'), `${at('setup').value}# more\\n`); await settle();")
    use.planned("a key in the setup", setup + b"# more\n", forecast)
    use.do("for (const id of ['texts-box', 'plan-box']) at(id).open = false; await settle();")


NAMES = (
    "return Object.keys(localStorage).filter(it => it.startsWith('rudlayog session')).map(it => "
    "JSON.parse(localStorage[it]).title);"
)


def kept_stay(use: Use, setup: bytes, forecast: bytes) -> None:
    """No kept session makes way for another: where there is no room, it is said, and asked what to forget."""
    start(use)
    for name in ("tight", "two_passes", "first_run"):
        use.type("1 1", "3")
        use.do("await settle(); await wait(400);")
        use.do(OPEN.replace("NAME", json.dumps(name)) + f"await wait(60); answer('{GO_ON}'); await wait(60); "
            "await settle();")
    use.type("1 1", "3")
    use.do("await settle(); await wait(400);")
    titles = {"mission", "tight", "two passes", "first run"}
    use.expect("four sessions are kept", set(use.do(NAMES)) == titles, use.do(NAMES))
    use.drop(("setup.toml", setup + b"# long\n" * (12 << 20 >> 3)), ("forecast.csv", forecast))
    use.do("await settle(); await wait(600);")
    told = use.do("return [at('kept-note').textContent, at('room').hidden];")
    use.expect("a session of 12 MB: no room", told == ["This browser has no room for this session, and does not keep "
        "it: save all in one file.", False], told)
    use.expect("a session of 12 MB: all others stay", set(use.do(NAMES)) == titles, use.do(NAMES))
    asked_for = use.do("press('room'); await wait(60); return [...document.querySelectorAll('#question[open] "
        "button')].map(it => it.textContent);")
    use.expect("what to forget is asked", len(asked_for) == 5 and asked_for[-1] == "Forget none"
        and all(it.endswith("which is in no file") for it in asked_for[:-1]), asked_for)
    use.do("answer('Forget none'); await wait(60);")
    use.expect("none is forgotten", len(use.do(NAMES)) == 4, use.do(NAMES))
    use.do("press('room'); await wait(60); [...document.querySelectorAll('#question[open] button')].find(it => "
        "it.textContent.startsWith('Forget tight')).click(); await wait(60);")
    use.expect("one is forgotten", set(use.do(NAMES)) == titles - {"tight"}, use.do(NAMES))
    use.do(f"press('close'); await wait(60); answer('{GO_ON}'); await wait(200); document.querySelector("
        "'[data-act^=kept-forget]').click(); await wait(60);")
    words = use.do("return at('question-words').textContent;")
    use.expect("Forget asks", words.startswith("Forget first run? It is in no file"), words)
    use.do("answer('Keep it'); await wait(60);")
    use.expect("it is kept", len(use.do(NAMES)) == 3, use.do(NAMES))
    use.do("document.querySelector('[data-act^=kept-forget]').click(); await wait(60); answer('Forget it'); "
        "await wait(60);")
    use.expect("it is forgotten", len(use.do(NAMES)) == 2, use.do(NAMES))


def more_than_fits(use: Use) -> None:
    """A session that grows until there is no room for it removes no other one."""
    start(use)
    use.type("1 1", "3")
    use.do("await settle(); await wait(400);")
    use.do(OPEN.replace("NAME", "'tight'") + f"await wait(60); answer('{GO_ON}'); await wait(60); await settle();")
    use.do("let size = 1 << 20; for (let nth = 0; size > 32768; nth++) try { localStorage.setItem(`junk ${nth}`, "
        "'x'.repeat(size)); } catch { size >>= 1; }")
    for nth in range(6):
        use.type("1 1", str(nth))
        use.do("press('keep'); await wait(60); await settle();")
    use.do("await wait(500);")
    use.expect("variants that grow: it is told", use.do("return at('kept-note').textContent;").startswith(
        "This browser has no room for what was changed last"), use.do("return at('kept-note').textContent;"))
    use.expect("variants that grow: the other stays", "mission" in use.do(NAMES), use.do(NAMES))
    use.do("localStorage.clear();")


ROW = "return [...at('passes').tBodies[0].rows[NTH].cells].slice(2, 5).map(it => it.firstElementChild.value);"
# What is typed key by key, by what stands in the cell.
SLOWLY = (
    "const it = cell(CELL); it.focus(); it.value = ''; for (const key of TEXT) { it.value += key; "
    "it.dispatchEvent(new Event('input', { bubbles: true })); await wait(25); }"
)


def slowly(use: Use, cell: str, text: str) -> None:
    use.do(SLOWLY.replace("CELL", json.dumps(cell)).replace("TEXT", json.dumps(text)) + "await settle();")


def timed(use: Use) -> None:
    """A page with three passes with times, of Redu, Kiruna and Weilheim."""
    start(use, "two_passes")
    use.type("5 1", "0")
    clock(use, "2026-11-27 06:00")
    for nth, station in enumerate(("Redu", "Kiruna", "Weilheim")):
        add(use, station=station, **{"from": f"2026-11-27 1{nth}:00", "to": f"2026-11-27 1{nth}:30"})


def rows_stay(use: Use) -> None:
    """Passes are sorted once their row is left, and the focus stays with its pass."""
    timed(use)
    names = "return rudlayog.state.passes.filter(it => it.from !== null).map(it => it.station);"
    use.expect("three passes", use.do(names) == ["Redu", "Kiruna", "Weilheim"], use.do(names))
    nth = use.do("return rudlayog.state.passes.findIndex(it => it.station === 'Redu');")
    row = ROW.replace("NTH", str(nth))
    slowly(use, f"pass {nth} from", "2026-11-27 18:00")
    use.expect("a begin after the end stays in its row", use.do(row)[2] == "Redu" and use.do(row)[0].endswith("18:00"),
        use.do(row))
    slowly(use, f"pass {nth} to", "2026-11-27 18:30")
    use.expect("the end is of the same pass", use.do(row) == ["2026-11-27 18:00", "2026-11-27 18:30", "Redu"],
        use.do(row))
    use.expect("nothing is wrong with it", use.do("return at('passes-fault').textContent;") == "")
    at_kiruna = use.do(f"cell('pass {nth + 1} to').focus(); await wait(80); await settle(); const it = "
        "document.activeElement; return [it.dataset.cell, it.value];")
    use.expect("the focus goes with its pass", at_kiruna == [f"pass {nth} to", "2026-11-27 11:30"], at_kiruna)
    use.expect("sorted once it is left", use.do(names) == ["Kiruna", "Weilheim", "Redu"], use.do(names))
    times = use.do("return rudlayog.state.passes.map(it => [it.station, it.from]).filter(it => it[1] !== null);")
    use.expect("each has its own begin", [it[1] // 3_600_000_000 % 24 for it in times] == [11, 12, 18], times)
    # What is pressed is done before the rows are sorted.
    first = use.do("return rudlayog.state.passes.findIndex(it => it.station === 'Kiruna');")
    slowly(use, f"pass {first} to", "2026-11-27 20:30")
    slowly(use, f"pass {first} from", "2026-11-27 20:00")
    use.do(f"const it = document.querySelector('[data-act=\"cancel {first + 1}\"]'), tell = name => "
        "it.dispatchEvent(new PointerEvent(name, { bubbles: true })); tell('pointerdown'); it.focus(); await wait(60); tell('pointerup'); "
        "it.click(); await wait(80); await settle();")
    use.expect("what was pressed is cancelled", use.do(names) == ["Redu", "Kiruna"], use.do(names))


KEY = (
    "const it = document.activeElement; it.dispatchEvent(new KeyboardEvent('keydown', { key: 'NAME', ctrlKey: CTRL, "
    "bubbles: true, cancelable: true })); await wait(60); await settle(); return document.activeElement.value;"
)
ESCAPE, UNDO = KEY.replace("NAME", "Escape").replace("CTRL", "false"), KEY.replace("NAME", "z").replace("CTRL", "true")


def taken_back(use: Use) -> None:
    """Escape and Ctrl+Z take back what was typed in each cell, also where it is shown in another form."""
    timed(use)
    use.do("press('keep'); await wait(60); press('in-units'); await settle(); at('texts-box').open = true; await "
        "wait(60);")
    for name, typed in (("at('begins')", "2026-11-27 07:00"), ("at('minutes')", "90"), ("at('name')", "another name"),
        ("cell('variant 0')", "wider"), ("cell('store 0 size')", "7.5"), ("cell('3 1')", "2.25"),
        ("cell('1 2')", "1,5"), ("at('packet')", "5000"), ("cell('pass 1 from')", "2026-11-27 25:00"),
        ("cell('pass 1 rate')", "900")):
        for key, press in (("Escape", ESCAPE), ("Ctrl+Z", UNDO)):
            if key == "Ctrl+Z" and name in ("at('name')", "at('packet')"):
                continue
            before = use.do(f"const it = {name}; it.focus(); return it.value;")
            use.do(f"type({name}, {json.dumps(typed)}); await wait(60); await settle();")
            use.expect(f"{typed} in {name} stays as it is typed", use.do(f"return {name}.value;") == typed,
                use.do(f"return {name}.value;"))
            after = use.do(press)
            use.expect(f"{key} after {typed} in {name}", after == before, before, after)
            bad = use.do(f"return {name}.getAttribute('aria-invalid');")
            use.expect(f"{key} after {typed} in {name}: no mark", bad is None, bad)
    use.do("at('texts-box').open = false;")


def undone_elsewhere(use: Use) -> None:
    """A change that is undone while another pass has the focus leaves that pass as it is."""
    timed(use)
    add(use, station="Redu", **{"from": "2026-11-27 20:00", "to": "2026-11-27 20:30"})
    value = use.do("const it = [...document.querySelectorAll('#passes input.time')].find(it => "
        "it.value.endsWith('11:00')); it.focus(); return it.value;")
    after = use.do(UNDO)
    use.expect("a begin after an undo", after == value == "2026-11-27 11:00", value, after)


PRINTS = "let count = 0; window.print = () => { count++; }; press('print'); await wait(300); await settle(); "


def printed_as_shown(use: Use, setup: bytes, forecast: bytes) -> None:
    """Nothing is printed of a plan that is not the one of what is shown."""
    start(use)
    use.do("await settle(); await wait(1200);")
    sheet = "return at('sheet').textContent;"
    use.expect("a sheet is laid", "26,260 blocks are lost" in use.do(sheet))
    now = use.do("type(cell('90 1'), '0'); " + sheet)
    use.expect("right after a change it is not there", "lost" not in now and "is not laid out" in now, now[:80])
    lost = text("check", setup, with_cell(forecast, 90, 2, "0"), text("plan", setup, with_cell(forecast, 90, 2, "0")))
    use.do("await settle(); await wait(1200);")
    use.expect("then it is that of the change", lost.decode().strip() in use.do(sheet))
    use.type("90 1", "1x")
    use.do("await settle();")
    note = use.do("press('print'); await wait(300); return [at('note').textContent, at('sheet').textContent, "
        "document.activeElement.dataset.cell];")
    use.expect("a cell that cannot be read: nothing is printed", note[0] == "Nothing is printed: Window of step 90 "
        "cannot be read." and "lost" not in note[1] and note[2] == "90 1", note)


def numbers_of_planners(use: Use) -> None:
    """A decimal comma is no separator of thousands, and a window that is too large is not cut."""
    start(use)
    setup = use.state()["setup"]
    use.do("press('in-units'); await settle();")
    for cell, typed in (("store 4 size", "1,5"), ("90 1", "1,5"), ("90 1", "1,50"), ("90 1", "12,34,567")):
        was = use.do(f"return cell({json.dumps(cell)}).value;")
        use.type(cell, typed)
        said = use.state()
        use.expect(f"{typed} in {cell} is refused", said["line"].startswith("refused ") and said["bad"] == [cell],
            said["line"], said["bad"])
        use.type(cell, was)
    use.type("store 4 size", "1,200")
    use.do("await settle();")
    use.expect("1,200 MB", b"size = %d\n" % (1_200_000_000 // 1024) in use.state()["setup"])
    start(use)
    clock(use, "2026-11-27 06:00")
    note, fault = add(use, station="Redu", rate="900000", **{"from": "2026-11-27 08:00", "to": "2026-11-27 09:00"})
    use.expect("a window of 900,000", fault == "", fault)
    note, fault = add(use, station="Kiruna", rate="900000", **{"from": "2026-11-27 08:00", "to": "2026-11-27 09:00"})
    use.expect("one of 1,800,000", fault == "Step 3 would have a window of 1,800,000 blocks: 1,000,000 at most.", fault)
    nth = use.do("return rudlayog.state.passes.findIndex(it => it.station === 'Redu');")
    use.type(f"pass {nth} rate", "1500000 blocks/h")
    said = use.state()
    use.expect("a pass of 1,500,000", said["line"] == "refused 33 Limit name window" and said["bad"] == ["3 1"],
        said["line"], said["bad"])


def stations_of_missions(use: Use) -> None:
    """A pass of a mission has one of its stations, which has one pass at a time; a name is typed with its spaces."""
    timed(use)
    slowly(use, "pass 0 station", "New Norcia")
    use.expect("New Norcia", use.do("return [cell('pass 0 station').value, rudlayog.state.passes[0].station];") == [
        "New Norcia"] * 2, use.do("return cell('pass 0 station').value;"))
    note, fault = add(use, station="Kiruna", **{"from": "2026-11-27 11:20", "to": "2026-11-27 11:50"})
    use.expect("one station at once", fault == "Kiruna has a pass from 2026-11-27 11:00 to 2026-11-27 11:30: a station "
        "has one at a time.", fault)
    setup, forecast = limited(use)
    slowly(use, "pass 1 station", "Kourou")
    said = use.do("return [cell('pass 1 station').value, cell('pass 1 station').getAttribute('aria-invalid'), "
        "at('passes-fault').textContent];")
    use.expect("an unknown station", said == ["Kourou", "true",
        "Pass 2, station: The mission has the stations G, H. The plan has it as it was before."], said)
    use.planned("an unknown station: the plan stays", setup, forecast)
    cancel(use, 0)
    use.expect("Cancel after it", use.state()["forecast"] == missions.forecast_without({"mission.toml": LIMITED},
        "G 1"), use.state()["forecast"])
    start(use)
    limited(use)
    slowly(use, "pass 1 station", "G")
    other = LIMITED.replace(b'[[pass]]\nstation = "H"', b'[[pass]]\nstation = "G"')
    made = missions.said_by_package({"mission.toml": other})
    use.planned("another station: its rate and limits", setup, str(made["forecast"]).encode())
    limited(use)
    add(use, station="H", rate="", **{"from": "2031-03-03 02:20", "to": "2031-03-03 03:00"})
    remarks = [row[11] for row in use.do(ROWS)][:2]
    use.expect("the better pass", all("only the one that sends more counts" in it for it in remarks), remarks)
    note, fault = add(use, station="H", rate="", **{"from": "2031-03-03 02:40", "to": "2031-03-03 03:10"})
    use.expect("one station at once in a mission", "H has a pass from 2031-03-03 02:20" in fault, fault)


def many_passes(use: Use) -> None:
    """A session of 2,000 passes is answered."""
    header = "step,window,A\n" + "".join(f"{step},100,9\n" for step in range(1, 201))
    hour = [f"2026-11-{1 + nth // 240:02}T{nth // 10 % 24:02}" for nth in range(2000)]
    passes = [{"station": f"S{nth % 9}", "from": f"{hour[nth]}:{nth % 10 * 6:02}:00Z",
        "to": f"{hour[nth]}:{nth % 10 * 6 + 4:02}:00Z", "rate": "100 blocks/h", "windows": [[nth // 10 + 1, 10]]}
        for nth in range(2000)]
    session = {"rudlayog": 1, "setup": '[[store]]\nid = "A"\nsize = 4\ntype = "bounded"\nchannel = 0\n',
        "forecast": header, "begins": "2026-11-01 00:00", "passes": passes}
    start(use)
    began = time.monotonic()
    use.drop(("many.json", json.dumps(session).encode()))
    use.do("await settle();")
    took = time.monotonic() - began
    use.expect("2,000 passes are answered", use.state()["line"].startswith("least ") and took < 60, took)
    use.do("rudlayog.longest = 0; type(cell('1 2'), '8'); await settle();")
    pause = use.do("return rudlayog.longest;")
    print(f"page: {use.browser.name}, 2,000 passes are answered after {took:.1f} s; a key takes {pause:.0f} ms",
        flush=True)


def seen(browser: Browser, page: str) -> tuple[int, list[str]]:
    """How many expectations there were, and those that did not hold."""
    setup, forecast = (FOLDER / "setup.toml").read_bytes(), (FOLDER / "forecast.csv").read_bytes()
    use = Use(browser, page)
    work_is_kept(use, setup, forecast)
    tabs(use, setup, forecast)
    answers(use, setup, forecast)
    written_again(use)
    stations(use, forecast)
    times(use)
    numbers(use)
    files(use)
    keys(use, setup, forecast)
    limits_follow(use)
    typed_stays(use)
    texts_are_there(use, setup, forecast)
    kept_stay(use, setup, forecast)
    more_than_fits(use)
    rows_stay(use)
    taken_back(use)
    undone_elsewhere(use)
    printed_as_shown(use, setup, forecast)
    numbers_of_planners(use)
    stations_of_missions(use)
    many_passes(use)
    long_texts(use)
    return use.count, use.found
