"""What a planner wants of the page: missions in files, units, ranges that are pasted, variants, a page to be sent, the
chart by hand and by keys, a layout that fits, and what a reader of the screen needs."""

from __future__ import annotations

import base64
import json
import re
import tempfile
from bisect import bisect_right
from collections.abc import Callable
from pathlib import Path

import missions
from browsers import Browser, Chromium
from cases import TOP
from compare import ready
from faults import FOLDER, LAST_SAVED, add, clock, start
from program import text
from use import Use, records, with_cell

WEEK = TOP / "examples" / "mars_week"
AT_ONCE = 50


def week_files() -> missions.Files:
    return {name: (WEEK / name).read_bytes() for name in ("mission.toml", "passes.csv", "observations.csv")}


def all_missions(use: Use, count: int) -> None:
    """Missions in files are what the Python package makes of them, or are refused with its words."""
    given = [missions.mission_files(number) for number in range(count)] + [week_files()]
    given += [{"mission.toml": text.encode()} for text in missions.WRONG]
    for first in range(0, len(given), AT_ONCE):
        some = given[first : first + AT_ONCE]
        texts = json.dumps([{name: base64.b64encode(octets).decode() for name, octets in files.items()}
            for files in some])
        made = json.loads(use.do(f"return JSON.stringify({texts}.map(rudlayog.missionMade));"))
        for number, (files, said) in enumerate(zip(some, made), first):
            wanted = missions.said_by_package(files)
            use.expect(f"mission {number}", said == wanted, str(said)[:300], str(wanted)[:300])


# What is told where a part of the time is over.
POINT = (
    "const box = at('lanes'), lane = box.querySelector('.lane-box').getBoundingClientRect(); box.dispatchEvent(new "
    "PointerEvent('pointermove', { clientX: lane.left + lane.width * PART, clientY: lane.top + 5, bubbles: true })); "
    "return at('told').textContent;"
)
# A folder that is dropped, as browsers give its files.
FOLDER_DROPPED = """
const { taken } = rudlayog.state, files = FILES.map(([name, text]) => new File([Uint8Array.from(atob(text), it =>
  it.charCodeAt(0))], name)), entries = files.map(it => ({ isFile: true, file: tell => tell(it) }));
const folder = { isDirectory: true, createReader: () => ({ readEntries: tell => tell(entries.splice(0, 2)) }) };
const event = new DragEvent('drop', { bubbles: true, cancelable: true });
Object.defineProperty(event, 'dataTransfer', { value: { files: [], items: [{ webkitGetAsEntry: () => folder }] } });
document.body.dispatchEvent(event);
while (rudlayog.state.taken === taken) { answer('Go on without a file'); await wait(10); }
"""


def folder(use: Use) -> None:
    """A folder is dropped whole: the mission in it with its lists, or a setup with a forecast; the rest is left."""
    start(use)
    files = week_files()
    made = missions.said_by_package(files)
    setup, forecast = str(made["setup"]).encode(), str(made["forecast"]).encode()
    others = {"setup.toml": setup, "plan.txt": b"mmplan 1\n", "README.md": b"# x\n"}
    given = [[name, base64.b64encode(octets).decode()] for name, octets in {**others, **files}.items()]
    use.do(FOLDER_DROPPED.replace("FILES", json.dumps(given)))
    use.planned("a mission's folder", setup, forecast)
    start(use, "tight")
    use.do("const it = at('example'); it.value = 'mars_week'; it.dispatchEvent(new Event('change', { bubbles: true })); "
        "await wait(60); await settle();")
    use.planned("a mission among the examples", setup, forecast)


# All words of a part of the page, but for those that say what it is.
WORDS = "return [...document.querySelectorAll('PARTS')].map(it => it.textContent).join(' ');"


def one_unit(use: Use) -> None:
    """A mission is shown in MB and kbit/s throughout: verdict, chart, passes, variants and what is printed."""
    start(use, "mars_week")
    said = use.state()
    rows = records(said["table"])
    lost = {id: sum(int(row[4]) for row in rows if row[2] == id) for id in {row[2] for row in rows}}
    mega = f"{sum(lost.values()) / 1000:.2f} MB"
    use.expect("MB in the verdict", said["said"] == f"{mega} are lost, and no plan that fits loses less", said["said"])
    use.do("press('keep'); await wait(60); await settle(); document.querySelector('[data-act=\"cancel 1\"]').click(); "
        "await wait(60); await settle(); await wait(1200);")
    words = use.do(WORDS.replace("PARTS", "#lanes, #told, #passes, #variants, #variants-passes, #more, .overview, "
        ".passes-page"))
    use.expect("no blocks beside MB", "block" not in words.lower(), words)
    lanes = use.do("return at('lanes').textContent;")
    use.expect("MB in the chart", "in MB" in lanes and not re.search(r"\d{3},\d{3}", lanes), lanes)
    later = use.state()
    table = records(later["table"])
    of_pass = sum(int(row[5]) for row in table if row[0] in {str(step) for step in steps_of(use, 0)})
    cell = use.do("return at('passes').tBodies[0].rows[0].cells[8].textContent;")
    use.expect("what a pass sends in MB", abs(float(cell.replace(",", "")) * 1000 - of_pass) < 6, cell, of_pass)
    more = sum(int(row[4]) for row in table) - sum(lost.values())
    use.expect("MB more than the reference", later["more"] == f"{shown_in_mb(more)} more than the reference, "
        f"{sum(lost.values()) / 1000:.2f}", later["more"], more)
    title = use.do("return [document.title, [...document.styleSheets[0].cssRules].filter(it => it.type === 6)"
        ".map(it => it.cssText).join(' ')];")
    use.expect("printed pages have the mission's name", title[0] == "Orbiter, week 10", title)


def printed(use: Use) -> None:
    """What is printed has the dumps of each pass with their times, as the Python package's timeline has them; the chart
    over the time; and the name of the mission."""
    start(use, "mars_week")
    use.do("await settle(); await wait(1200);")
    rows = [line.split(",") for line in (WEEK / "timeline.csv").read_text(encoding="utf-8").split("\n")[1:-1]]
    wanted = [[row[2][11:19], row[3][11:19], row[4], row[6], row[7]] for row in rows]
    shown = use.do("return [...document.querySelectorAll('#sheet .passes-page section')].flatMap(section => "
        "[...section.querySelectorAll('table:last-of-type tbody tr')].map(row => [...row.cells].map(it => "
        "it.textContent)));")
    near = [one for one, other in zip(sorted(shown), sorted(wanted)) if one[:3] == other[:3] and all(
        abs(float(one[at].replace(" kbit/s", "")) - float(other[at])) < 0.006 for at in (3, 4))]
    use.expect("the printed dumps", len(near) == len(shown) == len(wanted), len(near), len(shown), len(wanted))
    lanes = use.do("return [...document.querySelectorAll('#sheet .lanes b')].map(it => it.textContent).concat("
        "[...document.querySelectorAll('#sheet h2')].map(it => it.textContent));")
    use.expect("the printed chart", lanes[:3] == ["UTC", "New Norcia", "Malargue"]
        and "Chart, over the time in UTC" in lanes, lanes)


def shown_in_mb(packets: int) -> str:
    mega = packets / 1000
    return f"{mega:,.3f}".rstrip("0").rstrip(".") if mega < 10 else f"{mega:,.2f}".rstrip("0").rstrip(".")


def steps_of(use: Use, nth: int) -> list[int]:
    return list(use.do(f"return rudlayog.state.passes[{nth}].windows.map(it => it[0]);"))


def mission(use: Use) -> None:
    """A mission that is opened, with a pass that is cancelled and one more; its amounts in MB and kbit/s."""
    start(use)
    files = week_files()
    use.drop(*files.items())
    made = missions.said_by_package(files)
    setup, forecast = str(made["setup"]).encode(), str(made["forecast"]).encode()
    said = use.planned("a mission", setup, forecast)
    shown = use.do("return [at('begins').value, at('begins').disabled, at('packet').value, at('in-units').checked, "
        "at('name').value];")
    use.expect("a mission: its clock, its packet and its name",
        shown == ["2031-03-03 00:00", True, "1000", True, "Orbiter, week 10"], shown)
    use.expect("a mission: MB", [row[4:6] for row in said["stores"]][:2] == [["48", "4"], ["240", "90"]],
        said["stores"][:2])
    names = use.do("return [...at('lanes').querySelectorAll('.lane-name b')].map(it => it.textContent);")
    use.expect("a mission: lanes of its stations", names[:3] == ["UTC", "New Norcia", "Malargue"], names)
    edges = list(made["edges"])
    for part in (0.003, 0.1, 0.37, 0.5, 0.92):
        told = use.do(POINT.replace("PART", str(part)))
        wanted = bisect_right(edges, edges[-1] * part)
        use.expect(f"the chart is over the time: {part}", told.startswith(f"Step {wanted}, "), told, wanted)
    use.do("document.querySelector('[data-act=\"cancel 2\"]').click(); await wait(60); await settle();")
    use.planned("a mission without a pass", setup, missions.forecast_without(files, "New Norcia 2"))
    use.do("press('undo'); await settle();")
    use.planned("a mission with it again", setup, forecast)
    note, fault = add(use, station="Malargue", rate="", **{"from": "2031-03-05T01:00:00Z", "to": "2031-064T02:00:00Z"})
    more = use.state()["forecast"].decode()
    use.expect("a pass more of a mission", more == missions.forecast_with(
        files, "Malargue", "2031-03-05T01:00:00Z", "2031-03-05T02:00:00Z"), note, fault)
    use.do("press('undo'); await settle();")
    use.do("type(cell('store 1 size'), '250'); await settle();")
    sized = setup.replace(b'id = "CAM"\nsize = 234375\n', b'id = "CAM"\nsize = %d\n' % (250_000_000 // 1024))
    use.planned("a size in MB", sized, forecast)
    use.do("press('in-units'); await settle();")
    use.expect("in blocks", use.do("return cell('store 1 size').value;") == str(250_000_000 // 1024))


# Firefox takes the text of a made event by itself, and Chromium in a `clipboardData`.
PASTE = (
    "const it = cell(CELL), data = DATA, clipboardData = new DataTransfer(); it.focus(); "
    "clipboardData.setData('text/plain', data); it.dispatchEvent(new ClipboardEvent('paste', "
    "{ clipboardData, dataType: 'text/plain', data, bubbles: true, cancelable: true }));"
)


def pasted(use: Use, setup: bytes, forecast: bytes) -> None:
    start(use)
    use.do(PASTE.replace("CELL", "'90 1'").replace("DATA", "'1\\t2\\r\\n3\\t4\\r\\n'"))
    wanted = forecast
    for step, column, value in ((90, 2, "1"), (90, 3, "2"), (91, 2, "3"), (91, 3, "4")):
        wanted = with_cell(wanted, step, column, value)
    use.planned("a range", setup, wanted)
    use.do("press('undo');")
    use.planned("a range undone at once", setup, forecast)
    for cell, data in (("256 1", "1\\n2\\n"), ("90 11", "1\\t2\\t3\\n")):
        use.do(PASTE.replace("CELL", json.dumps(cell)).replace("DATA", f"'{data}'"))
        note = use.do("return at('note').textContent;")
        use.expect(f"a range that is too large at {cell}", note.startswith("Nothing is pasted: the range is larger"),
            note)
        use.planned(f"nothing is pasted at {cell}", setup, forecast)


# What is copied of the range that is chosen. Firefox lets no test read a made event's data, so its own is read.
COPY = (
    "const clipboardData = new DataTransfer(), event = new ClipboardEvent('copy', { clipboardData, bubbles: true, "
    "cancelable: true }); document.activeElement.dispatchEvent(event); return [event.defaultPrevented, "
    "event.clipboardData.getData('text/plain')];"
)
SHIFT = (
    "const it = document.activeElement; for (const key of KEYS) it.dispatchEvent(new KeyboardEvent('keydown', { key, "
    "shiftKey: true, bubbles: true, cancelable: true })); "
)


def copied(use: Use, setup: bytes, forecast: bytes) -> None:
    """A range that is chosen by keys or by the pointer is copied as text, and pasted where it fits."""
    rows = [row.split(",")[1:] for row in forecast.decode().split("\n")[1:-1]]
    wanted = "\n".join("\t".join(row[:3]) for row in rows[88:91])
    start(use)
    use.do("const one = cell('89 1'); one.focus(); one.select();")
    said = use.do(SHIFT.replace("KEYS", "['ArrowDown', 'ArrowDown', 'ArrowRight', 'ArrowRight']") + COPY)
    use.expect("a range by keys is copied", said == [True, wanted], said, wanted)
    use.do("const data = new DataTransfer(); at('grid-box').scrollIntoView({ block: 'center' }); "
        "cell('92 1').scrollIntoView({ block: 'center' }); await wait(60);")
    places = use.do("return ['89 1', '90 2', '91 3'].map(name => { const box = cell(name).getBoundingClientRect(); "
        "return [box.left + box.width / 2, box.top + box.height / 2]; });")
    for does, (x, y) in zip(("Pressed", "Moved", "Moved"), places):
        use.browser.point(does, x, y)
    use.browser.point("Released", *places[-1])
    said = use.do(COPY)
    use.expect("a range by the pointer is copied", said == [True, wanted], said, wanted)
    marked = use.do("return document.querySelectorAll('#grid .chosen').length;")
    use.expect("nine cells are marked", marked == 9, marked)
    paste = PASTE.replace("CELL", "'100 1'").replace("DATA", json.dumps(wanted))
    use.do(paste)
    other = forecast
    for down, row in enumerate(rows[88:91]):
        for right, value in enumerate(row[:3]):
            other = with_cell(other, 100 + down, 2 + right, value)
    use.planned("a range that was copied is pasted", setup, other)
    use.do("press('undo'); press('in-units'); await settle(); const one = cell('89 1'); one.focus(); one.select();")
    kbits = use.do(SHIFT.replace("KEYS", "['ArrowDown', 'ArrowDown', 'ArrowRight', 'ArrowRight']") + COPY)[1]
    use.expect("a range in kbit/s has no commas", "," not in kbits and kbits != wanted and kbits.count("\t") == 6,
        kbits)
    use.do(PASTE.replace("CELL", "'89 1'").replace("DATA", json.dumps(kbits)) + "await settle();")
    note = use.do("return at('note').textContent;")
    use.expect("what was copied changes nothing where it is pasted again", use.state()["forecast"] == forecast
        and note.startswith("Nothing is pasted: these cells have the same"), note)
    use.do("document.querySelector('[data-shows=held]').click(); await settle(); "
        "press('in-units'); await settle(); await wait(60); const one = cell('89 1'); one.focus(); "
        "one.select();")
    table = records(program_table(setup, forecast))
    held = use.do(SHIFT.replace("KEYS", "['ArrowRight']") + COPY)[1]
    own = next(row[6] for row in table if row[0] == "89")
    use.expect("what a store holds is copied too", held == f"{rows[88][0]}\t{own}", held, own)
    use.do("document.activeElement.dispatchEvent(new KeyboardEvent('keydown', { key: 'Escape', bubbles: true })); "
        "await wait(20);")
    use.expect("Escape ends the choice", not use.do("return document.querySelectorAll('#grid .chosen').length;")
        and not use.do(COPY)[0])
    use.do("document.querySelector('[data-shows=arrived]').click(); await settle();")


def program_table(setup: bytes, forecast: bytes) -> bytes:
    return text("table", setup, forecast, text("plan", setup, forecast))


def sent(use: Use, setup: bytes, forecast: bytes) -> None:
    """A page with its session in it, which opens with it."""
    start(use)
    typed = with_cell(forecast, 90, 2, "8")
    use.type("90 1", "8")
    clock(use, "2026-11-27 06:00")
    use.type("pass 0 station", "Kiruna <3")
    before = use.do("await settle(); return rudlayog.saved.filter(it => it.type === 'text/html').length;")
    use.do("document.querySelector('[data-saves=page]').click();")
    page = use.do(LAST_SAVED.replace("TYPE", "'text/html'").replace("BEFORE", str(before)))
    with tempfile.TemporaryDirectory() as folder:
        own, use.page = use.page, f"{folder}/sent.html"
        Path(use.page).write_text(page, encoding="utf-8")
        use.do("localStorage.clear(); sessionStorage.clear();")
        ready(use.browser, use.page)
        use.planned("a page that was sent", setup, typed)
        use.expect("a page that was sent: its names", use.do("return cell('pass 0 station').value;") == "Kiruna <3")
        use.page = own
        ready(use.browser, own)
        use.drop(("sent.html", page.encode()))
        use.planned("a page that was sent, dropped", setup, typed)


def variants(use: Use, setup: bytes, forecast: bytes) -> None:
    """Two variants beside what is there: losses, differences by store and by pass, and one click back."""
    start(use)
    use.do("press('keep'); await wait(60); await settle();")
    other = with_cell(forecast, 90, 2, "0")
    use.type("90 1", "0")
    use.do("await settle(); press('keep'); await wait(60); await settle();")
    third = with_cell(other, 89, 2, "0")
    use.type("89 1", "0")
    use.planned("a third", setup, third)
    lost = [losses(setup, it) for it in (forecast, other, third)]
    rows = use.do("return [...at('variants').tBodies[0].rows].map(row => [...row.cells].map(it => "
        "it.firstElementChild?.value ?? it.textContent));")
    use.expect("variants: losses", [row[1].replace(",", "") for row in rows] == [
        str(sum(it.values())) for it in lost[:2]], rows)
    for row, own in zip(rows, lost):
        wanted = [own[id] - lost[2][id] for id in own]
        use.expect(f"{row[0]}: by store", [int(it.replace("−", "-").replace(",", "")) for it in row[4:]] == wanted, row,
            wanted)
    heads = use.do("return [...at('variants-passes').tHead.rows[0].cells].map(it => it.textContent);")
    use.expect("variants: passes", heads == ["pass", "now", "variant 1", "variant 2"], heads)
    use.do("document.querySelector('[data-act=\"open 0\"]').click(); await settle();")
    use.planned("a variant that is opened", setup, forecast)
    use.do("document.querySelector('[data-act=\"drop 0\"]').click(); await settle();")
    use.expect("a variant that is dropped", use.do("return rudlayog.state.variants.map(it => it.name);") == [
        "variant 2"])


def losses(setup: bytes, forecast: bytes) -> dict[str, int]:
    found: dict[str, int] = {}
    for row in records(text("table", setup, forecast, text("plan", setup, forecast))):
        found[row[2]] = found.get(row[2], 0) + int(row[4])
    return found


LANES = (
    "const box = at('lanes-stores'), press2 = key => box.dispatchEvent(new KeyboardEvent('keydown', { key, "
    "bubbles: true, cancelable: true })); "
)


def chart(use: Use, setup: bytes, forecast: bytes) -> None:
    """The chart tells the values of a step, by keys and by the pointer; it zooms, and has UTC where a clock is set."""
    start(use)
    table = records(text("table", setup, forecast, text("plan", setup, forecast)))
    use.do(LANES + "box.focus(); press2('Home'); for (let nth = 0; nth < 81; nth++) press2('ArrowRight');")
    own = [row for row in table if row[0] == "82"]
    said = use.do(LANES + "return [box.getAttribute('aria-valuenow'), box.getAttribute('aria-valuetext')];")
    wanted = f"Step 82: window {int(own[0][1]):,}, {sum(int(row[5]) for row in own):,} sent"
    use.expect("a step by keys", said[0] == "82" and said[1].startswith(wanted), said, wanted)
    use.do(LANES + "const lane = box.querySelector('.lane-box').getBoundingClientRect(); box.dispatchEvent(new "
        "PointerEvent('pointermove', { clientX: lane.left + lane.width * 99.5 / 256, clientY: lane.top + 5, bubbles: "
        "true }));")
    use.expect("a step by the pointer", use.do("return at('told').textContent;").startswith("Step 100: "))
    use.do(LANES + "press2('+'); press2('+');")
    first, last = use.do("return at('lanes').dataset.steps.split(' ').map(Number);")
    use.expect("zoom", 64 <= last - first + 1 <= 65 and first <= 99 <= last, first, last)
    axis = "return [...document.querySelectorAll('.lane.axis .lane-box span')].map(it => it.textContent);"
    use.expect("steps on the axis", all(it.isdigit() for it in use.do(axis)), use.do(axis))
    clock(use, "2026-11-27 06:00")
    use.expect("UTC on the axis", all("Nov" in it or "Dec" in it for it in use.do(axis)), use.do(axis))
    use.do(LANES + "press2('Enter');")
    use.expect(
        "Enter goes to the step", use.do("return document.querySelector('#grid .at').cells[0].textContent;") == "100")


# Of an element with text of its own: how its colours differ (WCAG 2.1), with the colours of what it stands in.
CONTRAST = """
const light = ([r, g, b]) =>
  { const part = it => ((it /= 255) <= 0.04045 ? it / 12.92 : ((it + 0.055) / 1.055) ** 2.4);
  return 0.2126 * part(r) + 0.7152 * part(g) + 0.0722 * part(b); };
const colour = text => text.match(/[\\d.]+/g).map(Number),
  back = it =>
  { for (; it; it = it.parentElement) { const found = colour(getComputedStyle(it).backgroundColor);
  if (found.length === 3 || found[3] > 0) return found; } return [255, 255, 255]; };
const ratio = (a, b) => { const [x, y] = [light(a), light(b)].sort((p, q) => q - p); return (x + 0.05) / (y + 0.05); };
const isShown = it => it.offsetParent && it.getClientRects().length, low = [];
for (const it of document.querySelectorAll('body *')) {
  if (!isShown(it) || it.closest('svg, option') || it.disabled) continue;
  const style = getComputedStyle(it), hasText = [...it.childNodes].some(
    each => each.nodeType === 3 && each.textContent.trim()) || it.tagName === 'INPUT';
  const differs = ratio(colour(style.color), back(it)), name = `${it.tagName} ${it.id} ${it.className}`;
  if (hasText && differs < 4.5) low.push(`${name} ${it.textContent.slice(0, 20)} ${differs.toFixed(2)}`);
  if (['BUTTON', 'INPUT', 'SELECT'].includes(it.tagName) && !it.closest('#grid') && it.type !== 'checkbox'
    && !it.matches('[aria-pressed=true]') && ratio(colour(style.borderTopColor), back(it.parentElement)) < 3) low.push(
    `border of ${it.tagName} ${it.id} ${it.className}`);
}
return low;
"""
SMALL = (
    "return [...document.querySelectorAll('button, select, .file')].filter(it => it.offsetParent && (it.offsetHeight < "
    "24 || it.offsetWidth < 24)).map(it => `${it.textContent} ${it.offsetWidth} ${it.offsetHeight}`);"
)
HEADS = (
    "return [...document.querySelectorAll('thead th')].filter(it => it.offsetParent && !it.textContent.trim()).map(it "
    "=> it.closest('table').id);"
)
# Each control is focused, and must not lie under the verdict.
UNDER = """
const bar = at('verdict'), hidden = [];
for (const it of document.querySelectorAll('#all button, #all input, #all select, #all summary, #all [tabindex="0"]')) {
  if (!it.offsetParent || it.disabled || it.closest('.left')) continue;
  window.scrollTo(0, document.body.scrollHeight); it.focus();
  const box = it.getBoundingClientRect(), top = bar.getBoundingClientRect();
  if (getComputedStyle(bar).position === 'sticky' && box.bottom <= top.bottom && box.top >= top.top - 40
    && !bar.contains(it)) hidden.push(it.outerHTML.slice(0, 80));
  if (box.top < top.bottom - 1 && box.bottom > top.top && box.height < 60 && !bar.contains(it)) hidden.push(
    it.outerHTML.slice(0, 80));
}
window.scrollTo(0, 0);
return hidden;
"""


def readers(use: Use) -> None:
    """Contrast, sizes, heads, focus, and refusals that name nothing which is not in the page."""
    start(use)
    clock(use, "2026-11-27 06:00")
    use.do("await settle(); await wait(300); document.activeElement.blur();")
    for what, script in (("contrast", CONTRAST), ("buttons of 24 px", SMALL), ("heads with words", HEADS),
        ("focus above the verdict", UNDER)):
        found = use.do(script)
        use.expect(what, not found, len(found), found[:6])
    use.expect("skip links", use.do("return [...document.querySelectorAll('a.skip')].every(it => "
        "document.querySelector(it.getAttribute('href')));"))
    for cell, typed in (("store 2 size", "4x"), ("store 2 size", "0"), ("90 1", "1000001"), ("90 1", "x")):
        was = use.do(f"return cell({json.dumps(cell)}).value;")
        use.type(cell, typed)
        use.do("await settle();")
        said = use.do(f"const it = cell({json.dumps(cell)}); return [it.getAttribute('aria-invalid'), "
            f"(it.getAttribute('aria-describedby') ?? '').split(' ').map(id => at(id)?.textContent).join(' '), "
            f"at('verdict').textContent];")
        use.expect(f"{typed} in {cell} points to its message", said[0] == "true" and "cannot be read" in said[1], said)
        use.expect(f"{typed} in {cell} names no document", "docs/" not in said[2], said[2])
        use.type(cell, was)
    use.drop(("plan.txt", b"mmplan 1\nx\n"))
    use.expect("a bad plan names no document", "docs/" not in use.do(
        "await settle(); return at('verdict').textContent;"))


STORE_A = '[[store]]\nid = "A"\nsize = 4\ntype = "bounded"\nchannel = 0\n'
STORE_B = '[[store]]\nid = "B"\nsize = 9\ntype = "circular"\nchannel = 1\n'


def sizes_by_step(use: Use) -> None:
    """Arrivals during dumps and sizes by step: they are shown, edited, refused, and moved with their stores."""
    start(use)
    top = 'arrivals = "during"\n\n'
    setup = f"{top}{STORE_A}\n{STORE_B}".encode()
    forecast = b"step,window,A,B,size:A,size:B\n1,0,3,5,4,9\n2,3,1,2,2,7\n"
    use.drop(("setup.toml", setup), ("forecast.csv", forecast))
    use.planned("sizes by step", setup, forecast)
    shown = use.do("return [cell('2 5').value, cell('2 5').getAttribute('aria-label')];")
    use.expect("a size by step is shown", shown == ["7", "Size of B in step 2"], shown)
    use.type("2 4", "1000001")
    said = use.state()
    use.expect("a size that is too large", (said["line"], said["bad"]) == ("refused 33 Limit name size", ["2 4"]),
        said["line"], said["bad"])
    use.type("2 4", "0")
    use.planned("another size in a step", setup, with_cell(forecast, 2, 5, "0"))
    use.do("document.querySelector('[data-act=\"down 0\"]').click(); await settle();")
    moved = b"step,window,B,A,size:B,size:A\n1,0,5,3,9,4\n2,3,2,1,7,0\n"
    use.planned("stores with sizes moved", f"{top}{STORE_B}\n{STORE_A}".encode(), moved)


# Whether the first column stays where the table is scrolled. It does so once the browser has told that it is.
STAYS = """
const box = at('grid-box'), left = () => at('grid').tBodies[0].rows[2].cells[0].getBoundingClientRect().left;
const before = left();
box.scrollLeft = 300;
for (let turn = 0; turn < 100 && Math.abs(left() - before) >= 1; turn++) await wait(20);
const after = left();
box.scrollLeft = 0;
return Math.abs(after - before) < 1;
"""


def layout(kind: Callable[..., Browser], page: str) -> tuple[int, list[str]]:
    """At several widths nothing is cut, and the chart stays in sight beside the grid."""
    counted, found = 0, list[str]()
    for width in (390, 1000, 1240, 1536, 2500):
        browser = kind(width=width, height=1000)
        try:
            if isinstance(browser, Chromium):
                browser.ask("Emulation.setDeviceMetricsOverride", width=width, height=1000, deviceScaleFactor=1,
                    mobile=width < 600)
            use = Use(browser, page)
            start(use)
            clock(use, "2026-11-27 06:00")
            real = use.do("await settle(); return innerWidth;")
            use.expect(f"{real}: nothing is wider than the window",
                use.do("return document.documentElement.scrollWidth <= innerWidth + 1;"),
                use.do("return document.documentElement.scrollWidth;"))
            if real >= 1200:
                seen = use.do("at('grid-box').scrollIntoView({ block: 'center' }); await wait(100); const box = "
                    "at('lanes').getBoundingClientRect(); return [box.top, box.bottom];")
                use.expect(f"{real}: the chart stays in sight", seen[0] >= 0 and seen[1] <= 1000, seen)
            if real >= 1500:
                use.expect(f"{real}: the grid fits",
                    use.do("const it = at('grid-box'); return it.scrollWidth <= it.clientWidth;"),
                    use.do("const it = at('grid-box'); return [it.scrollWidth, it.clientWidth];"))
            stays = use.do(STAYS)
            use.expect(f"{real}: the first columns stay", stays)
            small = use.do("return [...document.querySelectorAll('#lanes span, #lanes b')].filter(it => "
                "it.offsetParent && parseFloat(getComputedStyle(it).fontSize) < 12).length;")
            use.expect(f"{real}: words of the chart can be read", small == 0, small)
            counted, found = counted + use.count, found + use.found
        finally:
            browser.close()
    return counted, found


def wanted(browser: Browser, page: str, count: int = 200) -> tuple[int, list[str]]:
    """How many expectations there were, and those that did not hold."""
    setup, forecast = (FOLDER / "setup.toml").read_bytes(), (FOLDER / "forecast.csv").read_bytes()
    use = Use(browser, page)
    all_missions(use, count)
    mission(use)
    folder(use)
    one_unit(use)
    printed(use)
    pasted(use, setup, forecast)
    copied(use, setup, forecast)
    sent(use, setup, forecast)
    variants(use, setup, forecast)
    chart(use, setup, forecast)
    sizes_by_step(use)
    readers(use)
    return use.count, use.found


