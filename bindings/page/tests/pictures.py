"""Pictures of the page with the example `mission`, to be looked at: in both browsers with the stores in order and a
shaded chart, at several widths, dark, with a refusal, and as both browsers print it; and the start screen."""

from __future__ import annotations

from collections.abc import Callable, Mapping
from pathlib import Path

from browsers import Browser, Chromium
from compare import ready

SETTLE = "await new Promise(done => setTimeout(done, 1500));"
OPEN = (
    f"const it = document.getElementById('example'); it.value = 'mission'; it.dispatchEvent(new Event('change', {{ "
    f"bubbles: true }})); {SETTLE}"
)
ASK = (
    f"document.getElementById('in-order').click(); {SETTLE} document.getElementById('shade').click(); for (let turn = "
    f"0; turn < 3000 && !window.rudlayog.state.shaded; turn++) await new Promise(done => setTimeout(done, 20)); "
    f"{SETTLE}"
)
# A clock, stations, a reference, and a pass that is cut short.
CHANGE = f"""
const at = id => document.getElementById(id), type = (it, value) =>
  {{ it.value = value; it.dispatchEvent(new Event('input', {{ bubbles: true }})); }};
const name = async (nth, station) =>
  {{ type(document.querySelector(`[data-cell="pass ${{nth}} station"]`), station); {SETTLE} }};
type(at('begins'), '2026-11-27 06:00'); {SETTLE}
for (const [nth, station] of ['Kiruna', 'New Norcia', 'Kiruna', 'Malargue', 'New Norcia'].entries()) await name(
  nth, station);
at('keep').click(); {SETTLE}
const cell = document.querySelector('[data-cell="90 1"]'); cell.focus({{ preventScroll: true }}); type(cell, '0');
  {SETTLE}
cell.closest('tr').scrollIntoView({{ block: 'center' }}); window.scrollTo(0, 0);
"""
# The sheet is laid a moment after the last change.
LAY = "await new Promise(done => setTimeout(done, 1500));"
REFUSE = (
    f"const it = document.querySelector('[data-cell=\"89 1\"]'); it.value = '12,220'; it.dispatchEvent(new "
    f"Event('input', {{ bubbles: true }})); {SETTLE}"
)


def take(found: Mapping[str, Callable[..., Browser]], page: str, folder: Path) -> None:
    """Leaves the pictures in a folder."""
    folder.mkdir(parents=True, exist_ok=True)
    for name, kind in found.items():
        browser = kind()
        ready(browser, page)
        browser.picture(f"{folder}/start-{name}.png")
        browser.run(OPEN)
        browser.run(ASK)
        browser.picture(f"{folder}/{name}.png")
        browser.run(CHANGE)
        browser.run(LAY)
        browser.printed(f"{folder}/printed-{name}.pdf")
        browser.close()
    if "Chromium" in found:
        for width, height in ((390, 844), (1000, 1100), (1240, 1000), (1536, 864), (1800, 1117), (2500, 1300)):
            at_width(found["Chromium"], page, folder, width, height)


def at_width(kind: Callable[..., Browser], page: str, folder: Path, width: int, height: int) -> None:
    """A picture at one width; at one of them also of a refusal, and dark."""
    browser = kind(width=width, height=height)
    if width < 600 and isinstance(browser, Chromium):
        browser.ask("Emulation.setDeviceMetricsOverride", width=width, height=height, deviceScaleFactor=1, mobile=True)
    ready(browser, page)
    browser.run(OPEN)
    browser.run(CHANGE)
    browser.picture(f"{folder}/{width}.png", whole=width < 1200)
    if width == 1536 and isinstance(browser, Chromium):
        browser.run(REFUSE)
        browser.picture(f"{folder}/refused.png", whole=False)
        browser.run("document.getElementById('undo').click();" + SETTLE)
        browser.ask("Emulation.setEmulatedMedia", features=[{"name": "prefers-color-scheme", "value": "dark"}])
        browser.run(SETTLE)
        browser.picture(f"{folder}/dark.png", whole=False)
    browser.close()
