"""The sheet for operations as a page that can be printed: one document of HTML, with the charts in it."""

from __future__ import annotations

from collections.abc import Iterable
from datetime import datetime, timezone
from html import escape
from itertools import groupby
from math import ceil
from typing import TYPE_CHECKING

if TYPE_CHECKING:
    from .sheets import Row, Sheet

LEAST = "No plan in these steps loses fewer: the checker says least. But for rounding, no timeline loses fewer."
STYLE = """
body { font: 12.5px/1.35 sans-serif; color: #111; margin: 24px auto; max-width: 1160px; padding: 0 16px }
h1 { font-size: 21px; margin: 0 0 4px } h2 { font-size: 15px; margin: 22px 0 6px }
p { margin: 4px 0 } table { border-collapse: collapse; width: 100%; margin: 4px 0 10px }
th, td { border-bottom: 1px solid #ccc; padding: 3px 6px; text-align: right; white-space: nowrap }
th { border-bottom: 2px solid #555; font-weight: 600 } th.w, td.w { text-align: left }
td.lost { color: #c4161c; font-weight: 600 } tr.sum td { border-top: 2px solid #555; font-weight: 600 }
section { break-inside: avoid } svg { width: 100%; height: auto }
.note { color: #555; font-size: 12px }
@page { size: A4 landscape; margin: 12mm }
@media print { body { margin: 0; max-width: none; padding: 0 } .chart { break-before: page } }
"""


def page(sheet: Sheet) -> str:
    """The page of a sheet."""
    made = sheet.made
    title = f"{made.mission.name or 'Mission'}: passes from {_utc(made.mission.begin)} to {_utc(made.mission.end)}"
    parts = [
        f"<h1>{escape(title)}</h1>",
        *(f"<p>{escape(words)}</p>" for words in summary(sheet)),
        "<h2>All passes</h2>",
        _overview(sheet),
        *(_details(name, list(rows), sheet) for name, rows in groupby(sheet, key=lambda row: row.name)),
        "<h2>Timeline</h2>",
        _timeline(sheet),
        "<h2>Age of data as they go down</h2>",
        _ages(sheet),
        *(
            f"<section class='chart'><h2>{escape(words)}</h2>{chart}</section>"
            for words, chart in zip(_chart_titles(sheet), made.charts())
        ),
        "<p class='note'>Times are in UTC. A block has room for one packet; 1 MB is 1,000,000 octets of packets. "
        "What is lost counts from the "
        "begin of a pass to that of the next one. In the timeline each store sends its packets evenly from begin to "
        "end, all stores side by side. Ages are those of packets as the timeline sends them; what is held as the "
        "mission begins counts as new then.</p>",
    ]
    head = f"<meta charset='utf-8'><title>{escape(title)}</title><style>{STYLE}</style>"
    return f"<!doctype html>\n<html lang='en'><head>{head}</head>\n<body>\n" + "\n".join(parts) + "\n</body></html>\n"


def _utc(moment: datetime) -> str:
    form = "%Y-%m-%d %H:%M" if moment.second == 0 == moment.microsecond else "%Y-%m-%d %H:%M:%S"
    return moment.astimezone(timezone.utc).strftime(form)


def summary(sheet: Sheet) -> list[str]:
    """What the plan loses, and whether that is least."""
    made = sheet.made
    arrive = sum(sum(step.arrived.values()) for step in made.steps)
    sent = sum(row.blocks for row in sheet)
    words = [f"{arrive:,} blocks arrive, {sent:,} are sent, and {made.loss:,} are lost ({made.loss_mb:,.3f} MB)."]
    verdicts = made.check()
    if all(verdicts):
        parts = (
            f"Each of the {len(verdicts)} parts, with what it looks ahead, loses least from what the one before leaves."
        )
        words.append(LEAST if len(verdicts) == 1 else parts)
        if all(verdict.kind == "least in order" for verdict in verdicts):
            words.append("So does the first store, and so do the first two together, and so on.")
    else:
        words += [f"The checker says: {verdict.line}." for verdict in verdicts if not verdict]
    units = {problem.unit.link for problem, _ in made.parts if set(problem.unit.packets.values()) != {1}}
    if units:
        words.append(f"What is least counts in units of about {max(units):,} octets, and not in packets.")
    if len(verdicts) == 1 and made.problem.edges == made.mission.problem().edges:
        words.append(made.mission.margin().words())
    return [*words, _rounding(sheet)]


def _rounding(sheet: Sheet) -> str:
    """What rounding may cost."""
    costs = [problem.rounding_cost() for problem, _ in sheet.made.flown]
    # to thousandths that are not less
    windows, sizes, arrivals = (
        ceil(sum(cost[what] for cost in costs) / 1e3) / 1e3 for what in ("windows", "sizes", "arrivals")
    )
    return (
        f"Rounding to whole packets may cost at most {windows:,.3f} MB of windows, and each time that stores are full "
        f"{sizes:,.3f} MB of sizes and "
        f"{arrivals:,.3f} MB of arrivals."
    )


def _chart_titles(sheet: Sheet) -> list[str]:
    """The titles of the charts of the parts."""
    return [f"Chart, {_utc(problem.times[0])} to {_utc(problem.times[-1])} UTC" for problem, _ in sheet.made.flown]


def _table(head: Iterable[str], rows: Iterable[str]) -> str:
    """A table; the first columns that are words are said by a `<` before their names."""
    cells = "".join(
        f"<th class='w'>{escape(name[1:])}</th>" if name.startswith("<") else f"<th>{escape(name)}</th>"
        for name in head
    )
    return f"<table><thead><tr>{cells}</tr></thead><tbody>{''.join(rows)}</tbody></table>"


def _lost_cell(blocks: int) -> str:
    return f"<td class='lost'>{blocks:,}</td>" if blocks else "<td>0</td>"


def _overview(sheet: Sheet) -> str:
    """A row for each pass: what each store sends, in blocks, how much the pass could send, and what is lost until the
    next one."""
    stores = [store.id for store in sheet.made.mission.stores]
    windows = _windows(sheet)
    rows = []
    for name, given in groupby(sheet, key=lambda row: row.name):
        own = list(given)
        cells = "".join(f"<td>{row.blocks:,}</td>" for row in own)
        sent = sum(row.blocks for row in own)
        times = (
            f"<td class='w'>{escape(name)}</td><td class='w'>{_utc(own[0].begin)}</td><td "
            f"class='w'>{_utc(own[0].end)}</td>"
        )
        rows.append(
            f"<tr>{times}{cells}<td>{sent:,}</td><td>{windows.get(name, 0):,}</td>"
            f"{_lost_cell(sum(row.lost for row in own))}</tr>"
        )
    sums = "".join(f"<td>{sum(row.blocks for row in sheet if row.store == store):,}</td>" for store in stores)
    whole = f"<td>{sum(row.blocks for row in sheet):,}</td><td>{sum(windows.values()):,}</td>"
    whole += _lost_cell(sum(row.lost for row in sheet))
    rows.append(f"<tr class='sum'><td class='w' colspan='3'>all</td>{sums}{whole}</tr>")
    return _table(["<pass", "<begin (UTC)", "<end (UTC)", *stores, "sent", "could send", "lost"], rows)


def _windows(sheet: Sheet) -> dict[str, int]:
    """How many blocks each pass could send, of the longest packets."""
    found: dict[str, int] = {}
    for problem, _ in sheet.made.flown:
        for contact in problem.contacts:
            found[contact.one.name] = (
                found.get(contact.one.name, 0) + sum(contact.sends.falls(problem.edges)) * problem.unit.count
            )
    return found


def _timeline(sheet: Sheet) -> str:
    """The dumps."""
    lines = [
        f"<tr><td class='w'>{_utc_second(dump.begin)}</td><td class='w'>{_utc_second(dump.end)}</td><td "
        f"class='w'>{escape(dump.name)}</td>"
        f"<td class='w'>{escape(dump.store)}</td><td>{dump.packets:,}</td><td>{dump.mb:,.3f}</td>"
        f"<td>{dump.kbits:,.3f}</td></tr>"
        for dump in sheet.made.timeline()
    ]
    return _table(["<begin (UTC)", "<end (UTC)", "<pass", "<store", "packets", "MB", "kbit/s"], lines)


def _utc_second(moment: datetime) -> str:
    return moment.astimezone(timezone.utc).strftime("%Y-%m-%d %H:%M:%S")


def _ages(sheet: Sheet) -> str:
    """How old data are."""
    lines = [
        f"<tr><td class='w'>{escape(store)}</td><td>{age.greatest:.1f}</td><td>{age.median:.1f}</td></tr>"
        for store, age in sheet.made.ages().items()
    ]
    return _table(["<store", "greatest, in hours", "median, in hours"], lines)


def _details(name: str, rows: list[Row], sheet: Sheet) -> str:
    """What a pass does to each store."""
    first = rows[0]
    minutes = (first.end - first.begin).total_seconds() / 60
    title = f"{name}, {_utc(first.begin)} to {_utc(first.end)} UTC, {minutes:.0f} minutes"
    lines = [
        f"<tr><td "
        f"class='w'>{escape(row.store)}</td><td>{row.blocks:,}</td><td>{row.mb:,.3f}</td><td>{row.minutes:,.1f}</td>"
        f"<td>{row.before:,}</td><td>{row.after:,}</td>{_lost_cell(row.lost)}<td>{row.lost_mb:,.3f}</td></tr>"
        for row in rows
    ]
    head = ["<store", "blocks", "MB", "minutes of use", "held before", "held after", "lost until the next", "lost MB"]
    return f"<section><h2>{escape(title)}</h2>{_table(head, lines)}</section>"
