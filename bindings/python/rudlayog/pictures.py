"""Pictures: the program's chart with UTC on its axis, and what a study found, by matplotlib where it is installed and
as SVG elsewhere."""

from __future__ import annotations

import io
import os
import re
from collections.abc import Mapping, Sequence
from datetime import datetime, timedelta
from html import escape
from pathlib import Path
from typing import TYPE_CHECKING, Any, NamedTuple

from .calls import chart
from .plans import Certificate, Cut, Plan, Stretch

if TYPE_CHECKING:
    from ._timeline import Problem
    from .study import Answer, Study

# How many bars a picture has at most.
MOST_BARS = 40
# How many minutes may lie between two ticks of an axis.
TICKS = (5, 10, 15, 30, *(60 * hours for hours in (1, 2, 3, 6, 12, 24, 48, 96, 168, 336)))

# Where the steps begin in the program's chart, in its units, and where their numbers stand.
LEFT, NUMBERS = 180, 96
# The most ranges of time that fit into a line.
MOST_RANGES = 5
# What a headline says: that so many blocks are lost, and what that is worth; and what a chart says of a cut.
_HEADLINE = re.compile(r"(?<=<text class='h' x='16' y='30'>)([^<]* blocks are lost)(?:, and no plan|; this cut)[^<]*")
_WHY = re.compile(r"<text class='h' x='\d+' y='\d+'>Why no plan loses fewer than .*?(?=</svg>)", re.DOTALL)
_VIEW = re.compile(r"<svg[^>]* viewBox='0 0 ([\d.]+) ([\d.]+)'")
_AXIS = re.compile(r"<text class='k' x='[\d.]+' y='96'>\d+</text>\n<path class='i' d='M[\d.]+ (\d+)V(\d+)'/>\n")
_WIDTH = re.compile(r"<rect class='o' x='180' y='\d+' width='(\d+)'")
_PATH = re.compile(r"(?<= d=')[^']*(?=')")
_ACROSS = re.compile(r"([MH])(-?[\d.]+)")
_RANGES = re.compile(r"(?<=>)In steps? ((?:\d+(?:&#8211;\d+)?, )+)")


def chart_of(problem: Problem, made: Plan, part: int | None = None, of: int | None = None) -> str:
    """The program's chart of a plan, whose axis is the time: steps are as wide as they are long, and UTC stands above
    them. Where it is of one `part` of a plan, of so many steps `of` those that the part was planned with, its headline
    says no more than that."""
    problem, made = _shown(problem, made)
    drawn = chart(problem.setup, problem.forecast, made).svg
    if part is not None:
        drawn = _of_part(drawn, is_whole=part == of)
    first, found = _AXIS.search(drawn), _WIDTH.search(drawn)
    if first is None or found is None:
        return drawn
    width, steps = int(found[1]), len(problem)
    # where the edges of the steps belong
    span = problem.edges[-1] - problem.edges[0]
    edges = [LEFT + width * (edge - problem.edges[0]) / span for edge in problem.edges]

    def across(place: re.Match[str]) -> str:
        drawn_at = (float(place[2]) - LEFT) * steps / width
        step = min(max(int(drawn_at), 0), steps - 1)
        return f"{place[1]}{edges[step] + (drawn_at - step) * (edges[step + 1] - edges[step]):.2f}"

    lines = _AXIS.sub("", drawn[first.start() :]).split("\n")
    moved = "\n".join(
        _PATH.sub(lambda path: _ACROSS.sub(across, path[0]), line) if line.startswith("<path") else line
        for line in lines
    )
    head = drawn[: first.start()].replace(f"x='172' y='{NUMBERS}'>step<", f"x='150' y='{NUMBERS}'>UTC<")
    return (
        head
        + _utc_axis(problem.times, width, first[1], first[2])
        + _RANGES.sub(lambda ranges: _times_of(ranges, problem), moved)
    )


def _of_part(drawn: str, is_whole: bool) -> str:
    """The chart of a part of a plan. What is lost in it is least from what the part before leaves, where the part looks
    no further ahead; else nothing is said of other plans."""
    if is_whole:
        return _HEADLINE.sub(r"In this part \1, and from what the part before leaves no plan loses fewer", drawn)
    return _WHY.sub("", _HEADLINE.sub(r"In this part, which looks further ahead, \1", drawn))


def above_one_another(charts: Sequence[str]) -> str:
    """Some documents of SVG as one."""
    top, parts, wide = 0.0, [], 0.0
    for chart_text in charts:
        found = _VIEW.search(chart_text)
        width, height = (float(found[1]), float(found[2])) if found else (960.0, 480.0)
        begin = chart_text.index("<svg") + len("<svg")
        parts.append(f"<svg x='0' y='{top:g}' width='{width:g}' height='{height:g}'{chart_text[begin:]}")
        top, wide = top + height, max(wide, width)
    head = f"<svg xmlns='http://www.w3.org/2000/svg' version='1.1' viewBox='0 0 {wide:g} {top:g}'>"
    return "\n".join([head, *parts, "</svg>", ""])


def _shown(problem: Problem, made: Plan) -> tuple[Problem, Plan]:
    """A problem and its plan with all events between passes, where nothing is sent."""
    shown = problem.shown()
    if shown is problem:
        return problem, made
    place = {edge: number for number, edge in enumerate(shown.edges)}
    dumps = {store: [0] * len(shown) for store in made.stores}
    for step, amounts in enumerate(made.dumps):
        for store, blocks in zip(made.stores, amounts):
            dumps[store][place[problem.edges[step]]] = blocks
    return shown, Plan.of(dumps, made.loss, _moved(made.cut, problem, place), _moved_firsts(made, problem, place))


def _moved(cut: Cut, problem: Problem, place: Mapping[int, int]) -> Cut:
    """A cut of other steps."""
    stretches = [
        Stretch(each.store, place[problem.edges[each.first - 1]] + 1, place[problem.edges[each.last]])
        for each in cut.stretches
    ]
    return Cut(tuple(stretches), tuple(place[problem.edges[step - 1]] + 1 for step in cut.by_channels), cut.bound)


def _moved_firsts(made: Plan, problem: Problem, place: Mapping[int, int]) -> list[Certificate] | None:
    """The certificates of the first stores, of other steps."""
    return (
        None
        if made.firsts is None
        else [Certificate(each.stores, each.loss, _moved(each.cut, problem, place)) for each in made.firsts]
    )


def _utc_axis(times: Sequence[datetime], width: int, top: str, bottom: str) -> str:
    """The ticks of an axis in UTC: whole hours or days, about eight of them."""
    begin, span = times[0], times[-1] - times[0]
    found = []
    day = ""
    for moment in _ticks(begin, times[-1]):
        x = LEFT + width * ((moment - begin) / span)
        clock = "" if (moment.hour, moment.minute) == (0, 0) and span > timedelta(days=3) else f" {moment:%H:%M}"
        # the day stands at its first tick
        words = clock.strip() if f"{moment:%m-%d}" == day else f"{moment:%m-%d}{clock}"
        day = f"{moment:%m-%d}"
        found.append(
            f"<text class='k' x='{x:.1f}' y='{NUMBERS}'>{words}</text>\n<path class='i' d='M{x:.1f} {top}V{bottom}'/>\n"
        )
    return "".join(found)


def _ticks(begin: datetime, end: datetime) -> list[datetime]:
    """Moments from begin to end, of which a whole hour, some hours or days lie between two."""
    minutes = next((minutes for minutes in TICKS if (end - begin) / timedelta(minutes=minutes) <= 8), TICKS[-1])
    first = begin.replace(hour=0, minute=0, second=0, microsecond=0)
    count = int((end - first) / timedelta(minutes=minutes)) + 1
    return [
        moment
        for moment in (first + timedelta(minutes=minutes * number) for number in range(count))
        if begin <= moment <= end
    ]


def _times_of(ranges: re.Match[str], problem: Problem) -> str:
    """The times of ranges of steps; where there are too many for a line the steps stay."""
    given = [part.split("&#8211;") for part in ranges[1].removesuffix(", ").split(", ")]
    if len(given) > MOST_RANGES:
        return ranges[0]
    times = [(problem.times[int(steps[0]) - 1], problem.times[int(steps[-1])]) for steps in given]
    return "From " + ", ".join(f"{begin:%m-%d %H:%M} to {end:%m-%d %H:%M}" for begin, end in times) + ", "


class Picture:
    """A picture: `svg` is a document of SVG. With matplotlib `figure` is its figure."""

    def __init__(self, svg: str, figure: Any = None) -> None:
        self.svg = svg
        self.figure = figure

    def _repr_svg_(self) -> str:
        return self.svg

    def octets(self, kind: str) -> bytes:
        """The picture as a file: of this ending with matplotlib, else as .svg alone."""
        if kind == ".svg":
            return self.svg.encode()
        if self.figure is None:
            raise ValueError(f"{kind}: without matplotlib there is SVG alone")
        octets = io.BytesIO()
        self.figure.savefig(octets, format=kind.removeprefix("."))
        return octets.getvalue()

    def save(self, path: str | os.PathLike[str]) -> None:
        """Writes the picture into a file: as SVG, or with matplotlib as its name says."""
        if self.figure is not None:
            self.figure.savefig(path)
        elif Path(path).suffix == ".svg":
            Path(path).write_text(self.svg, encoding="utf-8", newline="")
        else:
            raise ValueError(f"{os.fspath(path)}: without matplotlib there is SVG alone")


def windows_picture(worths: Sequence[tuple[datetime, datetime, int]], times: Sequence[datetime]) -> Picture:
    """What each window is worth at most, over the time, as SVG."""
    width, top, height = 720, 112, 160
    most = max([blocks for _, _, blocks in worths] + [1])
    lines = [_utc_axis(times, width, "100", str(top + height))]
    for begin, end, blocks in worths:
        left, right = (LEFT + width * ((moment - times[0]) / (times[-1] - times[0])) for moment in (begin, end))
        tall = height * blocks / most
        if blocks:
            lines.append(
                f"<rect x='{left:.2f}' y='{top + height - tall:.1f}' width='{right - left:.2f}' height='{tall:.1f}' "
                f"fill='#2f6fb0'/>"
            )
    lines.append(
        f"<rect x='{LEFT}' y='{top}' width='{width}' height='{height}' fill='none' stroke='#222' stroke-width='.5'/>"
    )
    lines.append(f"<text x='{LEFT - 8}' y='{top + 12}' text-anchor='end'>{most:,}</text>")
    style = "<style>.k{text-anchor:middle;fill:#444}.i{fill:none;stroke:#bbb;stroke-width:.5}</style>"
    return Picture(
        _svg(
            LEFT + width + 40, top + height + 20, "Blocks saved where one window is as wide as can be", [style, *lines]
        )
    )


def line_picture(points: Sequence[tuple[float, int]], mark: float, title: str, below: str) -> Picture:
    """A line through points, with a mark across, as SVG."""
    left, top, width, height = 96, 48, 640, 240
    last, most = max(x for x, _ in points) or 1, max(max(y for _, y in points), 1)
    places = [(left + width * x / last, top + height - height * y / most) for x, y in points]
    lines = [
        f"<rect x='{left}' y='{top}' width='{width}' height='{height}' fill='none' stroke='#222' stroke-width='.5'/>"
    ]
    lines.append(
        f"<path d='M{' '.join(f'{x:.1f} {y:.1f}' for x, y in places)}' fill='none' stroke='#2f6fb0' stroke-width='2'/>"
    )
    for part in range(5):
        x = left + width * part / 4
        lines.append(f"<text x='{x:.1f}' y='{top + height + 16}' text-anchor='middle'>{last * part / 4:.1f}</text>")
    lines.append(f"<text x='{left - 8}' y='{top + 10}' text-anchor='end'>{most:,}</text>")
    lines.append(f"<text x='{left - 8}' y='{top + height}' text-anchor='end'>0</text>")
    if mark <= last:
        x = left + width * mark / last
        lines.append(f"<path d='M{x:.1f} {top}V{top + height}' stroke='#c4161c' stroke-dasharray='4 3' fill='none'/>")
        lines.append(f"<text x='{x:.1f}' y='{top - 6}' fill='#c4161c' text-anchor='middle'>{mark:.1f} %</text>")
    lines.append(
        f"<text x='{left + width / 2}' y='{top + height + 36}' text-anchor='middle' "
        f"font-weight='bold'>{escape(below)}</text>"
    )
    return Picture(_svg(left + width + 40, top + height + 52, title, lines))


class _Losses(NamedTuple):
    """What a picture shows: some variants of a study with what they lose, in `blocks` or `MB`, beside the `base`."""

    answers: list[Answer]
    losses: dict[int, float]
    base: float | None
    unit: str

    @classmethod
    def of(cls, study: Study, answers: Sequence[Answer], unit: str) -> _Losses:
        """Those of a study."""
        value = study.mb if unit == "MB" else lambda answer: answer.loss
        found = [(answer, value(answer)) for answer in answers]
        losses = {id(answer): loss for answer, loss in found if loss is not None}
        return cls([answer for answer, _ in found if id(answer) in losses], losses, value(study.base), unit)

    def loss(self, answer: Answer) -> float:
        """What a variant loses."""
        return self.losses[id(answer)]

    def words(self, loss: float) -> str:
        """A loss as it is printed."""
        return f"{loss:,.3f}" if self.unit == "MB" else f"{loss:,}"

    def sorted(self, parameters: Sequence[str]) -> _Losses:
        """The same by the parameter, or the greatest loss first."""
        return self._replace(answers=_sorted(self, parameters))


def picture_of(
    study: Study, parameters: Sequence[str] = (), matplotlib: bool | None = None, unit: str = "blocks"
) -> Picture:
    """The picture of a study: by matplotlib where it is installed, unless `matplotlib` says otherwise."""
    if unit not in ("blocks", "MB"):
        raise ValueError(f"the unit is {unit!r}, and can be blocks or MB")
    if unit == "MB" and not study.octets:
        raise ValueError("a study of a setup and a forecast does not know the octets of packets, and counts in blocks")
    answers = [answer for answer in study if answer.loss is not None]
    for name in parameters:
        if not any(name in answer.parameters for answer in answers):
            known = sorted({name for answer in answers for name in answer.parameters})
            raise ValueError(
                f"no variant has the parameter {name}" + (f"; there are {', '.join(known)}" if known else "")
            )
    answers = [answer for answer in answers if all(name in answer.parameters for name in parameters)]
    if len(parameters) > 2:
        raise ValueError("a picture has one or two parameters")
    losses = _Losses.of(study, answers, unit)
    if matplotlib is not False:
        try:
            from matplotlib.figure import Figure  # type: ignore[import]
        except ImportError:
            if matplotlib:
                raise
        else:
            height = 4 if parameters else 3 + 0.2 * min(len(answers), MOST_BARS)
            return _by_matplotlib(Figure(figsize=(10, height), layout="constrained"), losses, parameters)
    if len(parameters) == 2:
        return Picture(_map_svg(losses, parameters))
    return Picture(_bars_svg(losses.sorted(parameters), parameters))


def _sorted(losses: _Losses, parameters: Sequence[str]) -> list[Answer]:
    """The answers by the parameter, or the greatest loss first."""
    answers = losses.answers
    if not parameters:
        return sorted(answers, key=lambda answer: -losses.loss(answer))
    values = [answer.parameters[parameters[0]] for answer in answers]
    try:
        return [
            answer for _, _, answer in sorted(zip(values, range(len(values)), answers), key=lambda entry: entry[:2])
        ]
    except TypeError:
        return answers


def _axes_of(
    losses: _Losses, parameters: Sequence[str]
) -> tuple[list[Any], list[Any], dict[tuple[Any, Any], float]]:
    """The values of two parameters, and the loss at each pair of them."""
    first, second = ([*dict.fromkeys(answer.parameters[name] for answer in losses.answers)] for name in parameters)
    return (
        first,
        second,
        {
            (answer.parameters[parameters[0]], answer.parameters[parameters[1]]): losses.loss(answer)
            for answer in losses.answers
        },
    )


def _by_matplotlib(figure: Any, given: _Losses, parameters: Sequence[str]) -> Picture:
    axes = figure.add_subplot()
    if len(parameters) == 2:
        first, second, losses = _axes_of(given, parameters)
        fields = [[losses.get((x, y), float("nan")) for x in first] for y in second]
        image = axes.imshow(fields, origin="lower", aspect="auto", cmap="OrRd")
        axes.set_xticks(range(len(first)), [str(value) for value in first])
        axes.set_yticks(range(len(second)), [str(value) for value in second])
        axes.set_xlabel(parameters[0])
        axes.set_ylabel(parameters[1])
        figure.colorbar(image, label=f"{given.unit} lost")
    elif parameters:
        shown = given.sorted(parameters).answers
        values = [answer.parameters[parameters[0]] for answer in shown]
        # several answers for one value are points, and no line
        style = "-" if len(values) == len(set(map(str, values))) else ""
        axes.plot(values, list(map(given.loss, shown)), marker="o", linestyle=style, color="#c4161c")
        axes.set_xlabel(parameters[0])
        axes.set_ylabel(f"{given.unit} lost")
        axes.set_ylim(bottom=0)
    else:
        shown = given.sorted(()).answers[:MOST_BARS][::-1]
        axes.barh([answer.name for answer in shown], list(map(given.loss, shown)), color="#2f6fb0")
        axes.set_xlabel(f"{given.unit} lost")
    if len(parameters) < 2 and given.base is not None:
        line = axes.axhline if parameters else axes.axvline
        line(given.base, color="#444", linestyle="--", label=f"as it is: {given.words(given.base)}")
        axes.legend()
    text = io.StringIO()
    figure.savefig(text, format="svg")
    return Picture(text.getvalue(), figure)


def _bars_svg(given: _Losses, parameters: Sequence[str]) -> str:
    """Bars with the loss of each variant, as SVG, in the colours of the program's chart."""
    shown = given.answers[:MOST_BARS]
    lost = given.base or 0
    most = max([*map(given.loss, shown), lost, 1 if given.unit == "blocks" else 1e-3])
    left = 24 + 7 * max([len(_named(answer, parameters)) for answer in shown] + [9])
    height = 64 + 18 * len(shown)
    lines = []
    for place, answer in enumerate(shown):
        y = 48 + 18 * place
        loss = given.loss(answer)
        width = 640 * loss / most
        lines.append(f"<text x='{left - 8}' y='{y + 11}' text-anchor='end'>{escape(_named(answer, parameters))}</text>")
        lines.append(f"<rect x='{left}' y='{y}' width='{width:.1f}' height='14' fill='#2f6fb0'/>")
        lines.append(f"<text x='{left + width + 6:.1f}' y='{y + 11}'>{given.words(loss)}</text>")
    base = left + 640 * lost / most
    lines.append(f"<path d='M{base:.1f} 40V{height - 12}' stroke='#c4161c' stroke-dasharray='4 3' fill='none'/>")
    lines.append(
        f"<text x='{base:.1f}' y='34' fill='#c4161c' text-anchor='middle'>as it is: {given.words(lost)}</text>"
    )
    more = f", the {len(shown)} greatest of {len(given.answers)}" if len(shown) < len(given.answers) else ""
    return _svg(left + 740, height, f"{_lost_in(given.unit)}{more}", lines)


def _lost_in(unit: str) -> str:
    return "Blocks lost" if unit == "blocks" else f"{unit} lost"


def _map_svg(given: _Losses, parameters: Sequence[str]) -> str:
    """A field for each pair of values, with the loss in it, as SVG."""
    first, second, losses = _axes_of(given, parameters)
    most = max([*losses.values(), 1 if given.unit == "blocks" else 1e-3])
    lines = []
    for column, x in enumerate(first):
        lines.append(
            f"<text x='{130 + 70 * column}' y='{72 + 30 * len(second)}' text-anchor='middle'>{escape(str(x))}</text>"
        )
    for row, y in enumerate(reversed(second)):
        lines.append(f"<text x='88' y='{68 + 30 * row}' text-anchor='end'>{escape(str(y))}</text>")
        for column, x in enumerate(first):
            if (x, y) in losses:
                shade = losses[x, y] / most
                fill = f"rgb({255 - int(59 * shade)},{255 - int(233 * shade)},{255 - int(227 * shade)})"
                lines.append(
                    f"<rect x='{96 + 70 * column}' y='{48 + 30 * row}' width='68' height='28' fill='{fill}' "
                    f"stroke='#ccc'/>"
                )
                ink = "#fff" if shade > 0.6 else "#111"
                lines.append(
                    f"<text x='{130 + 70 * column}' y='{67 + 30 * row}' text-anchor='middle' "
                    f"fill='{ink}'>{given.words(losses[x, y])}</text>"
                )
    lines.append(
        f"<text x='{96 + 35 * len(first)}' y='{92 + 30 * len(second)}' text-anchor='middle' "
        f"font-weight='bold'>{escape(parameters[0])}</text>"
    )
    lines.append(f"<text x='16' y='40' font-weight='bold'>{escape(parameters[1])}</text>")
    return _svg(120 + 70 * len(first), 104 + 30 * len(second), _lost_in(given.unit), lines)


def _named(answer: Answer, parameters: Sequence[str]) -> str:
    return str(answer.parameters[parameters[0]]) if parameters else answer.name


def _svg(width: int, height: int, title: str, lines: list[str]) -> str:
    head = (
        f"<svg xmlns='http://www.w3.org/2000/svg' version='1.1' viewBox='0 0 {width} {height}' "
        f"font-family='sans-serif' font-size='12'>"
    )
    body = "\n".join(
        [
            "<rect width='100%' height='100%' fill='#fff'/>",
            f"<text x='16' y='20' font-size='15' font-weight='bold'>{title}</text>",
            *lines,
        ]
    )
    return f"{head}\n{body}\n</svg>\n"
