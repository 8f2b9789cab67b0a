"""The command `rudlayog`: a mission's plan, its sheet for operations, a study and its sensitivity."""

from __future__ import annotations

import os
import sys
import tempfile
import warnings
from argparse import SUPPRESS, ArgumentParser, Namespace
from collections.abc import Iterator
from itertools import chain
from pathlib import Path
from typing import Any, NoReturn

from . import __version__, version
from ._files import Forms, made_for, page_of, workbook_of
from ._tables import csv_of, html_of
from ._units import MissionError, fault, number_of
from .mission import Mission, MissionWarning
from .pictures import above_one_another
from .refusals import Refusal
from .sheets import MissionPlan
from .study import Variant, each_pass_lost, each_store_sized, rated, scaled, study

# The options of each command, beside those of all.
OPTIONS = {
    "plan": ("step", "horizon", "look", "in_order"),
    "passes": ("step", "horizon", "look", "in_order"),
    "timeline": ("step", "horizon", "look", "in_order"),
    "study": ("horizon", "look", "in_order", "lost", "sizes", "arrivals", "rates", "ages", "mb", "quiet"),
    "sensitivity": ("step",),
    "margin": ("stores",),
}
# The endings of the names of files that each command writes.
TABLES = (".csv", ".html", ".xlsx")
ENDINGS = {
    "plan": (".txt", ".svg", *TABLES),
    "passes": (".md", *TABLES),
    "timeline": TABLES,
    "study": (".svg", ".png", ".pdf", *TABLES),
    "sensitivity": (".svg", *TABLES),
    "margin": (".svg", *TABLES),
}
USAGE = """\
usage: rudlayog MISSION.toml [plan|passes|timeline|study|sensitivity|margin] [options]

  plan         the plan text of each part, with its cut
  passes       the sheet for operations (done if nothing is said)
  timeline     each dump with its begin, end, store, station, packets, MB and rate
  study        the loss of each variant
  sensitivity  what each window, size and limit is worth
  margin       by how much arrivals may grow and stores may shrink before more is lost

options:
  --output FILE     write into FILE, and print nothing; the ending of its name says the form, and others are refused:
                      .csv .html .xlsx  each command: its table
                      .txt .svg         plan: the plan text, the chart
                      .md               passes: the table, as printed
                      .svg .png .pdf    study: its picture (without matplotlib .svg alone)
                      .svg              sensitivity, margin: the picture
                    a name without an ending gets what is printed
  --step MINUTES    steps of at most this length; without it they go from event to event (plan, passes, timeline,
                    sensitivity)
  --horizon MINUTES plan in parts of this length (plan, passes, timeline, study)
  --look MINUTES    plan each part together with this time after it; without it with as much as the horizon
  --in-order        serve the stores in the mission's order: the first loses least, the first two together, and so on
                    (plan, passes, timeline, study)
  --lost            study: each pass lost (this is done if no other variant is named)
  --sizes FACTOR    study: each store this many times as large
  --arrivals FACTOR study: all that arrives this many times as much; may be said again
  --rates FACTOR    study: the rates of all passes this many times as high; may be said again
  --ages            study: how old data are when they go down
  --mb              study: losses in MB, also in its picture
  --quiet           study: no progress bar
  --stores A,B      margin: growth of what arrives in these stores
  --help, --version

What is odd with a mission goes to standard error. The status is 0 where it is done, and for --help and --version; 1
where something is refused or cannot be read or written, or no variant of a study can be planned; and 2 for a bad
command line.
"""


class _Words(ArgumentParser):
    """The command line; what is wrong with it goes to standard error, with status 2."""

    def error(self, message: str) -> NoReturn:
        sys.stderr.write(f"rudlayog: {message}\n\n{USAGE}")
        sys.exit(2)


def _read_words(given: list[str]) -> Namespace:
    words = _Words("rudlayog", add_help=False, argument_default=SUPPRESS, allow_abbrev=False)
    words.add_argument("words", nargs="*", default=[])
    for name in ("--output", "--step", "--horizon", "--look", "--sizes", "--stores"):
        words.add_argument(name, default=None)
    for name in ("--arrivals", "--rates"):
        words.add_argument(name, action="append", default=[])
    for name in ("--in-order", "--lost", "--ages", "--mb", "--quiet", "--help", "-h", "--version", "-V"):
        words.add_argument(name, action="store_true", default=False)
    found = words.parse_intermixed_args(given)
    if found.help or found.h or found.version or found.V:
        return found
    named = [word for word in found.words if word in OPTIONS]
    files = [word for word in found.words if word not in OPTIONS]
    if len(files) != 1 or len(named) > 1:
        words.error("one file of a mission, and at most one of " + ", ".join(OPTIONS))
    found.mission, found.command = files[0], named[0] if named else "passes"
    for name in {name for names in OPTIONS.values() for name in names} - set(OPTIONS[found.command]):
        if getattr(found, name):
            words.error(
                f"--{name.replace('_', '-')} is none of {found.command}; its options are "
                + ", ".join(f"--{each.replace('_', '-')}" for each in OPTIONS[found.command])
            )
    if found.look is not None and found.horizon is None:
        words.error("--look goes with --horizon")
    return found


def main(given: list[str] | None = None) -> int:
    """The command. Its answer is the status."""
    words = _read_words(sys.argv[1:] if given is None else given)
    try:
        if words.help or words.h:
            sys.stdout.write(USAGE)
            sys.stdout.flush()
            return 0
        if words.version or words.V:
            print(f"rudlayog {__version__}, library {version()}")
            return 0
        _done(words)
        sys.stdout.flush()
    except Refusal as refusal:
        print(f"refused {refusal.text()}")
        sys.stderr.write(f"rudlayog: {refusal}\n")
        return 1
    except MissionError as error:
        for each in error.faults:
            sys.stderr.write(f"rudlayog: {each}\n")
        return 1
    except BrokenPipeError:
        os.dup2(os.open(os.devnull, os.O_WRONLY), sys.stdout.fileno())
        return 1
    except (ValueError, OSError) as error:
        sys.stderr.write(f"rudlayog: {error}\n")
        return 1
    return 0


def _done(words: Namespace) -> None:
    """Does what the words say."""
    mission = _read(words.mission)
    step, horizon, look = (_minutes(f"--{name}", getattr(words, name)) for name in ("step", "horizon", "look"))
    if words.command == "study":
        _study(words, mission, horizon, look)
        return
    _look_at(words)
    if words.command == "sensitivity":
        forms = mission.sensitivity(step).forms()
    elif words.command == "margin":
        forms = mission.margin(*(words.stores.split(",") if words.stores else ())).forms()
    else:
        made = mission.plan(step, horizon, look=look, in_order=words.in_order)
        forms = {"plan": _plan_forms, "passes": _sheet_forms, "timeline": _timeline_forms}[words.command](made)
    _put(words, made_for(words.output, forms, "--output")())


def _look_at(words: Namespace) -> None:
    """Raises `MissionError` where the name of the output has another ending than the command writes, before anything is
    planned."""
    made_for(words.output, dict.fromkeys(("", *ENDINGS[words.command]), str), "--output")


def _sheet_forms(made: MissionPlan) -> Forms:
    sheet = made.passes()
    return {"": sheet.markdown, **sheet.forms()}


def _timeline_forms(made: MissionPlan) -> Forms:
    return made.timeline().forms()


def _plan_forms(made: MissionPlan) -> Forms:
    """The forms of a file of a plan: its text, the table of its dumps, and its chart; of parts one after the other."""
    charts = made.charts
    return {
        "": lambda: "".join(plan.text for _, plan in made.parts),
        ".txt": lambda: "".join(plan.text for _, plan in made.parts),
        ".csv": lambda: csv_of(dumps := _dumps(made), zip(*dumps.values())),
        ".html": lambda: page_of("Plan", *charts(), html_of(_dumps(made), most=None)),
        ".svg": lambda: charts()[0] if len(made.parts) == 1 else above_one_another(charts()),
        ".xlsx": lambda: workbook_of(_dumps(made)),
    }


def _dumps(made: MissionPlan) -> dict[str, list[Any]]:
    """What leaves each store in each step, in packets, with the step's begin and end."""
    times = {"begin": [step.begin for step in made.steps], "end": [step.end for step in made.steps]}
    return {**times, **{store.id: [step.dumped[store.id] for step in made.steps] for store in made.mission.stores}}


def _read(path: str) -> Mission:
    """The mission of a file; what is odd with it goes to standard error."""
    with warnings.catch_warnings(record=True) as odd:
        warnings.simplefilter("always", MissionWarning)
        mission = Mission.read(path)
    for each in odd:
        sys.stderr.write(f"rudlayog: warning: {each.message}\n")
    return mission


def _minutes(name: str, given: str | None) -> float | None:
    return None if given is None else float(number_of(given, name, "minutes"))


def _study(words: Namespace, mission: Mission, horizon: float | None, look: float | None) -> None:
    """Prints or draws a study, also of what is done where it is interrupted."""
    _look_at(words)
    variants = list(_variants(words, mission))
    found = study(
        mission,
        variants,
        in_order=words.in_order,
        ages=words.ages,
        horizon=horizon,
        look=look,
        progress=False if words.quiet else None,
    )
    _put(words, made_for(words.output, found.forms("MB" if words.mb else "blocks"), "--output")())
    if not found.is_whole:
        raise fault("", f"an interrupt after {len(found)} variants", "to go on until the last one")
    if len(found) and all(answer.loss is None for answer in found):
        raise ValueError(f"no variant can be planned; the first: {found[0].refused}")


def _variants(words: Namespace, mission: Mission) -> Iterator[Variant]:
    parts = []
    if words.sizes is not None and not number_of(words.sizes, "--sizes", "a factor above 0"):
        raise fault("--sizes", words.sizes, "a factor above 0")
    for name in ("arrivals", "rates"):
        for factor in getattr(words, name):
            number_of(factor, f"--{name}", "a factor of 0 or more")
    if words.sizes is not None:
        parts.append(each_store_sized(mission, words.sizes))
    parts.append(Variant(f"arrivals x {factor}", (scaled(factor),)) for factor in words.arrivals)
    parts.append(Variant(f"rates x {factor}", (rated(factor=factor),)) for factor in words.rates)
    if words.lost or not (words.sizes or words.arrivals or words.rates):
        parts.append(each_pass_lost(mission))
    return chain.from_iterable(parts)


def _put(words: Namespace, made: str | bytes) -> None:
    """Prints what is made, or writes it into a new file that takes the name of the output; that is as it was where this
    fails."""
    octets = made.encode() if isinstance(made, str) else made
    if words.output is None:
        sys.stdout.write(octets.decode())
        return
    output = Path(words.output)
    if output.exists() and (not output.is_file() or output.is_symlink() or output.samefile(words.mission)):
        raise fault("--output", words.output, "a new file, or one that is not the mission, no link, and no folder")
    handle, name = tempfile.mkstemp(prefix=f"{output.name}.", dir=output.parent)
    try:
        with os.fdopen(handle, "wb") as file:
            file.write(octets)
        mask = os.umask(0)
        os.umask(mask)
        os.chmod(name, 0o666 & ~mask)
        os.replace(name, output)
    except BaseException:
        os.unlink(name)
        raise


if __name__ == "__main__":
    sys.exit(main())
