"""The planner's page: one file that a browser opens, which plans by the proved library inside it and asks nobody.

    python3 -m rudlayog.page [SETUP FORECAST [PLAN]] [--output FILE]

opens it with these texts, or writes it into a file and opens nothing. The status is 0;
  1 where a file cannot be read or written or no browser
opens; 2 for a bad command line."""

from __future__ import annotations

import argparse
import json
import os
import re
import sys
import tempfile
import webbrowser
from collections.abc import Mapping, Sequence
from datetime import datetime, timezone
from pathlib import Path

from .calls import texts
from .forecasts import ForecastLike
from .plans import PlanLike
from .setups import SetupLike

# Where a page has the session that it begins with.
_SESSION = re.compile(r'(<script type="application/json" id="session">)null(</script>)')


def page_file() -> Path:
    """The file of the page: that of RUDLAYOG_PAGE, or the one in the package, or the one that bindings/page has made.
    Raises
    `FileNotFoundError` where there is none."""
    named, here = os.environ.get("RUDLAYOG_PAGE"), Path(__file__).resolve().parent
    found = [Path(named)] if named else [here / "page.html", here.parents[1] / "page" / "out" / "rudlayog.html"]
    for file in found:
        if file.is_file():
            return file
    raise FileNotFoundError(f"no page: it is in the wheel of a release; `bindings/page/test` makes it, and "
        f"RUDLAYOG_PAGE names it; looked for {found[-1]}")


def page(
    setup: SetupLike | None = None,
    forecast: ForecastLike | None = None,
    plan: PlanLike | None = None,
    *,
    begins: datetime | None = None,
    minutes: float = 60,
    stations: Mapping[int, str] | None = None,
) -> str:
    """The page as a document of HTML, which begins with these texts: data, texts or paths, as `rudlayog.plan` takes
    them, and a plan if one is
    to be judged. Without a setup it begins with none. `begins` is when step 1 begins, with its time zone, `minutes`
    how long a step is, and
    `stations` names the stations by step. What the library refuses in the texts is shown by the page."""
    document = page_file().read_text(encoding="utf-8")
    if setup is None or forecast is None:
        if setup is not None or forecast is not None or plan is not None:
            raise ValueError("a setup and a forecast go together, and a plan goes with both")
        return document
    if begins is not None and begins.tzinfo is None:
        raise ValueError("begins has no time zone")
    given = texts(setup=setup, forecast=forecast, **({} if plan is None else {"plan": plan}))
    session = {
        "rudlayog": 1,
        **{name: _written(text) for name, text in zip(("setup", "forecast", "given"), given)},
        "begins": "" if begins is None else _utc(begins),
        "minutes": minutes,
        "stations": dict(stations or {}),
    }
    # No text ends the element that it stands in.
    said = json.dumps(session).replace("<", "\\u003c")
    made, count = _SESSION.subn(lambda found: f"{found[1]}{said}{found[2]}", document)
    if count != 1:
        raise ValueError(f"{page_file()} is no page of this version")
    return made


def _utc(moment: datetime) -> str:
    """A moment in UTC as the page writes it: to the minute, or as exact as it is."""
    text = moment.astimezone(timezone.utc).strftime("%Y-%m-%d %H:%M:%S.%f")
    return text.removesuffix(".000000").removesuffix(":00")


def _written(text: bytes) -> str | list[int]:
    """A text in JSON: as numbers where it is none in UTF-8."""
    try:
        return text.decode("utf-8")
    except UnicodeDecodeError:
        return list(text)


def open_page(document: str, path: str | os.PathLike[str] | None = None) -> Path:
    """Writes a document into a file, or into a new one in the folder for files that do not stay, and opens it in the
    browser. Raises `OSError`
    where none opens."""
    if path is None:
        number, path = tempfile.mkstemp(prefix="rudlayog-", suffix=".html")
        os.close(number)
    file = Path(path).resolve()
    file.write_text(document, encoding="utf-8")
    if not webbrowser.open(file.as_uri()):
        raise OSError(f"no browser opens {file}")
    return file


def main(words: Sequence[str] | None = None) -> int:
    """The command."""
    command = argparse.ArgumentParser(prog="rudlayog page", description="Opens the planner's page in a browser.")
    command.add_argument("setup", nargs="?", help="a setup (TOML)")
    command.add_argument("forecast", nargs="?", help="a forecast (CSV)")
    command.add_argument("plan", nargs="?", help="a plan text, which is judged")
    command.add_argument("--output", metavar="FILE", help="write the page into FILE, and open nothing")
    given = command.parse_args(words)
    if given.setup and not given.forecast:
        command.error("a forecast goes with a setup")
    try:
        files = [Path(name) if name else None for name in (given.setup, given.forecast, given.plan)]
        document = page(*files)
        if given.output:
            Path(given.output).write_text(document, encoding="utf-8")
        else:
            print(open_page(document))
    except (OSError, ValueError) as fault:
        print(f"rudlayog page: {fault}", file=sys.stderr)
        return 1
    return 0


if __name__ == "__main__":
    sys.exit(main())
