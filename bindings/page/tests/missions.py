"""Missions in files, as planners write them, at random: some with slips. What the page makes of each is compared with
the Python package: the setup, the forecast and the times of the steps; or that it is refused, with the same words."""

from __future__ import annotations

import os
import random
import sys
import tempfile
import threading
import warnings
from dataclasses import replace
from datetime import datetime, timedelta, timezone
from functools import cache
from pathlib import Path
from types import SimpleNamespace
from typing import Any

from cases import TOP

sys.path.insert(0, str(TOP / "bindings" / "python"))

DAY = datetime(2031, 3, 3, tzinfo=timezone.utc)
Files = dict[str, bytes]


def moment(dice: random.Random, minutes: float) -> str:
    """A moment in one of the forms that a mission may have."""
    at = DAY + timedelta(seconds=round(minutes * 60))
    offset = timezone(timedelta(hours=dice.choice([-5, 1, 5.5])))
    forms = (f"{at:%Y-%m-%dT%H:%M:%SZ}", f"{at:%Y-%jT%H:%M:%SZ}", f"{at.astimezone(offset).isoformat()}",
        f"{at:%Y-%m-%d %H:%M:%S}.250Z", f"{at:%Y%m%dT%H%M%SZ}")
    return dice.choice([forms[0], forms[0], *forms])


def volume(dice: random.Random, blocks: int, in_binary: bool) -> str:
    octets = blocks * 1024
    units = [f"{blocks} blocks", f"{octets}", f"{octets} B", f"{octets * 8} bit"] + (
        [f"{octets / 1024:g} KiB", f"{octets / 2**20} MiB"] if in_binary
        else [f"{octets / 1000} kB", f"{octets / 1e6} MB", f"{octets / 125:g} kbit"])
    return dice.choice(units)


def rate(dice: random.Random, kbits: float) -> str:
    return dice.choice([f"{kbits} kbit/s", f"{kbits}kbps", f"{kbits * 1000:.1f}", f"{kbits / 1000:.6f} Mbit/s",
        f"{kbits / 8:.3f} blocks/s", f"{kbits * 7:.2f} blocks/min", f"{kbits * 440:.1f} blocks/h"])


def quoted(dice: random.Random, text: str) -> str:
    return f"'{text}'" if dice.random() < 0.3 else f'"{text}"'


def rows_as(dice: random.Random, kind: str, plural: str, rows: list[dict[str, str]], files: Files) -> tuple[str, str]:
    """Rows as tables of the mission, or as a CSV file: what stands at the top of the mission and below."""
    if dice.random() < 0.5 and all("channels" not in row for row in rows):
        columns = list({key: None for row in rows for key in row})
        end = dice.choice(["\n", "\r\n"])
        lines = [",".join(columns), *(",".join(quoted_cell(dice, row.get(key, "")) for key in columns) for row in rows)]
        files[f"{plural}.csv"] = dice.choice([b"", b"\xef\xbb\xbf"]) + end.join(
            [*lines, dice.choice(["", ""])]).encode()
        return f"{plural} = '{plural}.csv'\n", ""
    head = dice.choice([f"[[{kind}]]", f"[[ {kind} ]]", f"[[{kind}]]  # one more"])
    return "", "\n".join(head + "\n" + "".join(f"{key} = {row[key] if key == 'channels' else quoted(dice, row[key])}\n"
        for key in row) for row in rows) + "\n"


def quoted_cell(dice: random.Random, cell: str) -> str:
    return f'"{cell}"' if dice.random() < 0.2 else cell


def mission_files(number: int) -> Files:
    """The files of the mission of this number."""
    dice = random.Random(number)
    files: Files = {}
    hours, in_binary = dice.choice([12, 24, 48]), dice.random() < 0.3
    packet, block = dice.choice([128, 500, 777, 1000, 1024]), dice.choice([None, 1024, 2048])
    top = f"name = {quoted(dice, f'mission {number}')}\npacket = {dice.choice([str(packet), hex(packet)])}\n" + (
        f"block = {block:_}\n" if block else "")
    if dice.random() < 0.6:
        top += f"begin = {DAY:%Y-%m-%dT%H:%M:%SZ}\nend = {quoted(dice, moment(dice, hours * 60))}\n"
    if dice.random() < 0.9:
        top += f"overlap = {quoted(dice, dice.choice(['both', 'better']))}\n"
    if dice.random() < 0.1:
        top += f"unit = {dice.choice([0, 1, 3, 10])}\n"
    stores = [f"S{place}" for place in range(dice.randint(1, 5))]
    stations = [f"G{place}" for place in range(dice.randint(1, 3))]
    below = ""
    for store in stores:
        blocks = dice.choice([40, 300, 2000]) if dice.random() < 0.9 else 5_000_000
        lines = {"id": quoted(dice, store), "size": quoted(dice, volume(dice, blocks, in_binary)),
            "channel": str(dice.randint(0, 2))}
        lines |= {"type": quoted(dice, "circular")} if dice.random() < 0.5 else {}
        lines |= {"holds": quoted(dice, f"{dice.randint(0, 30)} blocks")} if dice.random() < 0.5 else {}
        lines |= {"packet": str(dice.choice([64, 901]))} if dice.random() < 0.3 else {}
        below += "\n[[store]]\n" + "".join(f"{key} = {value}\n" for key, value in lines.items())
    parts = [rows_as(dice, "station", "stations", [station_row(dice, name) for name in stations], files)]
    rows = many_rows(stations[0]) if number % 40 == 39 else pass_rows(dice, stations, hours)
    parts.append(rows_as(dice, "pass", "passes", rows, files))
    parts.append(rows_as(dice, "observation", "observations", observation_rows(dice, stores, hours, in_binary), files))
    files["mission.toml"] = (top + "".join(part[0] for part in parts) + below + "".join(
        part[1] for part in parts)).encode()
    if dice.random() < 0.3:
        slip(dice, files)
    return files


def station_row(dice: random.Random, name: str) -> dict[str, str]:
    kbits = dice.choice([0.7, 3, 8.192, 25])
    row = {"name": name, "rate": rate(dice, kbits)}
    own = [f'{channel} = "{round(kbits * dice.choice([0.3, 0.55, 1]), 3)} kbit/s"' for channel in range(3)
        if dice.random() < 0.4]
    return row | ({"channels": "{ " + ", ".join(own) + " }"} if own else {})


def pass_rows(dice: random.Random, stations: list[str], hours: int) -> list[dict[str, str]]:
    rows, at, busy = [], 0.0, dict[str, float]()
    for _ in range(dice.randint(1, 7)):
        at = max(at + dice.uniform(-20, 260), 0)
        # One station has one pass at a time, but for some slips.
        free = [name for name in stations if busy.get(name, 0) <= at] if dice.random() < 0.95 else stations
        if not free:
            at, free = max(busy.values()), stations
        ends, station = at + dice.uniform(5, 110), dice.choice(free)
        busy[station] = ends
        row = {"station": station, "begin": moment(dice, at), "end": moment(dice, ends)}
        rows.append(row | ({"rate": rate(dice, dice.uniform(0.5, 30))} if dice.random() < 0.2 else {}))
        at = min(ends, hours * 60 - 120)
    return rows


def many_rows(station: str) -> list[dict[str, str]]:
    """More passes than have steps."""
    return [{"station": station, "begin": f"{DAY + timedelta(minutes=4 * nth):%Y-%m-%dT%H:%M:%SZ}",
        "end": f"{DAY + timedelta(minutes=4 * nth + 1, seconds=nth):%Y-%m-%dT%H:%M:%SZ}"} for nth in range(140)]


def observation_rows(dice: random.Random, stores: list[str], hours: int, in_binary: bool) -> list[dict[str, str]]:
    rows = []
    for store in stores:
        if dice.random() < 0.5:
            rows.append({"store": store, "begin": moment(dice, 0), "end": moment(dice, hours * 60),
                "rate": f"{dice.uniform(1, 600):.2f} bit/s"})
        for _ in range(dice.randint(0, 4)):
            begin = dice.uniform(0, hours * 60 - 200)
            rows.append({"store": store, "begin": moment(dice, begin),
                "end": moment(dice, begin + dice.uniform(1, 190)),
                "volume": volume(dice, dice.randint(1, 500), in_binary)})
    return rows or [{"store": stores[0], "begin": moment(dice, 0), "end": moment(dice, 60), "rate": "1 kbit/s"}]


SLIPS = [("kbit/s", "kbyte/s"), ("Z", ""), ("2031-03-03", "2031-02-30"), ("channel = ", "chanel = "), ("S0", "S9"),
    (" blocks", " block s"), ("rate", "rates"), ("T", " "), ("G0", "G7"), ('"', ""), ("size", "sise"), ("= 1", "= 1e3"),
    ("1", "-1"), ("name", "station"), ("S1", "S0"), ("23:", "23:59:60Z"), ("\"both\"", "3"), ("GB", "Gb"),
    ("unit = 3", "unit = -3"), ("channel = 1", "channel = \"1/2\""), ("bounded", "bound"), ("circular", "circle"),
    ("S2", "s2")]


# The times of what begins and ends, and texts with slips of which each is told with its place.
SPAN = 'begin = 2031-03-03T00:00:00Z\nend = "2031-062T01:00:00Z"\n'
STORE, PASS = '[[store]]\nid = "A"\nsize = 5000\n', f'[[pass]]\nstation = "G"\nrate = 800\n{SPAN}'
WRONG = [
    STORE, PASS, SPAN, f"{SPAN}unit = -1\nname = 2\noverlap = 3\npacket = 5000\n{STORE}", f"{SPAN}block = 1.5\n{STORE}",
    f'begin = 07:32:00\nend = 2031-03-03\nmoments = 3\n{STORE}channel = "1/2"\n',
    f'{SPAN}{STORE}[[pass]]\nstation = "G"\nbegin = "2031-03-03T23:59:60Z"\nend = "2031-03-03T01:00:00"\n'
    f'rate = "5 Mb/s"\nchannels = "x"\n',
    f"{SPAN}{STORE}chanel = 9\nchannel = 1.5\n{STORE}chanel = 9\nfoo = 3\n{PASS}'channel:1' = 5\nchannels = []\n",
    f'{SPAN}{STORE}{PASS}[[pass]]\nstation = "G"\nbegin = "0001-01-01T00:00:00+05:00"\nend = 2031-03-03\nrate = 1e40\n'
    f"channels = {{1 = 3, 01 = 5}}\n",
    f"{SPAN}{STORE}{STORE}{PASS}{PASS}", f'{SPAN}{STORE}type = "ring"\nchannel = 9\nholds = "9 kB"\npacket = 2000\n',
    f'{SPAN}{PASS}' + STORE.replace("A", "a b") + "packet = 0\n" + "".join(
        STORE.replace("A", f"S{nth}") for nth in range(17)),
    f'{SPAN}{STORE}{PASS}{PASS.replace("G", "H")}', f"{SPAN}{STORE}size = 3\n",
    f"{SPAN}stores = 'none.csv'\nrout = 3\n",
    f'{SPAN}{STORE}holds = "1/3 kB"\n{PASS}{PASS.replace("00:00:00", "00:30:00")}',
    f"{SPAN}{STORE}[[observation]]\nstore = 'A'\nvolume = '20 TB'\n{SPAN}",
    SPAN + STORE + '[[observation]]\nstore = "A"\nvolume = "9/7 MB"\n'.join(["", SPAN, SPAN]),
]


def slip(dice: random.Random, files: Files) -> None:
    """A slip in one of the files."""
    name = dice.choice(sorted(files))
    one, other = dice.choice(SLIPS)
    text = files[name].decode()
    places = [at for at in range(len(text)) if text.startswith(one, at)]
    if places:
        at = dice.choice(places)
        files[name] = (text[:at] + other + text[at + len(one) :]).encode()


@cache
def package() -> Any:
    """The modules of the package, whose library is built by then."""
    from rudlayog import mission, variants

    return SimpleNamespace(mission=mission, variants=variants)


# A mission is read in a folder of its own, which is one at a time for all browsers.
IN_FOLDER = threading.Lock()


def read(files: Files) -> Any:
    """The mission that the package reads."""
    with IN_FOLDER, tempfile.TemporaryDirectory() as folder:
        here = os.getcwd()
        for name, octets in files.items():
            Path(folder, name).write_bytes(octets)
        os.chdir(folder)
        try:
            # What is odd is a warning of the package alone.
            with warnings.catch_warnings():
                warnings.simplefilter("ignore")
                return package().mission.Mission.read("mission.toml")
        finally:
            os.chdir(here)


def forecast_without(files: Files, name: str) -> bytes:
    """The forecast without a pass, in the same unit."""
    return bytes(package().variants.in_its_unit(read(files)).without(name).problem().forecast)


def forecast_with(files: Files, station: str, begin: str, end: str) -> str:
    """The forecast with a pass more, in the same unit."""
    mission = package().variants.in_its_unit(read(files))
    more = replace(mission, passes=(*mission.passes, package().mission.Pass(station, begin, end, name="one more")))
    return bytes(more.problem().forecast).decode()


def said_by_package(files: Files) -> dict[str, object]:
    """What the Python package makes of a mission."""
    try:
        problem = read(files).problem()
    except package().mission.MissionError as error:
        return {"fault": str(error)}
    return {"setup": bytes(problem.setup).decode(), "forecast": bytes(problem.forecast).decode(),
        "edges": list(problem.edges)}
