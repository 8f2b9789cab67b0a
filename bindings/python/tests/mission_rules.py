"""The rules of a mission in UTC, in exact numbers and in plain Python, from the mission's texts: what setup and
forecast of its steps have to say where passes do not overlap. Nothing here comes from the package or the library."""

import csv
import io
import tomllib
from dataclasses import dataclass
from datetime import datetime, timedelta
from fractions import Fraction
from itertools import pairwise
from math import ceil, floor

OCTETS = {"": 1, "octets": 1, "kB": 10**3, "MB": 10**6, "GB": 10**9, "KiB": 2**10, "MiB": 2**20, "GiB": 2**30}
OCTETS |= {"kbit": 125, "Mbit": 125_000, "Gbit": 125_000_000}
OCTETS_A_SECOND = {"": Fraction(1, 8), "bit/s": Fraction(1, 8), "kbit/s": 125, "Mbit/s": 125_000}
SECONDS = {"blocks/s": 1, "blocks/min": 60, "blocks/h": 3600}
MOST = 1_000_000
MICRO = timedelta(microseconds=1)


def moment(given):
    """A moment, as TOML has it or as a text, with the month and day or with the day of the year."""
    if isinstance(given, datetime):
        return given
    try:
        return datetime.fromisoformat(given)
    except ValueError:
        return datetime.strptime(given.replace("Z", "+0000"), "%Y-%jT%H:%M:%S.%f%z")


def amount(given):
    """A number and its unit."""
    number, _, unit = str(given).strip().partition(" ")
    return Fraction(number), unit.strip()


def volume(given, block):
    """Octets; `blocks` have so many."""
    number, unit = amount(given)
    return number * (block if unit in ("block", "blocks") else OCTETS[unit])


def rate(given, packet):
    """Octets a second; packets have so many."""
    number, unit = amount(given)
    return number * (Fraction(packet, SECONDS[unit]) if unit in SECONDS else OCTETS_A_SECOND[unit])


@dataclass
class Kept:
    """A store in packets, and how many of them are a unit."""

    id: str
    kind: str
    channel: int
    packet: int
    size: int
    held: int
    unit: int = 1


@dataclass
class Flow:
    """What flows from one time to another, in microseconds of the mission, at so many octets a second."""

    begin: int
    end: int
    octets: Fraction
    channels: dict

    def until(self, time):
        return self.octets * max(min(time, self.end) - self.begin, 0) / 1_000_000


class Rules:
    """A mission by its text in TOML, and its tables in CSV by their names."""

    def __init__(self, text, tables=None):
        said = tomllib.loads(text)
        rows = {key: list(said.get(key, ())) for key in ("store", "station", "pass", "observation")}
        named = {"stores": "store", "stations": "station", "passes": "pass", "observations": "observation"}
        for name, key in named.items():
            if name in said:
                rows[key] += self.table(tables[said[name]])
        self.block, self.packet = said.get("block", 1024), said.get("packet", 1024)
        self.stores = [self.store(row) for row in rows["store"]]
        timed = rows["pass"] + rows["observation"]
        parts = [moment(row[key]) for row in timed for key in ("begin", "end")]
        self.begin = moment(said["begin"]) if "begin" in said else min(parts)
        self.lasts = ((moment(said["end"]) if "end" in said else max(parts)) - self.begin) // MICRO
        stations = {row["name"]: row for row in rows["station"]}
        links = [self.link(row, stations.get(row["station"], {})) for row in rows["pass"]]
        self.passes = sorted((one for one in links if one.begin < one.end), key=lambda one: (one.begin, one.end))
        self.coming = {
            store.id: [self.seen(row, store) for row in rows["observation"] if row["store"] == store.id]
            for store in self.stores
        }

    @staticmethod
    def table(text):
        """The rows of a table, with the rates of channels below one key."""
        found = []
        for row in csv.DictReader(io.StringIO(text)):
            cells = {key.strip(): cell.strip() for key, cell in row.items() if cell and cell.strip()}
            own = {key[8:]: cells.pop(key) for key in [*cells] if key.startswith("channel:")}
            found.append(cells | ({"channels": own} if own else {}))
        return [row for row in found if row]

    def store(self, row):
        packet = int(row.get("packet", self.packet))
        size = floor(volume(row["size"], self.block) / self.block)
        held = ceil(volume(row.get("holds", 0), packet) / packet)
        return Kept(row["id"], row.get("type", "bounded"), int(row.get("channel", 0)), packet, size, held)

    def on(self, channel):
        """The stores of a channel, or all where it has none."""
        return [store for store in self.stores if store.channel == channel] or self.stores

    def span(self, row):
        begin, end = ((moment(row[key]) - self.begin) // MICRO for key in ("begin", "end"))
        return max(begin, 0), min(end, self.lasts)

    def link(self, row, station):
        own = {**station.get("channels", {}), **row.get("channels", {})}
        longest = max(store.packet for store in self.stores)
        channels = {
            int(channel): rate(each, max(store.packet for store in self.on(int(channel))))
            for channel, each in own.items()
        }
        return Flow(*self.span(row), rate(row.get("rate", station.get("rate")), longest), channels)

    def seen(self, row, store):
        begin, end = ((moment(row[key]) - self.begin) // MICRO for key in ("begin", "end"))
        if "rate" in row:
            octets = rate(row["rate"], store.packet)
        else:
            octets = volume(row["volume"], store.packet) * 1_000_000 / (end - begin)
        return Flow(*self.span(row), octets, {})

    def edges(self):
        """When something changes that can be sent."""
        found = {0, self.lasts, *(time for one in self.passes for time in (one.begin, one.end))}
        seen = [one for flows in self.coming.values() for one in flows if one.begin < one.end]
        ends = {time for one in seen for time in (one.begin, one.end)}
        return sorted(found | {time for time in ends if any(one.begin < time < one.end for one in self.passes)})

    def in_units(self, unit):
        """What setup and forecast say in units of so many of the longest packets: the rows of stores, the channels that
        have limits, and for each step its window, its limits and its arrivals."""
        whole = unit * max(store.packet for store in self.stores)
        for store in self.stores:
            store.unit = max(min((2 * whole + store.packet) // (2 * store.packet), store.size), 1)
        octets = {store.id: store.unit * store.packet for store in self.stores}
        link = max(octets.values())
        limited = sorted({channel for one in self.passes for channel in one.channels})

        def sent(one, channel, time):
            """The units that a pass has been able to send: a channel's are as large as its largest."""
            seconds = Fraction(max(min(time, one.end) - one.begin, 0), 1_000_000)
            pace = one.octets / link
            if channel in one.channels:
                largest = max(octets[store.id] for store in self.on(channel))
                pace = min(pace, one.channels[channel] / largest)
            return floor(pace * seconds)

        def come(store, time):
            return ceil(sum((one.until(time) for one in self.coming[store.id]), Fraction(0)) / octets[store.id])

        steps = [
            (
                sum(sent(one, None, end) - sent(one, None, begin) for one in self.passes),
                [sum(sent(one, each, end) - sent(one, each, begin) for one in self.passes) for each in limited],
                [come(store, end) - come(store, begin) for store in self.stores],
            )
            for begin, end in pairwise(self.edges())
        ]
        stores = []
        for store in self.stores:
            size = store.size // store.unit
            start = min(ceil(Fraction(store.held, store.unit)), size)
            stores.append((store.id, size, store.kind, store.channel, start))
        return stores, limited, steps

    def is_in_range(self, unit):
        stores, _, steps = self.in_units(unit)
        numbers = [size for _, size, *_ in stores]
        for window, limits, arrivals in steps:
            numbers += window, *limits, *arrivals
        return max(numbers) <= MOST


def said_by(setup, forecast):
    """What the texts say, in the same form."""
    said = tomllib.loads(setup)
    assert said["arrivals"] == "during", setup
    stores = [(row["id"], row["size"], row["type"], row["channel"], row.get("start", 0)) for row in said["store"]]
    header, *rows = csv.reader(io.StringIO(forecast))
    limited = [int(name[6:]) for name in header if name.startswith("limit:")]
    last = len(header) - len(limited)
    steps = [(int(row[1]), [int(each) for each in row[last:]], [int(each) for each in row[2:last]]) for row in rows]
    return stores, limited, steps
