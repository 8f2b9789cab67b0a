"""Missions and changes that are drawn by chance: zones, days of the year, all units, packets of 16 to 1,024 octets,
channels, passes that overlap, observations across passes, and what stores hold; and changes in any order."""

import random
import warnings
from datetime import datetime, timedelta, timezone

from rudlayog.mission import Mission, MissionWarning, Observation, PacketStore, Pass, Station
from rudlayog.study import lost, rated, scaled, shortened, sized

DAY = datetime(2031, 3, 3, tzinfo=timezone.utc)
OCTETS = {
    1000: {"kB": 1e3, "MB": 1e6, "GB": 1e9},
    1024: {"KiB": 1024, "MiB": 2**20, "GiB": 2**30},
    8: {"": 1, "octets": 1, "kbit": 125, "Mbit": 125_000},
}
BITS = {"bit/s": 1, "": 1, "kbit/s": 1e3, "Mbit/s": 1e6}
SECONDS = {"blocks/s": 1, "blocks/min": 60, "blocks/h": 3600}


def moment_of(dice, minutes):
    """A moment, as a `datetime` or a text, in some zone, with its date or the day of its year."""
    moment = DAY + timedelta(seconds=round(minutes * 60, dice.choice([0, 0, 3, 6])))
    if dice.random() < 0.2:
        return moment.strftime("%Y-%jT%H:%M:%S.%fZ")
    moment = moment.astimezone(timezone(timedelta(minutes=dice.choice([0, 0, 60, -300, 345]))))
    return moment if dice.random() < 0.3 else moment.isoformat()


def volume_of(dice, octets, block, family):
    """About this many octets, in some unit: of 1000 octets or of 1024, in bits, or in blocks."""
    units = {**OCTETS[family], **OCTETS[8]}
    unit = dice.choice([*units, "blocks"])
    if unit in ("blocks", "", "octets"):
        return f"{max(round(octets / (block if unit == 'blocks' else 1)), 1)} {unit}".strip()
    return f"{octets / units[unit]:.9f} {unit}"


def rate_of(dice, bits, packet):
    """About this many bits a second, in some unit."""
    unit = dice.choice([*BITS, *SECONDS])
    if unit in SECONDS:
        return f"{bits / 8 / packet * SECONDS[unit]:.5f} {unit}"
    return f"{bits / BITS[unit]:.7f} {unit}" if unit else round(bits, 2)


def drawn_stores(dice, lengths, block, family):
    """One to five stores."""
    stores = []
    for place in range(dice.randint(1, 5)):
        blocks = dice.choice([60, 400, 3000])
        stores.append(
            PacketStore(
                f"S{place}",
                volume_of(dice, (blocks + dice.random()) * block, block, family),
                dice.choice(["bounded", "circular"]),
                dice.randint(0, 2),
                f"{dice.choice([0, dice.randint(0, 40), blocks - 1])} blocks",
                dice.choice(lengths),
            )
        )
    return stores


def drawn_passes(dice, hours, packet):
    """One to three stations, with up to six passes; those of one station do not overlap."""
    stations = []
    for place in range(dice.randint(1, 3)):
        bits = dice.choice([1000, 3000, 8192, 25_000])
        own = {
            channel: rate_of(dice, bits * dice.choice([0.3, 0.55, 1]), packet)
            for channel in range(3)
            if dice.random() < 0.4
        }
        stations.append(Station(f"G{place}", rate_of(dice, bits, packet), own))
    passes, busy = [], {}
    for _ in range(dice.randint(1, 6)):
        station = dice.choice(stations).name
        begin = dice.uniform(-20, hours * 60 - 40)
        end = begin + dice.uniform(4, 58)
        if end > 1 and all(begin >= last or end <= first for first, last in busy.setdefault(station, [])):
            busy[station].append((begin - 1, end + 1))
            rate = rate_of(dice, dice.uniform(500, 30_000), packet) if dice.random() < 0.2 else None
            passes.append(Pass(station, moment_of(dice, begin), moment_of(dice, end), rate))
    return stations, passes


def drawn_observations(dice, hours, store, packet, family):
    """Some observations: one over all of the mission, and up to three."""
    found = []
    if dice.random() < 0.5:
        rate = rate_of(dice, dice.uniform(1, 600), packet)
        found.append(Observation(store, moment_of(dice, 0), moment_of(dice, hours * 60), rate=rate))
    for _ in range(dice.randint(0, 3)):
        begin = dice.uniform(0, hours * 60 - 200)
        end = begin + dice.uniform(2, 190)
        volume = volume_of(dice, dice.choice([20, 200, 900]) * 1000, packet, family)
        found.append(Observation(store, moment_of(dice, begin), moment_of(dice, end), volume=volume))
    return found


def drawn_mission(dice):
    """A mission of some hours."""
    hours, block, family = dice.choice([6, 12, 30]), dice.choice([1024, 1024, 2048]), dice.choice([1000, 1024])
    lengths = dice.choice([[1000], [777], [16], [1024, 64], [1024, 16], [901, 500, 128], [1000, 290]])
    with warnings.catch_warnings():
        warnings.simplefilter("ignore", MissionWarning)
        stores = drawn_stores(dice, lengths, block, family)
        stations, passes = drawn_passes(dice, hours, max(lengths))
        return Mission(
            stores,
            passes,
            [one for each in stores for one in drawn_observations(dice, hours, each.id, each.packet, family)],
            stations,
            begin=DAY,
            end=DAY + timedelta(hours=hours),
            packet=max(lengths),
            block=block,
            overlap=dice.choice(["both", "better"]),
        )


def drawn_change(dice, mission):
    """A change of a mission."""
    one, store = dice.choice(mission.passes).name, dice.choice(mission.stores).id
    return dice.choice(
        [
            lambda: lost(one),
            lambda: lost(*(each.name for each in mission.passes if dice.random() < 0.3)),
            lambda: shortened(one, late=dice.choice([0, 3, 10.5]), early=dice.choice([0, 2])),
            lambda: rated(factor=dice.choice([0.5, "2/3", 1, 2])),
            lambda: rated(f"{dice.choice([2, 10])} kbit/s", of=[dice.choice([one, mission.the_pass(one).station])]),
            lambda: scaled(dice.choice([0, 0.5, "1/3", 1.7, 2])),
            lambda: scaled(dice.choice([0.5, 1.1, 3]), store),
            lambda: sized(store, factor=dice.choice([0.9, 1.3, "4/3", 2])),
            lambda: sized(store, f"{dice.choice([55, 500, 2500])} blocks"),
        ]
    )()


def drawn_changes(dice, mission):
    """One to four changes, in any order."""
    return [drawn_change(dice, mission) for _ in range(dice.randint(1, 4))] if mission.passes else [scaled(2)]


def seed_of(base, number):
    """The dice of a number."""
    return random.Random(f"{base} {number}")
