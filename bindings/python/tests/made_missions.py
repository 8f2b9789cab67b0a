"""Missions that are made by chance, for tests: stores with packets of several lengths, stations whose channels have
rates, passes that overlap."""

import random
import warnings
from datetime import datetime, timedelta, timezone

from rudlayog.mission import Mission, MissionWarning, Observation, PacketStore, Pass, Station

DAY = datetime(2031, 3, 3, tzinfo=timezone.utc)


def made_mission(number, even=None, apart=False, channels=True):
    """A mission of this number. With `even`, in minutes, all begins and ends are multiples of it; `apart` has no passes
    that overlap."""
    dice = random.Random(number)
    hours = dice.choice([12, 24, 48])
    unit = timedelta(minutes=even) if even else timedelta(seconds=1)

    def moment(minutes):
        return DAY + unit * round(timedelta(minutes=minutes) / unit)

    packet = dice.choice([128, 500, 777, 1000, 1024])
    stores = [
        PacketStore(
            f"S{place}",
            f"{dice.choice([40, 300, 2000])} blocks",
            dice.choice(["bounded", "circular"]),
            dice.randint(0, 2),
            f"{dice.randint(0, 40)} blocks",
            packet=dice.choice([None, None, 64, 901]),
        )
        for place in range(dice.randint(1, 5))
    ]
    stations = []
    for place in range(dice.randint(1, 3)):
        rate = dice.choice([0.7, 3, 8.192, 25])
        own = {
            channel: f"{round(rate * dice.choice([0.3, 0.55, 1]), 3)} kbit/s"
            for channel in range(3)
            if channels and dice.random() < 0.4
        }
        stations.append(Station(f"G{place}", f"{rate} kbit/s", own))
    passes = []
    at = 0.0
    for _ in range(dice.randint(1, 7)):
        at += dice.uniform(20, 300) if apart else dice.uniform(-20, 260)
        begin = moment(max(at, 0))
        end = max(moment(max(at, 0) + dice.uniform(5, 110)), begin + unit)
        # a station has one pass at a time
        station, rate = (
            dice.choice(stations).name,
            f"{dice.uniform(0.5, 30):.3f} kbit/s" if dice.random() < 0.2 else None,
        )
        if end <= DAY + timedelta(hours=hours) and all(
            one.end <= begin or one.begin >= end for one in passes if one.station == station
        ):
            passes.append(Pass(station, begin, end, rate))
        at = (end - DAY) / timedelta(minutes=1)
    observations = []
    for store in stores:
        if dice.random() < 0.5:
            observations.append(
                Observation(store.id, DAY, DAY + timedelta(hours=hours), rate=f"{dice.uniform(1, 600):.2f} bit/s")
            )
        for _ in range(dice.randint(0, 4)):
            begin = moment(dice.uniform(0, hours * 60 - 200))
            end = max(moment((begin - DAY) / timedelta(minutes=1) + dice.uniform(1, 190)), begin + unit)
            observations.append(Observation(store.id, begin, end, volume=f"{dice.uniform(0.001, 0.6):.4f} MB"))
    with warnings.catch_warnings():
        warnings.simplefilter("ignore", MissionWarning)
        return Mission(
            stores,
            passes,
            observations,
            stations,
            begin=DAY,
            end=DAY + timedelta(hours=hours),
            packet=packet,
            overlap=dice.choice(["both", "better"]),
        )
