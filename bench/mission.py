"""The sample mission: an orbiter that sends in one or two passes a day. Written into examples/mission by
`python3 bench/mission.py`. A step is an hour, a block has room for one packet."""

from pathlib import Path

from problem import Problem, Store

STEPS = 256
HOURS = 24

# What the low-gain link lets through in an hour; the channel of the spacecraft's own stores.
LOW_GAIN = 1
LOW_GAIN_BLOCKS = 2400

# The main station sees the spacecraft from this hour on, the second one every other day.
MAIN_PASS = (6, [11000, 19000, 22000, 19000, 11000])
SECOND_PASS = (15, [8000, 13000, 8000])

# The main station is down on these days.
DAYS_DOWN = (4, 5)

# The solar wind is strong on these.
STORM_DAYS = (6, 7)


def stores():
    return [
        Store("HK", 10000, "circular", LOW_GAIN, 1200, [(1, 3, 25)]),
        Store("EVENT", 4000, "bounded", LOW_GAIN, 0, [(1, 5, 1), (1, 5, 2), (1, 5, 3), (1, 5, 4)]),
        Store("AOCS", 12000, "circular", LOW_GAIN, 900, [(2, 3, 25)]),
        Store("DIAG", 8000, "bounded", LOW_GAIN, 1500, [(1, 3, 26), (2, 3, 26)]),
        Store("CAM", 60000, "bounded", 0, 8000, [(100, 3, 25)]),
        Store("SPEC", 30000, "bounded", 0, 0, [(110, 3, 25)]),
        Store("RADAR", 40000, "bounded", 0, 0, [(120, 3, 25)]),
        Store("MAG", 6000, "circular", 2, 400, [(130, 3, 25)]),
        Store("PLASMA", 20000, "circular", 2, 1000, [(140, 3, 25)]),
        Store("RADIO", 6000, "bounded", 3, 0, [(150, 3, 25)]),
    ]


def varied(blocks, step, stride):
    """About so many blocks: up to a tenth more or less."""
    return blocks + blocks * (step * stride % 21 - 10) // 100


def part(hour, begin, blocks):
    """What a list that begins at an hour of the day has for this hour."""
    return blocks[hour - begin] if begin <= hour < begin + len(blocks) else 0


def window(day, hour):
    blocks = 0 if day in DAYS_DOWN else part(hour, *MAIN_PASS)
    if day % 2:
        blocks += part(hour, *SECOND_PASS)
    # the distance grows from day to day
    return blocks * (100 - 2 * day) // 100


def arrivals(step, day, hour):
    """What comes to each store in a step, in the order of the stores."""
    in_pass = window(day, hour) > 0
    storm = 3 if day in STORM_DAYS else 1
    return [
        varied(300, step, 5),
        varied(20, step, 4) + (60 if in_pass else 0) + (900 if day % 4 == 2 and hour == 2 else 0),
        varied(250, step, 8),
        varied(400, step, 2) if day % 5 == 0 and hour < 8 else 0,
        varied(9000, step, 10) if 11 <= hour < 14 else 0,
        varied(1500, step, 13) if hour >= 16 else 0,
        varied(14000, step, 16) if day % 3 == 1 and hour in (3, 4) else 0,
        varied(120, step, 11),
        varied(300 * storm, step, 17),
        varied(800, step, 19) if hour % 12 in (0, 1) else 0,
    ]


def mission():
    moments = [(step, (step - 1) // HOURS, (step - 1) % HOURS) for step in range(1, STEPS + 1)]
    return Problem(
        stores(),
        [window(day, hour) for _, day, hour in moments],
        [arrivals(*moment) for moment in moments],
        {LOW_GAIN: LOW_GAIN_BLOCKS},
        "An orbiter's mass memory over 256 hours; what the spacecraft says of itself goes over the low-gain link.",
    )


if __name__ == "__main__":
    mission().write(Path(__file__).resolve().parent.parent / "examples" / "mission")
