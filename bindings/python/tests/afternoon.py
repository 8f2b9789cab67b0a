#!/usr/bin/env python3
"""The afternoon of a planner, as a new user would spend it: six stores, three days, two stations; from data to sheet, picture and 500 what-ifs,
with the lines of the planner's own between two marks: `afternoon.py [COMMAND]`, in a folder that is written to. With the command that the wheel
has installed the sheet is made a second time."""

import subprocess
import sys
from datetime import datetime, timedelta, timezone
from pathlib import Path

DAY = datetime(2031, 3, 3, tzinfo=timezone.utc)
MOST_LINES = 10

# What the planner has: two lists, as her tools give them.
PASSES = "station,begin,end\n"
OBSERVATIONS = "store,begin,end,rate,volume\n"
for day in range(3):
    for station, hour, minutes in (("Kiruna", 2, 11), ("Svalbard", 9, 9), ("Kiruna", 15, 12), ("Svalbard", 21, 8)):
        begin = DAY + timedelta(days=day, hours=hour, minutes=7 * day)
        PASSES += f"{station},{begin.isoformat()},{(begin + timedelta(minutes=minutes)).isoformat()}\n"
    for store, hour, minutes, volume in (("CAM", 5, 40, "300 MB"), ("CAM", 17, 30, "250 MB"), ("SPEC", 11, 50, "180 MB"), ("SAR", 19, 15, "420 MB")):
        begin = DAY + timedelta(days=day, hours=hour)
        OBSERVATIONS += f"{store},{begin.isoformat()},{(begin + timedelta(minutes=minutes)).isoformat()},,{volume}\n"
for store, rate in (("HK", "4 kbit/s"), ("GPS", "2 kbit/s"), ("MAG", "9 kbit/s")):
    OBSERVATIONS += f"{store},{DAY.isoformat()},{(DAY + timedelta(days=3)).isoformat()},{rate},\n"
MISSION = """packet = 1000
passes = "passes.csv"
observations = "observations.csv"
station = [{name = "Kiruna", rate = "5 Mbit/s"}, {name = "Svalbard", rate = "4 Mbit/s", channels = {2 = "2 Mbit/s"}}]
store = [
    {id = "HK", size = "40 MB", type = "circular", channel = 0}, {id = "GPS", size = "20 MB", channel = 0}, {id = "MAG", size = "60 MB", channel = 0},
    {id = "CAM", size = "700 MB", channel = 1}, {id = "SPEC", size = "300 MB", channel = 1}, {id = "SAR", size = "500 MB", channel = 2},
]
"""


def afternoon():
    """Her own lines."""
    # begin
    from rudlayog.mission import Mission
    from rudlayog.study import grid, scaled, sized, study
    mission = Mission.read("mission.toml")
    made = mission.plan()
    made.passes().save("sheet.html")
    axes = {"images": (lambda factor: scaled(factor, "CAM"), [k / 10 for k in range(5, 30)]), "size": (lambda mb: sized("CAM", f"{mb} MB"), range(100, 900, 40))}
    found = study(mission, grid(**axes))
    found.plot("images", "size", matplotlib=False).save("study.svg")
    # end
    return made, found


def main():
    for name, text in (("mission.toml", MISSION), ("passes.csv", PASSES), ("observations.csv", OBSERVATIONS)):
        Path(name).write_text(text)
    made, found = afternoon()
    lines = Path(__file__).read_text().split("# begin\n")[1].split("    # end")[0].splitlines()
    assert len(lines) <= MOST_LINES, len(lines)
    assert len(found) == 500 and all(answer.is_least for answer in found), len(found)
    assert all(made.check()) and sum(row.lost for row in made.passes()) == made.loss
    assert Path("sheet.html").read_text().count("<section") == 13 and Path("study.svg").read_text().startswith("<svg")
    if len(sys.argv) > 1:
        subprocess.run([sys.argv[1], "mission.toml", "--output", "by_command.html"], check=True)
        assert Path("by_command.html").read_text() == Path("sheet.html").read_text()
    print(f"afternoon: {len(lines)} lines of the planner's own; the plan loses {made.loss}, and the 500 variants {min(answer.loss for answer in found)} to {max(answer.loss for answer in found)}")


if __name__ == "__main__":
    main()
