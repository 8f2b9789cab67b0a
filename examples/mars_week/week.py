#!/usr/bin/env python3
"""A week of an orbiter around Mars: its sheet for operations and its timeline, what each pass and each larger store is
worth, and what it loses where more arrives. Writes what README.md shows into the folder that is named.

    PYTHONPATH=bindings/python examples/mars_week/week.py FOLDER
"""

import sys
from itertools import chain
from pathlib import Path

from rudlayog.mission import Mission
from rudlayog.study import each_pass_lost, each_store_sized, study

out = Path(sys.argv[1])
mission = Mission.read(Path(__file__).with_name("mission.toml"))
made = mission.plan()
made.passes().save(out / "sheet.md")
made.passes().save(out / "sheet.html")
made.timeline().save(out / "timeline.csv")
margin = mission.margin()
margin.plot().save(out / "margin.svg")
found = study(mission, chain(each_pass_lost(mission), each_store_sized(mission, 1.25)))
found.save(out / "study.csv")
found.plot(matplotlib=False).save(out / "study.svg")
(out / "chart.svg").write_text(made.charts()[0])

# The third pass over Malargue is missed. In the night two stores are measured, and the rest is planned again.
gone = mission.without("Malargue 3").plan()
again = gone.at("2031-03-06T00:00:00Z", holds={"CAM": "231 MB", "SPEC": "150 MB"}).plan()
print(f"the week loses {made.loss} ({made.loss_mb:.3f} MB); without Malargue 3 {gone.loss}")
print(f"from Thursday on, by what was measured, it loses {again.loss}")
print(f"planned day by day, each with the day after it, it loses {mission.plan(horizon=1440).loss}")
print(margin.words())
