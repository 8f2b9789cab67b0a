#!/usr/bin/env python3
"""Measures the memory of a study: `study_memory.py [COUNT] [MOST]`. Of a grid over the mission of the example COUNT variants (100,000) are
answered, with their losses by store. Prints what the process holds more after them than before, beside the table as comma separated values, and
fails where that is more than MOST bytes (400) a variant."""

import resource
import sys
import time
from itertools import islice
from pathlib import Path

sys.path.insert(0, str(Path(__file__).resolve().parents[1]))
from rudlayog.mission import Mission  # noqa: E402
from rudlayog.study import grid, scaled, sized, study  # noqa: E402

EXAMPLE = Path(__file__).resolve().parents[3] / "examples" / "mars_week" / "mission.toml"


def held():
    """The most bytes that the process has had."""
    return resource.getrusage(resource.RUSAGE_SELF).ru_maxrss * 1024


def main():
    """The program."""
    count, most = map(int, (sys.argv[1:] + ["100000", "400"][len(sys.argv) - 1 :])[:2])
    mission = Mission.read(EXAMPLE)

    def variants():
        return grid(arrivals=(scaled, (1 + k / 1000 for k in range(1000))), size=(lambda mb: sized("CAM", f"{mb} MB"), range(200, 400)))

    # what does not grow with the variants is there before
    study(mission, islice(variants(), 1000), progress=False)
    before, begin = held(), time.perf_counter()
    found = study(mission, islice(variants(), count), progress=False)
    grown = held() - before
    assert len(found) == count and all(found._table.loss(row) is not None for row in range(count))
    print(f"study: {count} variants in {time.perf_counter() - begin:.0f} s take {grown / 1e6:.1f} MB more, {grown / count:.0f} bytes each; {before / 1e6:.1f} MB before; as text they have {len(found.text()) / count:.0f} bytes each")
    return grown > most * count


if __name__ == "__main__":
    sys.exit(main())
