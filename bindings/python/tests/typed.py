#!/usr/bin/env python3
"""A program that uses the package with types. `mypy --strict` must find nothing in it; it runs too."""

from collections.abc import Mapping
from datetime import datetime, timedelta, timezone

from rudlayog import (
    Cut,
    Forecast,
    ForecastLike,
    Limit,
    Memory,
    Plan,
    Refusal,
    Route,
    Setup,
    SetupLike,
    Store,
    Tally,
    ask,
    chart,
    check,
    plan,
)
from rudlayog.mission import Mission, Observation, PacketStore, Pass, Station
from rudlayog.reports import Summaries
from rudlayog.requests import StartRetrieval, SummariseContent, TimeRange
from rudlayog.study import Answer, Changed, Variant, each_pass_lost, grid, scaled, sized, study

TELEMETRY = bytes([0x08, 1, 0xC0, 0, 0, 14, 0x20, 3, 25]) + bytes(12)


def least(setup: SetupLike, forecasts: list[ForecastLike]) -> int:
    """The least loss of several forecasts, of any kind."""
    return min(plan(setup, forecast).loss for forecast in forecasts)


def planned() -> tuple[int, Mapping[str, tuple[int, ...]]]:
    """What a plan says, of data of several types."""
    setup = Setup.of([Store("SCI", 4), Store("HK", 3, "circular", 1)], [Route(1, 3, 25, "HK")], [Limit(1, 2)])
    columns = {"step": [2, 1], "window": [3, 2], "SCI": [2, 5], "HK": [0, 1]}
    rows = [{"step": 1, "window": 2, "SCI": 5, "HK": 1}, {"step": 2, "window": 3, "SCI": 2, "HK": 0}]
    forecast = Forecast.of([2, 3], {"SCI": [5, 2], "HK": [1, 0]})
    flown = Setup.of(setup.stores, arrivals="during")
    sized = Forecast.of([2, 3], {"SCI": [5, 2], "HK": [1, 0]}, sizes={"size:HK": [3, 0]})
    assert check(flown, sized, plan(flown, sized)).kind == "least"
    assert sized.having(sizes={"size:HK": [1, 1]}).sizes["size:HK"] == (1, 1)
    made = plan(setup, forecast)
    assert made == plan(bytes(setup), columns) == plan(setup.text(), rows) == plan(setup.to_dict(), forecast.text())
    assert least(setup, [forecast, columns, rows, forecast.text(), forecast.having(windows=[9, 9])]) == least(
        bytes(setup), [forecast.having([9, 9])]
    )
    assert made == Plan.of(made.to_dict(), made.loss, Cut(made.cut.stretches, made.cut.by_channels, made.cut.bound))
    assert check(setup, forecast, made) and check(setup, forecast, made.to_dict()).loss == made.loss
    assert chart(setup, forecast, bytes(made)).svg == made._repr_svg_()
    served = plan(setup, forecast, in_order=True)
    losses: list[int] = [first.loss for first in served.firsts or ()]
    assert (
        len(losses) == 1
        and check(setup, forecast, served).stores is None
        and chart(setup, forecast, served, worth=True).svg
    )
    return made.loss, made.by_store


def recorded() -> tuple[Tally, list[bytes]]:
    """What a memory tells."""
    with Memory([{"id": "HK", "size": 2}], most_waiting=255) as memory:
        try:
            memory.next("HK")
        except Refusal as refusal:
            assert refusal.name == "Idle" and refusal.row is None
        return memory.record(7, bytearray(TELEMETRY)), list(memory.reports())


def asked(stores: tuple[str, ...]) -> tuple[bytes, tuple[int, ...]]:
    """What a request and the report on it say."""
    request = SummariseContent(stores, apid=100, acknowledgement=9)
    with Memory([{"id": store, "size": 2} for store in stores]) as memory:
        memory.apply(7, request)
        memory.apply(8, bytes(StartRetrieval((TimeRange(stores[0], 1, 2),), apid=request.apid)))
        for report in memory.read_reports():
            if isinstance(report, Summaries):
                return bytes(request), tuple(entry.held for entry in report.entries)
    raise ValueError("no summary")


def flown() -> tuple[int, list[Answer]]:
    """What a mission and a study of it say."""
    begin, end = "2031-03-03T06:00:00Z", datetime(2031, 3, 3, 7, tzinfo=timezone.utc)
    mission = Mission(
        [PacketStore("CAM", "2 MB", holds=5)],
        [Pass("Malargue", begin, end, channels={1: "2 kbit/s"})],
        [Observation("CAM", "2031-03-03T00:00:00Z", end, volume="8 MB")],
        [Station("Malargue", rate=9000)],
        packet=1000,
    )
    made = mission.plan(step=timedelta(minutes=10), in_order=True)
    setup, forecast = mission.problem()
    windows: tuple[int, ...] = forecast.windows
    stores: tuple[Store, ...] = setup.stores
    assert len(stores) == 1 and sum(windows) > 0
    sheet, timeline = made.passes(), made.timeline()
    first: int = sheet[0].blocks + timeline[0].packets
    assert first > 0 and [row.store for row in sheet[:1]] == ["CAM"]
    changed: Mission = mission.changed([scaled(2), sized("CAM", factor=2)])
    assert changed.plan(horizon=30, look=30).loss_mb >= 0 and mission.margin("CAM").growth.percent >= 0
    rows: list[int] = [row.blocks for row in made.passes()]
    again = made.at(begin, holds={"CAM": "1 MB"}).plan(horizon=30)
    variants: list[Variant] = [
        *each_pass_lost(mission),
        *grid(size=(lambda mb: sized("CAM", mb), ["1 MB", "3 MB"])),
        Variant("more", (Changed(lambda other: other), scaled(1.5))),
    ]
    found = study(mission, variants, plan=None, in_order=True)
    answer: Answer = found[0]
    assert answer.loss is not None and isinstance(found[:1], tuple)
    return sum(rows) + again.loss, list(found)


if __name__ == "__main__":
    assert (
        flown()[0] >= 0
        and planned()[0] >= 0
        and recorded() == (Tally(0, 0, 0), [])
        and asked(("SCI", "HK"))[1] == (0, 0)
    )
    assert ask("[[store]]\nid = 'HK'\nsize = 2\ntype = 'bounded'\nchannel = 0\n", [b"\x18"]).all_done is False
