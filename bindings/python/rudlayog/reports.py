"""Reports of the storage service, read into their fields. What each tells stands in docs/PACKETS.md, 'Reports of the storage service'.

    >>> from rudlayog import Memory, Report, Setup, Store
    >>> from rudlayog.requests import SummariseContent
    >>> with Memory(Setup.of([Store("SCI", size=4)])) as memory:
    ...     memory.apply(7, SummariseContent(("SCI",), apid=100))
    ...     report, = map(Report.read, memory.reports())
    (None,)
    >>> report.moment, report.entries
    (7, (Summary(store='SCI', oldest=0, newest=0, held=0),))
"""

from __future__ import annotations

import ctypes
from collections.abc import Callable
from dataclasses import dataclass
from typing import Union

from . import _library
from ._brief import brief
from ._data import Packet, packet_octets
from .requests import TYPES, Configuration

# Entries for which a call has room at first: those of each report but one on the storage control with more rows.
_ROOM = 255


@brief
@dataclass(frozen=True)
class ReportType:
    """A report type that a store keeps: telemetry of this `apid`, `service` and `subtype`."""

    apid: int
    service: int
    subtype: int


@brief
@dataclass(frozen=True)
class Summary:
    """What a `store` holds: the storage times of its `oldest` and its `newest` packet, in ticks, both 0 where it is empty, and how many
    packets it `held`."""

    store: str
    oldest: int
    newest: int
    held: int


@brief
@dataclass(frozen=True)
class Status:
    """Whether the `storage` of a `store` is on, and whether a `retrieval` from it is: 0 off, 1 on."""

    store: str
    storage: int
    retrieval: int


@brief
@dataclass(frozen=True, kw_only=True)
class Report:
    """What each report has: its `moment`, that of the request which it answers, in ticks; and of its packet the `apid`, the sequence `count`,
    the message type `counter`, the `destination` identifier and the time `reference` status. The kinds of reports are the classes that are
    made of this one."""

    moment: int
    apid: int
    count: int
    counter: int
    destination: int
    reference: int

    @staticmethod
    def read(packet: Packet) -> AnyReport:
        """The report that a packet spells, with nothing after it. Raises `Refusal` where it is none."""
        octets = packet_octets(packet)
        told, entries = _read(octets)
        return _MADE[told.subtype](told, entries)


@brief
@dataclass(frozen=True, kw_only=True)
class Control(Report):
    """Subtype 6: the storage control of a `store`: the report types that it keeps, as `rows`."""

    store: str
    rows: tuple[ReportType, ...]


@brief
@dataclass(frozen=True, kw_only=True)
class Summaries(Report):
    """Subtype 13: summaries of the content of stores, as `entries`."""

    entries: tuple[Summary, ...]


@brief
@dataclass(frozen=True, kw_only=True)
class Statuses(Report):
    """Subtype 19: the status of each store, as `entries`."""

    entries: tuple[Status, ...]


@brief
@dataclass(frozen=True, kw_only=True)
class Configurations(Report):
    """Subtype 23: the configuration of each store, as `entries`."""

    entries: tuple[Configuration, ...]


# A report of any kind.
AnyReport = Union[Control, Summaries, Statuses, Configurations]

_Entries = list[_library.EntryFields]


def _read(octets: bytes) -> tuple[_library.ReportFields, _Entries]:
    """The fields of a report and of its entries, as the library gives them."""
    told, answer, room = _library.ReportFields(), _library.Answer(), _ROOM
    while True:
        entries = (_library.EntryFields * room)()
        _library.rudlayog_report_read(octets, len(octets), told, entries, room, answer)
        if answer.status == _library.REFUSED:
            raise _library.refusal_of(answer.refused, _library.length_found(answer.refused, octets))
        if answer.status == _library.WRITTEN:
            return told, entries[: answer.length]
        room = answer.length


def _store(field: ctypes.Array[ctypes.c_uint8]) -> str:
    """The identifier in a field, without the spaces at its end."""
    return bytes(field).decode("latin-1").rstrip(" ")


def _header(told: _library.ReportFields) -> dict[str, int]:
    return {name: getattr(told, name) for name in ("moment", "apid", "count", "counter", "destination", "reference")}


def _control(told: _library.ReportFields, entries: _Entries) -> Control:
    rows = tuple(ReportType(each.apid, each.service, each.subtype) for each in entries)
    return Control(**_header(told), store=_store(told.id), rows=rows)


def _summaries(told: _library.ReportFields, entries: _Entries) -> Summaries:
    return Summaries(**_header(told), entries=tuple(Summary(_store(each.id), each.oldest, each.newest, each.held) for each in entries))


def _statuses(told: _library.ReportFields, entries: _Entries) -> Statuses:
    return Statuses(**_header(told), entries=tuple(Status(_store(each.id), each.storage, each.retrieval) for each in entries))


def _configurations(told: _library.ReportFields, entries: _Entries) -> Configurations:
    made = tuple(Configuration(_store(each.id), each.size, _type(each.type), each.channel) for each in entries)
    return Configurations(**_header(told), entries=made)


def _type(code: int) -> str:
    """A store's type by its code, or the number of one that is neither."""
    return TYPES[code] if code < len(TYPES) else str(code)


_MADE: dict[int, Callable[[_library.ReportFields, _Entries], AnyReport]] = {6: _control, 13: _summaries, 19: _statuses, 23: _configurations}
