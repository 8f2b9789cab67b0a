"""Requests to the storage service: telecommands that are made of their fields. What each asks stands in docs/PACKETS.md, 'Requests of the
storage service'.

    >>> from rudlayog.requests import StartRetrieval, TimeRange
    >>> request = StartRetrieval((TimeRange("SCI", first=1, last=9),), apid=100)
    >>> bytes(request)[:20].hex(), bytes(request)[20:].hex()
    ('1864c000001d200f090000015343492020202020', '00000000000000010000000000000009')

A number that does not fit its field, and what is no identifier of at most eight octets, raise `ValueError` where the request is made. Its
octets are written by the library, which refuses what is no request: an APID above 2046 (`6 Idle`), a sequence count above 16,383 or
acknowledgement flags above 15 (`33 Limit`), and no instruction or more than 255 (`14 CountMismatch`). No other value is tested: a memory
refuses the instruction that has it.
"""

from __future__ import annotations

from dataclasses import KW_ONLY, dataclass
from typing import Any, ClassVar

from . import _library
from ._brief import brief
from ._data import is_text
from .setups import Route

# The types of stores, by their codes in packets.
TYPES = ("circular", "bounded")


@brief
@dataclass(frozen=True)
class TimeRange:
    """Storage times of a `store`, in ticks: from the `first` to the `last`, both included."""

    store: str
    first: int
    last: int


@brief
@dataclass(frozen=True)
class TimeLimit:
    """Storage times of a `store`, in ticks: those up to the `last`."""

    store: str
    last: int


@brief
@dataclass(frozen=True)
class Configuration:
    """A `store` with its `size` in blocks, its `type`, `circular` or `bounded`, and its virtual `channel`. A type that is neither has its
    number, as `2`."""

    store: str
    size: int
    type: str = "bounded"
    channel: int = 0


@brief
@dataclass(frozen=True)
class Size:
    """A `size` in blocks for a `store`."""

    store: str
    size: int


@brief
@dataclass(frozen=True)
class Channel:
    """A virtual `channel` for a `store`."""

    store: str
    channel: int


# What an instruction says, by the request that it is one of. A str is the identifier of a store.
Instruction = str | Route | TimeRange | TimeLimit | Configuration | Size | Channel


@brief
@dataclass(frozen=True)
class Request:
    """What each request has: the `apid` of the storage service, the packet sequence `count`, the `source` identifier, and the
    `acknowledgement` flags. `write()` and `bytes(request)` give the octets of its telecommand. The kinds of requests are the classes that are
    made of this one."""

    _: KW_ONLY
    apid: int
    count: int = 0
    source: int = 0
    acknowledgement: int = 0

    SUBTYPE: ClassVar[int] = 0
    # The field that has the instructions, and the class of each.
    _LISTED: ClassVar[tuple[str, type] | None] = None

    def __post_init__(self) -> None:
        for name, bits in {"apid": 16, "count": 16, "source": 16, "acknowledgement": 8}.items():
            object.__setattr__(self, name, _library.number(getattr(self, name), name, bits))
        if self._LISTED is not None:
            name, kind = self._LISTED
            object.__setattr__(self, name, _listed(getattr(self, name), name, kind))
        self._fields()

    def _fields(self) -> list[_library.InstructionFields]:
        """The fields of the instructions, as the library takes them."""
        return [] if self._LISTED is None else [_instruction(each) for each in getattr(self, self._LISTED[0])]

    def write(self) -> bytes:
        """The octets of the telecommand. Raises `Refusal`."""
        listed = self._fields()
        request = _library.RequestFields(self.apid, self.count, self.source, self.acknowledgement, self.SUBTYPE)
        instructions = (_library.InstructionFields * len(listed))(*listed)
        return _library.told(_library.rudlayog_request_write, request, instructions, len(listed))

    def __bytes__(self) -> bytes:
        return self.write()


@brief
@dataclass(frozen=True)
class _OfStores(Request):
    """A request on `stores`, of which each is named by its identifier."""

    stores: tuple[str, ...]

    _LISTED: ClassVar[tuple[str, type] | None] = ("stores", str)


@brief
@dataclass(frozen=True)
class _OfRoutes(Request):
    """A request on `routes` of the storage control."""

    routes: tuple[Route, ...]

    _LISTED: ClassVar[tuple[str, type] | None] = ("routes", Route)


@brief
@dataclass(frozen=True)
class EnableStorage(_OfStores):
    """Subtype 1: switches the storage of `stores` on."""

    SUBTYPE: ClassVar[int] = 1


@brief
@dataclass(frozen=True)
class DisableStorage(_OfStores):
    """Subtype 2: switches the storage of `stores` off."""

    SUBTYPE: ClassVar[int] = 2


@brief
@dataclass(frozen=True)
class AddReportTypes(_OfRoutes):
    """Subtype 3: adds report types to the storage control. Each of the `routes` has its report type and its store."""

    SUBTYPE: ClassVar[int] = 3


@brief
@dataclass(frozen=True)
class DeleteReportTypes(_OfRoutes):
    """Subtype 4: deletes report types from the storage control. Each of the `routes` has its report type and its store."""

    SUBTYPE: ClassVar[int] = 4


@brief
@dataclass(frozen=True)
class ReportControl(_OfStores):
    """Subtype 5: asks for a report of the storage control of each of the `stores`, a `reports.Control`."""

    SUBTYPE: ClassVar[int] = 5


@brief
@dataclass(frozen=True)
class StartRetrieval(Request):
    """Subtype 9: starts a retrieval of each of the `ranges` of storage times."""

    ranges: tuple[TimeRange, ...]

    SUBTYPE: ClassVar[int] = 9
    _LISTED: ClassVar[tuple[str, type] | None] = ("ranges", TimeRange)


@brief
@dataclass(frozen=True)
class DeleteContent(Request):
    """Subtype 11: deletes content up to each of the `limits` of storage times."""

    limits: tuple[TimeLimit, ...]

    SUBTYPE: ClassVar[int] = 11
    _LISTED: ClassVar[tuple[str, type] | None] = ("limits", TimeLimit)


@brief
@dataclass(frozen=True)
class SummariseContent(_OfStores):
    """Subtype 12: asks for a summary of the content of `stores`, a `reports.Summaries`."""

    SUBTYPE: ClassVar[int] = 12


@brief
@dataclass(frozen=True)
class AbortRetrieval(_OfStores):
    """Subtype 17: aborts the retrievals from `stores`."""

    SUBTYPE: ClassVar[int] = 17


@brief
@dataclass(frozen=True)
class ReportStatus(Request):
    """Subtype 18: asks for the status of each store, a `reports.Statuses`."""

    SUBTYPE: ClassVar[int] = 18


@brief
@dataclass(frozen=True)
class CreateStores(Request):
    """Subtype 20: creates stores of these `configurations`. Their storage is off."""

    configurations: tuple[Configuration, ...]

    SUBTYPE: ClassVar[int] = 20
    _LISTED: ClassVar[tuple[str, type] | None] = ("configurations", Configuration)


@brief
@dataclass(frozen=True)
class DeleteStores(_OfStores):
    """Subtype 21: deletes `stores`, with what they hold."""

    SUBTYPE: ClassVar[int] = 21


@brief
@dataclass(frozen=True)
class ReportConfiguration(Request):
    """Subtype 22: asks for the configuration of each store, a `reports.Configurations`."""

    SUBTYPE: ClassVar[int] = 22


@brief
@dataclass(frozen=True)
class ResizeStores(Request):
    """Subtype 25: gives stores these `sizes`."""

    sizes: tuple[Size, ...]

    SUBTYPE: ClassVar[int] = 25
    _LISTED: ClassVar[tuple[str, type] | None] = ("sizes", Size)


@brief
@dataclass(frozen=True)
class ChangeToCircular(_OfStores):
    """Subtype 26: changes the type of `stores` to circular."""

    SUBTYPE: ClassVar[int] = 26


@brief
@dataclass(frozen=True)
class ChangeToBounded(_OfStores):
    """Subtype 27: changes the type of `stores` to bounded."""

    SUBTYPE: ClassVar[int] = 27


@brief
@dataclass(frozen=True)
class ChangeChannel(Request):
    """Subtype 28: gives stores these virtual `channels`."""

    channels: tuple[Channel, ...]

    SUBTYPE: ClassVar[int] = 28
    _LISTED: ClassVar[tuple[str, type] | None] = ("channels", Channel)


def _listed(given: Any, name: str, kind: type) -> tuple[Any, ...]:
    """The instructions of a request, of which each is of this class."""
    if is_text(given) or not hasattr(given, "__iter__"):
        raise TypeError(f"{name} is {given!r}, and not a tuple of {kind.__name__}")
    listed = tuple(given)
    for place, each in enumerate(listed, 1):
        if not isinstance(each, kind):
            raise TypeError(f"{name}, instruction {place}: {each!r} is no {kind.__name__}")
    return listed


def _instruction(given: Instruction) -> _library.InstructionFields:
    """The fields of an instruction."""
    if isinstance(given, str):
        return _library.InstructionFields(id=_id_field(given))
    numbers = {name: _library.number(getattr(given, name), name, bits) for name, bits in _BITS[type(given)].items()}
    if isinstance(given, Configuration):
        numbers["type"] = _code_of_type(given.type)
    return _library.InstructionFields(id=_id_field(given.store), **numbers)


_BITS: dict[type, dict[str, int]] = {
    Route: {"apid": 16, "service": 8, "subtype": 8},
    TimeRange: {"first": 64, "last": 64},
    TimeLimit: {"last": 64},
    Configuration: {"size": 32, "channel": 8},
    Size: {"size": 32},
    Channel: {"channel": 8},
}


def _code_of_type(given: str) -> int:
    """The code of a store's type, or the number of one that is neither."""
    if given in TYPES:
        return TYPES.index(given)
    if isinstance(given, str) and given.isdecimal() and given.isascii():
        return _library.number(int(given), "type", 8)
    raise ValueError(f"type is {given!r}, and 'circular', 'bounded' or a number is expected")


def _id_field(store: str) -> bytes:
    """The octets of an identifier. The library pads them."""
    if not isinstance(store, str):
        raise TypeError(f"store is {store!r}, and not the identifier of a store")
    if not store.isascii() or "\0" in store or len(store) > 8:
        raise ValueError(f"store is {store!r}, and an identifier of at most eight characters is expected")
    return store.encode("ascii")
