"""A memory with its storage service."""

from __future__ import annotations

import ctypes
import threading
from collections.abc import Callable, Iterator
from dataclasses import dataclass
from types import TracebackType
from typing import SupportsIndex

from . import _library
from ._brief import brief
from ._data import Packet, packet_octets
from .calls import texts
from .refusals import Refusal
from .reports import AnyReport, Report
from .requests import Request
from .setups import SetupLike

FATES = ("", "kept", "kept over", "lost")
STORE_KINDS = ("circular", "bounded")


@brief
@dataclass(frozen=True)
class Fate:
    """What became of a packet that a store did not refuse. Its `kind` is `kept`, `kept over` the oldest packet of a full circular store,
    which is lost, or `lost`, since the bounded store is full. `time` is the storage time in ticks, or `None` where the packet is lost."""

    kind: str
    time: int | None


@brief
@dataclass(frozen=True)
class Tally:
    """What became of a packet in the stores that it is routed to: `kept`, how many keep it; `lost`, how many packets are lost by it (itself
    in a full bounded store, the oldest in a full circular one); and `refused`, how many stores refuse it."""

    kept: int
    lost: int
    refused: int


@brief
@dataclass(frozen=True)
class Retrieval:
    """A retrieval that is on: its `first` and its `last` time, and `after`, the time of the packet that it gave last, 0 where it gave none."""

    first: int
    last: int
    after: int


@brief
@dataclass(frozen=True)
class StoreState:
    """What a store holds and has lost: its `kind`, `circular` or `bounded`, and its `size` in blocks; how many packets were `offered` and not
    refused, are `held`, were `lost`, and were `deleted`; whether `storage` is on, and the `retrieval` that is on, or `None`; the storage times
    of its `oldest` and its `newest` packet, both 0 where it is empty. Always `offered == held + lost + deleted`."""

    kind: str
    size: int
    offered: int
    held: int
    lost: int
    deleted: int
    storage: bool
    retrieval: Retrieval | None
    oldest: int
    newest: int


class Memory:
    """A mass memory with its storage service, opened with a setup as `plan` takes it. Use it in a `with` statement, or call `close`.

    >>> from rudlayog import Memory, Setup, Store
    >>> with Memory(Setup.of([Store("SCI", size=4)])) as memory:
    ...     memory.offer("SCI", 1, bytes.fromhex("0801C000000E200319" + "00" * 12))
    Fate(kind='kept', time=1)

    Moments and times are in ticks, from 0 to 2^64 - 1; another one raises `ValueError`. Packets are their octets. A call that is refused
    raises `Refusal` and has changed nothing; a call on a closed memory raises `ValueError`. Calls of several threads wait for one another,
    and a signal handler may make calls too.

    At most `most_waiting` reports wait, or as many as memory holds where none is given. A request that might let more wait is refused,
    `54 TooManyReports`: it has at most one report for each instruction (subtype 5), one on all (12, 18, 22), or none."""

    def __init__(self, setup: SetupLike, *, most_waiting: SupportsIndex | None = None) -> None:
        self._handle = _library.Handle()
        # A signal handler runs between two calls of its thread, and may find the lock held by it.
        self._lock = threading.RLock()
        (text,) = texts(setup=setup)
        bound = None if most_waiting is None else _library.number(most_waiting, "most_waiting", 64)
        self._tell(_library.rudlayog_memory_open, text, len(text), setup=text)
        if bound is not None:
            self._tell(_library.rudlayog_memory_bound, bound)

    def _tell(self, call: Callable[..., None], *given: object, setup: bytes = b"", packet: bytes = b"") -> _library.Answer:
        """The answer to a call, which was given this setup or this packet."""
        answer = _library.Answer()
        with self._lock:
            call(self._handle, *given, answer)
        if answer.status == _library.CLOSED:
            raise ValueError("the memory is closed")
        if answer.status == _library.REFUSED:
            raise _library.refusal_in(answer.refused, setup) if setup else _library.refusal_of(answer.refused, _library.length_found(answer.refused, packet))
        return answer

    def offer(self, store: str, now: SupportsIndex, packet: Packet) -> Fate:
        """Offers a packet to the store of this identifier."""
        name, ticks, octets, told = _id_octets(store), _library.moment(now, "now"), packet_octets(packet), _library.FateTold()
        self._tell(_library.rudlayog_memory_offer, name, len(name), ticks, octets, len(octets), told, packet=octets)
        kind = FATES[told.kind]
        return Fate(kind, None if kind == "lost" else told.time)

    def record(self, now: SupportsIndex, packet: Packet) -> Tally:
        """Offers a packet to each store that its report type is routed to."""
        ticks, octets, told = _library.moment(now, "now"), packet_octets(packet), _library.TallyTold()
        self._tell(_library.rudlayog_memory_record, ticks, octets, len(octets), told, packet=octets)
        return Tally(told.kept, told.lost, told.refused)

    def apply(self, now: SupportsIndex, request: Packet | Request) -> tuple[Refusal | None, ...]:
        """Applies a telecommand of the storage service: its octets, or a `Request`. There is one answer for each of its instructions, in order: `None` where it is carried
        out, and else why it is refused. The reports on the request wait for `reports`."""
        ticks, each = _library.moment(now, "now"), (ctypes.c_uint8 * _library.INSTRUCTIONS)()
        octets = bytes(request) if isinstance(request, Request) else packet_octets(request, "request")
        answer = self._tell(_library.rudlayog_memory_apply, ticks, octets, len(octets), each, len(each), packet=octets)
        return tuple(_refusal(code) for code in each[: answer.length])

    def reports(self) -> Iterator[bytes]:
        """The packets of the reports that wait, the oldest first. A packet that was given waits no more."""
        room = ctypes.create_string_buffer(_library.PACKET)
        while True:
            answer = self._tell(_library.rudlayog_memory_report, room, len(room))
            if answer.status == _library.END:
                return
            yield ctypes.string_at(room, answer.length)

    def read_reports(self) -> Iterator[AnyReport]:
        """The reports that wait, the oldest first, read into their fields. One that was given waits no more."""
        yield from map(Report.read, self.reports())

    def next(self, store: str) -> tuple[int, bytes] | None:
        """The next packet of the retrieval from the store of this identifier, after its storage time; `None` at the end of the retrieval, which
        is over then."""
        name, time = _id_octets(store), ctypes.c_uint64()
        room = ctypes.create_string_buffer(_library.BLOCK)
        answer = self._tell(_library.rudlayog_memory_next, name, len(name), room, len(room), time)
        return None if answer.status == _library.END else (time.value, ctypes.string_at(room, answer.length))

    def retrieved(self, store: str) -> Iterator[tuple[int, bytes]]:
        """The packets of the retrieval from the store of this identifier, each after its storage time. The retrieval is over where they end;
        where they are not taken to the end it goes on with the next one."""
        while (given := self.next(store)) is not None:
            yield given

    def state(self, store: str) -> StoreState:
        """What the store of this identifier holds and has lost."""
        name, told = _id_octets(store), _library.StateTold()
        self._tell(_library.rudlayog_memory_state, name, len(name), told)
        return StoreState(
            STORE_KINDS[told.kind],
            told.size,
            told.offered,
            told.held,
            told.lost,
            told.deleted,
            bool(told.storage),
            Retrieval(told.first, told.last, told.after) if told.retrieval else None,
            told.oldest,
            told.newest,
        )

    def waiting(self) -> int:
        """How many reports wait."""
        told = ctypes.c_uint64()
        self._tell(_library.rudlayog_memory_waiting, told)
        return told.value

    def refused(self) -> int:
        """How many packets were refused out of memory. They are in no counter of a store."""
        told = ctypes.c_uint64()
        self._tell(_library.rudlayog_memory_refused, told)
        return told.value

    def close(self) -> None:
        """Closes the memory, and frees what it held. It may be closed again."""
        with self._lock:
            _library.rudlayog_memory_close(self._handle)

    def __enter__(self) -> Memory:
        return self

    def __exit__(self, kind: type[BaseException] | None, error: BaseException | None, trace: TracebackType | None) -> None:
        self.close()

    def __del__(self) -> None:
        if hasattr(self, "_lock"):
            self.close()

    def __reduce__(self) -> tuple[object, ...]:
        raise TypeError("a memory is not copied")


def _id_octets(store: str) -> bytes:
    if not isinstance(store, str):
        raise TypeError(f"store is {store!r}, and not the identifier of a store")
    return store.encode("utf-8")


def _refusal(code: int) -> Refusal | None:
    """The refusal of an instruction, by its code."""
    if code == _library.DONE:
        return None
    return _library.refusal_of(_library.RefusedAt(number=code))
