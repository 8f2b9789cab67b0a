"""Volumes, rates and moments as planners write them, each exact; and the faults of what cannot be one."""

from __future__ import annotations

import re
from collections.abc import Callable, Iterable
from dataclasses import dataclass
from datetime import date, datetime, timedelta, timezone
from decimal import Decimal
from fractions import Fraction
from functools import lru_cache
from typing import Any, SupportsIndex, TypeVar, Union

from ._brief import brief

Made = TypeVar("Made")

# Octets that each unit of a volume has, and bits a second that each unit of a rate has.
OCTETS = {
    **dict.fromkeys(("octet", "octets", "byte", "bytes", "B"), Fraction(1)),
    **{f"{letter}B": Fraction(1000**power) for power, letter in enumerate("kMGT", 1)},
    **{f"{letter}iB": Fraction(1024**power) for power, letter in enumerate("KMGT", 1)},
    **{f"{letter}bit": Fraction(1000**power, 8) for power, letter in enumerate(("", "k", "M", "G"))},
}
BITS = {
    f"{letter}{name}": Fraction(1000**power)
    for power, letter in enumerate(("", "k", "M", "G"))
    for name in ("bit/s", "bps")
}
BLOCKS = ("block", "blocks")
BLOCK_SECONDS = {"s": 1, "min": 60, "h": 3600}

MICROSECOND = timedelta(microseconds=1)
# a number as it is written, or the fraction of two, and a unit
_NUMBER = re.compile(r"\s*([+-]?(?:\d+/\d+|(?:\d+\.?\d*|\.\d+)(?:[eE][+-]?\d{1,3})?))\s*(\S*)\s*\Z")
_LEAP = re.compile(r"T?\d\d:\d\d:60")
_DAY_OF_YEAR = re.compile(r"(\d{4})-(\d{3})(T.*)\Z")
_ZONE = "a moment in UTC with its zone, as 2027-03-01T12:00:00Z"


@brief
@dataclass(frozen=True)
class Fault:
    """A fault of a mission: the `place` where it is (a file with its line, or a row), what was `found` there, and what
    is `meant`."""

    place: str
    found: str
    meant: str

    def __str__(self) -> str:
        return (
            f"{self.place}: found {self.found}; expected {self.meant}"
            if self.place
            else f"found {self.found}; expected {self.meant}"
        )


class MissionError(ValueError):
    """What is wrong with a mission: all `faults` that were found, in the order of their places."""

    def __init__(self, faults: Iterable[Fault]) -> None:
        self.faults = tuple(faults)
        super().__init__("\n".join(map(str, self.faults)))

    def __reduce__(self) -> tuple[object, ...]:
        return MissionError, (self.faults,)


class Faults:
    """The faults of several fields, which are told together."""

    def __init__(self) -> None:
        self._found: list[Fault] = []

    def of(self, make: Callable[..., Made], *given: Any) -> Made:
        """What this makes; where it cannot, the faults are kept, and `end` raises them."""
        try:
            return make(*given)
        except MissionError as error:
            self._found += error.faults
            return None  # type: ignore[return-value]

    def end(self) -> None:
        """Raises the faults that are kept."""
        if self._found:
            raise MissionError(self._found)


def fault(place: str, found: object, meant: str) -> MissionError:
    """The error of one fault."""
    return MissionError([Fault(place, found if isinstance(found, str) else repr(found)[:200], meant)])


@brief
@dataclass(frozen=True)
class Volume:
    """A volume: a number of octets, or of blocks where `in_blocks`. `unit` is the one that it was written in."""

    amount: Fraction
    in_blocks: bool = False
    unit: str = ""

    def blocks(self, octets: int) -> Fraction:
        """The blocks that it takes, where each has this many octets."""
        return self.amount if self.in_blocks else self.amount / octets

    def times(self, factor: Fraction) -> Volume:
        """The volume that is this many times as large."""
        return Volume(self.amount * factor, self.in_blocks, self.unit)

    def text(self) -> str:
        """The volume in its unit, exactly: `volume_of` reads it as the same one."""
        if self.in_blocks:
            return f"{_exactly(self.amount)} {self.unit or 'blocks'}"
        return f"{_exactly(self.amount / OCTETS.get(self.unit, Fraction(1)))} {self.unit}".strip()

    def __str__(self) -> str:
        return f"{_decimal(self.amount)} {'blocks' if self.in_blocks else 'octets'}"


@brief
@dataclass(frozen=True)
class Rate:
    """A rate: a number of bits a second, or of blocks a second where `in_blocks`. Bits are those of packets, without
    frames and codes."""

    amount: Fraction
    in_blocks: bool = False

    def blocks(self, octets: int) -> Fraction:
        """The blocks a second, where each is a packet of this many octets."""
        return self.amount if self.in_blocks else self.amount / (8 * octets)

    def octets(self, longest: int) -> Fraction:
        """The octets a second, where a block is a packet of this many octets."""
        return self.amount * longest if self.in_blocks else self.amount / 8

    def times(self, factor: Fraction) -> Rate:
        """The rate that is this many times as high."""
        return Rate(self.amount * factor, self.in_blocks)

    def text(self) -> str:
        """The rate, exactly: `rate_of` reads it as the same one."""
        return f"{_exactly(self.amount)} {'blocks/s' if self.in_blocks else 'bit/s'}"

    def __str__(self) -> str:
        if self.in_blocks:
            return f"{_decimal(self.amount)} blocks/s"
        return f"{_decimal(self.amount)} bit/s" if self.amount < 1000 else f"{_decimal(self.amount / 1000)} kbit/s"


# What is taken as a volume, a rate, a moment and a number.
VolumeLike = Union[Volume, str, float, SupportsIndex]
RateLike = Union[Rate, str, float, SupportsIndex]
Moment = Union[datetime, str]
Number = Union[Fraction, str, float, SupportsIndex]


def _decimal(value: Fraction) -> str:
    return str(value.numerator) if value.denominator == 1 else f"{float(value):.10g}"


def _exactly(value: Fraction) -> str:
    """A number as a decimal where it is one of few digits, or as a fraction."""
    if value.denominator == 1:
        return str(value.numerator)
    digits = value * 10**12
    return (
        f"{value.numerator}/{value.denominator}"
        if digits.denominator != 1
        else f"{Decimal(digits.numerator).scaleb(-12).normalize():f}"
    )


# Numbers are not greater than this.
GREATEST = 10**30


@lru_cache(maxsize=4096)
def _fraction(written: str) -> Fraction:
    """A number as it is written. Raises `ValueError` where it is none, or out of range."""
    if len(written) > 400 or re.search(r"[eE][+-]?0*[1-9]\d\d", written):
        raise ValueError(written)
    value = Fraction(written.strip())
    if abs(value) > GREATEST:
        raise ValueError(written)
    return value


def whole_of(given: Any, place: str) -> int:
    """A whole number: an int, also one of numpy, a float that is whole, or the text of one."""
    if type(given) is int:
        return given
    try:
        value = _fraction(str(given))
    except (ValueError, ZeroDivisionError) as error:
        raise fault(place, given, "a whole number") from error
    if isinstance(given, bool) or value.denominator != 1:
        raise fault(place, given, "a whole number")
    return int(value)


def number_of(given: Any, place: str, meant: str) -> Fraction:
    """A number of 0 or more, as it is written: 2.048 is 2048/1000."""
    try:
        # a float, also one of numpy, is taken as the decimal that it is printed as
        value = _fraction(str(given))
    except (ValueError, ZeroDivisionError) as error:
        raise fault(place, given, meant) from error
    if value < 0 or isinstance(given, bool):
        raise fault(place, given, meant)
    return value


def volume_of(given: Any, place: str) -> Volume:
    """A volume: a number of octets, or a text with its unit."""
    meant = 'a volume: octets as a number, or a text with its unit, as "512 MB", "488 MiB", "96 Mbit" or "3000 blocks"'
    if isinstance(given, Volume):
        return given
    amount, unit = _parts(given, place, meant)
    if unit in BLOCKS:
        return Volume(amount, True, unit)
    if unit and unit not in OCTETS:
        raise fault(place, given, _unit_meant(unit, OCTETS) or meant)
    return Volume(amount * OCTETS.get(unit, Fraction(1)), False, unit)


def rate_of(given: Any, place: str) -> Rate:
    """A rate: a number of bits a second, or a text with its unit."""
    meant = 'a rate: bits a second as a number, or a text with its unit, as "64 kbit/s", "2 Mbit/s" or "7.5 blocks/s"'
    if isinstance(given, Rate):
        return given
    amount, unit = _parts(given, place, meant)
    name, _, second = unit.partition("/")
    if name in BLOCKS and second in BLOCK_SECONDS:
        return Rate(amount / BLOCK_SECONDS[second], True)
    if unit and unit not in BITS:
        raise fault(place, given, _bytes_meant(amount, unit) or _unit_meant(unit, BITS) or meant)
    return Rate(amount * BITS.get(unit, Fraction(1)))


def _parts(given: Any, place: str, meant: str) -> tuple[Fraction, str]:
    """The number and the unit of a text; a number alone has none."""
    if not isinstance(given, str):
        return number_of(given, place, meant), ""
    found = _NUMBER.match(given)
    if found is None:
        raise fault(place, given, meant)
    return number_of(found[1], place, meant), found[2]


def _unit_meant(unit: str, known: dict[str, Fraction]) -> str | None:
    """What may be meant by a unit that is none: those that differ from it in capitals, in an `i`, or in bits for
    bytes."""
    lower = unit.lower()
    short = lower.replace("i", "") if lower.endswith("ib") else lower
    # megabits may be meant by Mb, and by Mb/s
    bits = re.sub(r"b(?=/s\Z|\Z)", "bit", lower)
    near = [name for name in known if name.lower() in (lower, short, bits) or name.lower().replace("ib", "b") == short]
    if not near:
        return None
    return " or ".join(f"{name} ({_in_full(name, known[name])})" for name in near)


def _bytes_meant(amount: Fraction, unit: str) -> str | None:
    """What is meant by a rate in bytes: 8 times as many bits."""
    name = unit.removesuffix("/s") if unit.endswith("/s") else unit.removesuffix("ps")
    octets = OCTETS.get("kB" if name == "KB" else name)
    if name == unit or octets is None or "bit" in name:
        return None
    bits = 8 * amount * octets
    power = next((power for power in (3, 2, 1) if bits >= 1000**power), 0)
    return f"bits a second: {_decimal(bits / 1000**power)} {('', 'k', 'M', 'G')[power]}bit/s, where a byte has 8"


def _in_full(name: str, amount: Fraction) -> str:
    return f"{int(amount):,} bits a second" if name in BITS else f"{_decimal(amount)} octets"


def moment_of(given: Any, place: str) -> datetime:
    """A moment, in UTC: a `datetime` with its zone, or the text of one in ISO 8601 or as CCSDS 301.0-B writes it, with
    the day of the year."""
    if isinstance(given, str):
        given = _moment_in(given.strip(), place)
    if not isinstance(given, datetime):
        local = isinstance(given, date) or hasattr(given, "dtype")
        raise fault(place, f"{given}" if local else given, f"{_ZONE}, and no {'date' if local else 'such value'}")
    if given.tzinfo is None or given.utcoffset() is None:
        raise fault(place, f"the local time {given}", f"{_ZONE}; write Z after it if it is in UTC")
    try:
        utc = given.astimezone(timezone.utc)
    except OverflowError as error:
        raise fault(place, str(given), "a moment from the year 1 to the year 9999 in UTC") from error
    return datetime(utc.year, utc.month, utc.day, utc.hour, utc.minute, utc.second, utc.microsecond, timezone.utc)


def _moment_in(text: str, place: str) -> datetime:
    """The moment that a text says."""
    counted = _DAY_OF_YEAR.match(text)
    try:
        if counted:
            year, day, clock = counted.groups()
            first = datetime.fromisoformat(f"{year}-01-01{clock}")
            found = first + timedelta(days=int(day) - 1)
            if found.year != first.year:
                raise ValueError(day)
            return found
        return datetime.fromisoformat(text)
    except (ValueError, OverflowError) as error:
        leap = (
            "; a leap second, 23:59:60, is no moment here: take the second before it or after it"
            if _LEAP.search(text)
            else ""
        )
        raise fault(place, repr(text), _ZONE + leap) from error


def span_of(given: Any, place: str) -> timedelta:
    """How long: a `timedelta`, or minutes as a number."""
    if isinstance(given, timedelta):
        found = given
    else:
        meant = "a time span: a timedelta, or a number of minutes"
        try:
            found = timedelta(microseconds=int(number_of(given, place, meant) * 60_000_000))
        except OverflowError as error:
            raise fault(place, given, f"{meant}, of at most some thousand years") from error
    if found <= timedelta(0):
        raise fault(place, str(found), "a time span that is longer than nothing")
    return found


def written(moment: datetime) -> str:
    """A moment as it is printed: ISO 8601 in UTC, to the second, or to the microsecond where it has parts of one."""
    return moment.astimezone(timezone.utc).isoformat().replace("+00:00", "Z")
