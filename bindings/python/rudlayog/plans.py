"""Dump plans, with the cut that shows that no plan loses less."""

from __future__ import annotations

import re
from collections.abc import Callable, Iterable
from dataclasses import dataclass
from datetime import timedelta
from functools import cached_property
from typing import TYPE_CHECKING, Any, SupportsIndex, TypeVar, Union

from . import _library
from ._brief import brief
from ._data import STEP, Columns, Table, Text, is_text, octets, packet_octets, whole
from ._steps import by_step
from .forecasts import Forecast
from .refusals import Refusal
from .setups import setup_with

if TYPE_CHECKING:
    from .mission import Mission
    from .sheets import Sheet

Made = TypeVar("Made")

# How many steps a forecast can have.
MOST_STEPS = 256


@brief
@dataclass(frozen=True)
class Stretch:
    """A run of steps of a `store` in a cut, from the step `first` to the step `last`, both included."""

    store: str
    first: int
    last: int


@brief
@dataclass(frozen=True)
class Cut:
    """A cut: its `stretches`, the inner steps `by_channels`, in which the limits of the channels count and not the
    window, and its `bound` in blocks. No plan that fits loses less than the bound."""

    stretches: tuple[Stretch, ...]
    by_channels: tuple[int, ...]
    bound: int


@brief
@dataclass(frozen=True)
class Certificate:
    """What shows that no plan that fits loses less of the first stores of a setup: how many `stores` they are, their
    `loss` in blocks, and a `cut` of them, whose bound is the loss."""

    stores: int
    loss: int
    cut: Cut


class Plan:
    """A plan text. When something of it is asked for the library reads it, and raises `Refusal` where it is no plan
    text. A plan that `plan` made knows its setup and its forecast, and is shown in a notebook as its chart."""

    def __init__(self, text: Text) -> None:
        self._octets = octets(text)
        self._problem: tuple[bytes, ...] | None = None

    @classmethod
    def _made(cls, text: bytes, problem: tuple[bytes, ...] | None) -> Plan:
        """The plan that the library has made for this problem."""
        plan = cls(text)
        plan._problem = problem
        return plan

    @classmethod
    def of(
        cls, dumps: Table, loss: SupportsIndex = 0, cut: Cut | None = None, firsts: Iterable[Certificate] | None = None
    ) -> Plan:
        """The plan with these dumps: a table with a column for each store, and a row for each step. With a column
        `step` the rows may stand in any order. Raises `Refusal` where the steps are not 1, 2, 3 and so on. `loss` and
        `cut` are what the text says, and so are the certificates of the `firsts` stores, where the text is to say that
        stores are served in order; `check` tells whether they are right. """
        named = by_step(dumps)
        cut = cut or Cut((), (), 0)
        form = 3 if firsts is not None else 2 if cut.by_channels else 1
        lines = [f"mmplan {form}", " ".join(["stores", *named])]
        for step, amounts in enumerate(zip(*named.values(), strict=True), 1):
            lines.append(" ".join(["dump", str(step), *map(str, amounts)]))
        lines += _certificate_lines(whole(loss, "loss"), cut)
        for first in firsts or ():
            lines += [
                f"first {whole(first.stores, 'stores')}",
                *_certificate_lines(whole(first.loss, "loss"), first.cut),
            ]
        return cls("\n".join([*lines, "end", ""]).encode())

    def __bytes__(self) -> bytes:
        return self._octets

    def __eq__(self, other: object) -> bool:
        return isinstance(other, Plan) and self._octets == other._octets

    def __hash__(self) -> int:
        return hash(self._octets)

    def __reduce__(self) -> tuple[object, ...]:
        return Plan._made, (self._octets, self._problem)

    def __repr__(self) -> str:
        try:
            return f"<Plan of {len(self.dumps)} steps for {', '.join(self.stores)}: loses {self.loss}>"[:300]
        except Refusal:
            return f"<Plan of a text of {len(self._octets)} octets that is no plan text>"

    @property
    def text(self) -> str:
        """The plan text."""
        return self._octets.decode()

    @cached_property
    def _read(self) -> bytes:
        """The octets, once the library has read them, or has made them itself."""
        if self._problem is None:
            _library.accept(*_problem_for(self._octets), self._octets)
        return self._octets

    def _line(self, word: bytes) -> bytes:
        """What stands after this word in the first line that it begins."""
        at = self._read.find(b"\n" + word) + 1 + len(word)
        return self._octets[at : self._octets.find(b"\n", at)]

    def _lines(self, word: str) -> list[list[str]]:
        """The words after this one in each line that it begins."""
        return [line.split(" ")[1:] for line in self._read.decode("ascii").split("\n") if line.startswith(word)]

    @cached_property
    def stores(self) -> tuple[str, ...]:
        """The identifiers of the stores."""
        return tuple(self._line(b"stores ").decode("ascii").split(" "))

    @cached_property
    def dumps(self) -> tuple[tuple[int, ...], ...]:
        """For each step, how many blocks are to leave each store."""
        return tuple(tuple(map(int, amounts)) for _, *amounts in self._lines("dump "))

    @cached_property
    def by_store(self) -> Columns:
        """For each store, how many blocks are to leave it in each step: a mapping that stays as it is."""
        return Columns(dict(zip(self.stores, zip(*self.dumps, strict=True), strict=True)))

    @cached_property
    def loss(self) -> int:
        """The blocks that the plan loses, as its text says."""
        return int(self._line(b"loss "))

    @cached_property
    def cut(self) -> Cut:
        """The cut that the text has, of all stores."""
        return self._certificates[0].cut

    @cached_property
    def firsts(self) -> tuple[Certificate, ...] | None:
        """Where the text says that stores are served in order, the certificates of the first store, of the first two
        and so on, but for all."""
        return self._certificates[1:] if self._read.startswith(b"mmplan 3\n") else None

    @cached_property
    def _certificates(self) -> tuple[Certificate, ...]:
        """That of all stores, and then those of the first ones."""
        tail = self._read[self._read.index(b"\nloss ") + 1 :].decode("ascii").removesuffix("end\n")
        all_stores, *firsts = re.split(r"^first (?=\d+\n)", tail, flags=re.MULTILINE)
        return (_certificate(f"{len(self.stores)}\n{all_stores}"), *map(_certificate, firsts))

    def to_dict(self) -> dict[str, list[int]]:
        """The steps and the dumps, as columns."""
        return {
            STEP: list(range(1, len(self.dumps) + 1)),
            **{store: list(column) for store, column in self.by_store.items()},
        }

    def to_frame(self, make: Callable[[dict[str, list[int]]], Made]) -> Made:
        """The steps and the dumps as a data frame, made by `make`, as `pandas.DataFrame`."""
        return make(self.to_dict())

    def passes(self, mission: Mission, step: timedelta | float | None = None) -> Sheet:
        """The sheet for operations: what each pass of the mission sends, where this plan is one for its problem, with
        steps from event to event or of this length."""
        from .calls import check
        from .sheets import MissionPlan

        problem = mission.problem(step)
        verdict = check(problem.setup, problem.forecast, self)
        if verdict.kind == "does not fit":
            raise ValueError(f"the plan is none for this mission: {verdict.line}")
        return MissionPlan(mission, ((problem, self),)).passes()

    def _repr_svg_(self) -> str | None:
        if self._problem is None:
            return None
        from .calls import chart

        setup, forecast = self._problem
        return chart(setup, forecast, self).svg

    def _repr_html_(self) -> str:
        from ._tables import html_of

        return (self._repr_svg_() or "") + html_of(self.to_dict())


def _certificate(text: str) -> Certificate:
    """The certificate that the lines say, of which the first is the number of stores."""
    stores, *lines = text.splitlines()
    words: dict[str, list[list[str]]] = {"loss": [], "stretch": [], "count": [], "bound": []}
    for line in lines:
        word, *rest = line.split(" ")
        words[word].append(rest)
    stretches = tuple(Stretch(store, int(first), int(last)) for store, first, last in words["stretch"])
    by_channels = tuple(int(step) for step, _ in words["count"])
    return Certificate(int(stores), int(words["loss"][0][0]), Cut(stretches, by_channels, int(words["bound"][0][0])))


def _certificate_lines(loss: int, cut: Cut) -> list[str]:
    """The lines of a loss and a cut."""
    return [
        f"loss {loss}",
        *(f"stretch {stretch.store} {stretch.first} {stretch.last}" for stretch in cut.stretches),
        *(f"count {step} channels" for step in cut.by_channels),
        f"bound {whole(cut.bound, 'bound')}",
    ]


# What is taken as a plan.
PlanLike = Union[Text, Plan, Table]


def _problem_for(plan: bytes) -> tuple[bytes, bytes]:
    """A setup and a forecast with the stores and as many steps as a plan text; or others, where there are none with
    such."""
    lines = plan.decode("utf-8", "replace").split("\n")
    names = [line.split(" ")[1:] for line in lines if line.startswith("stores ")]
    setup = setup_with(names[0] if names else [])
    steps = min(max(sum(line.startswith("dump ") for line in lines), 1), MOST_STEPS)
    return bytes(setup), bytes(Forecast.of([0] * steps, {store.id: [0] * steps for store in setup.stores}))


def plan_octets(given: Any) -> bytes:
    """The octets of a plan: of a text, a `Plan`, or a table of dumps."""
    if isinstance(given, Plan):
        return bytes(given)
    return octets(given) if is_text(given) else bytes(Plan.of(given))


def request_octets(given: Any) -> bytes:
    """The octets of requests: of a text, or of the packets, one for each request."""
    if is_text(given):
        return octets(given)
    return "".join(
        packet_octets(packet, f"packet {place}").hex().upper() + "\n" for place, packet in enumerate(given, 1)
    ).encode()
