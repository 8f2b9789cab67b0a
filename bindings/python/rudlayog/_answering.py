"""What is found of a variant: the call that a worker is given."""

from __future__ import annotations

import re
from bisect import bisect_right
from collections.abc import Sequence
from datetime import timedelta
from operator import sub
from typing import Any, NamedTuple

from . import _library
from ._base import Base
from ._data import LIMIT, SIZE
from ._edges import edges_of
from ._flown import InPackets, in_packets
from ._flows import Unit, arrivals_of
from ._found import Found
from ._timeline import DURING, Problem, problem_of, problem_with
from .forecasts import Forecast
from .mission import Mission
from .plans import Plan, plan_octets
from .refusals import Refusal
from .setups import Setup
from .variants import Replaced, Variant, changed, split, texts_changed

_LOSS = re.compile(rb"\nloss (\d+)\n")
_DUMP = re.compile(rb"\ndump \d+ (.*)")
_CERTIFICATE = re.compile(rb"\nloss (\d+)\n((?:[sc].*\n)*)bound (.*)\n")
Dumps = tuple[tuple[int, ...], ...]
# What a plan text shows: the loss, the lines of the cut, and its bound.
Shown = tuple[int, str, int]


class Task(NamedTuple):
    """What is asked of each variant: the `base`, the `dumps` of a plan that stays, if there is one, whether losses
    `by_store` are told, whether stores are served `in_order`, whether `ages` are told, and the `horizon` and the `look`
    of plans in parts."""

    base: Base
    dumps: Dumps | None = None
    by_store: bool = True
    in_order: bool = False
    ages: bool = False
    horizon: timedelta | float | None = None
    look: timedelta | float | None = None

    @staticmethod
    def fixed(plan: Any, base: Base) -> Dumps:
        """The dumps of a plan that stays."""
        made = plan.plan if hasattr(plan, "parts") else plan
        dumps = (made if isinstance(made, Plan) else Plan(plan_octets(made))).dumps
        if len(dumps) != len(base.forecast.windows) or len(dumps[0]) != len(base.setup.stores):
            wanted = f"{len(base.forecast.windows)} of {len(base.setup.stores)}"
            raise ValueError(f"the plan has {len(dumps)} steps of {len(dumps[0])} stores, and the mission {wanted}")
        return dumps


def found_of_all(task: Task, given: list[tuple[int, Variant]]) -> list[Found]:
    """What is found of some variants."""
    return [found_of(task, variant) for _, variant in given]


def found_of(task: Task, variant: Variant) -> Found:
    """What is found of one variant, or why it is refused."""
    try:
        return _found(task, variant)
    except (Refusal, ValueError, TypeError, ArithmeticError, LookupError, AttributeError) as error:
        words = str(error) if isinstance(error, (Refusal, ValueError)) else f"{type(error).__name__}: {error}"
        return Found(None, refused=words)


def _found(task: Task, variant: Variant) -> Found:
    """What is found of one variant."""
    base = task.base
    if base.mission is None:
        return _found_of_texts(task, *texts_changed(base.setup, base.forecast, variant.changes))
    if task.dumps is None and task.horizon is None and not task.ages and base.quick is not None:
        quick = base.quick.texts(variant.changes)
        if quick is not None:
            return _least_found(task, quick.setup, quick.forecast, quick.stores)
    changes, functions = split(variant.changes)
    mission = changed(base.mission, changes)
    if task.horizon is not None:
        return _found_in_parts(task, mission, bool(functions))
    if task.dumps is not None:
        return _found_of_fixed(task, mission, functions)
    problem = problem_of(mission)
    setup, forecast = texts_changed(*problem, functions)
    stores = tuple(problem.unit.packets.values()) if functions else _stores_of(problem)
    found = _least_found(task, bytes(setup), bytes(forecast), stores)
    return found._replace(ages=_ages_of(task, problem)) if task.ages else found


def _stores_of(problem: Problem) -> Sequence[int | InPackets]:
    """The stores of a problem: in packets, where a unit has several."""
    packets = tuple(problem.unit.packets.values())
    if set(packets) == {1}:
        return packets
    return in_packets(problem)


def _found_of_texts(task: Task, setup: Setup, forecast: Forecast) -> Found:
    """What is found of a setup and a forecast."""
    if task.dumps is not None:
        by_store = _flown(setup, forecast, task.dumps, range(len(task.dumps)))
        return Found(sum(by_store), by_store)
    return _least_found(task, bytes(setup), bytes(forecast), ())


def _found_of_fixed(task: Task, mission: Mission, functions: tuple[Replaced, ...]) -> Found:
    """What is found of the plan that stays: a step begins where one of the plan does, and where one of the mission's
    own."""
    base = task.base.problem
    if (mission.begin, mission.end) != (base.mission.begin, base.mission.end):
        raise ValueError("the variant begins or ends at another time than the plan")
    if Unit.of(mission, base.unit.count) != base.unit:
        raise ValueError("the variant has another unit than the plan")
    edges = sorted({*base.edges, *edges_of(mission)})
    setup, forecast = texts_changed(*problem_with(mission, edges, base.unit, arrivals_of(mission)), functions)
    steps = [bisect_right(base.edges, edge) - 1 for edge in edges[:-1]]
    lost = _flown(setup, forecast, task.dumps or (), steps)
    by_store = tuple(units * each for units, each in zip(lost, base.unit.packets.values()))
    return Found(sum(by_store), by_store)


def _found_in_parts(task: Task, mission: Mission, has_functions: bool) -> Found:
    """What is found of a plan in parts."""
    if has_functions:
        raise ValueError("a function of a setup and a forecast, in a study with a horizon")
    made = mission.plan(horizon=task.horizon, look=task.look, in_order=task.in_order)
    return Found(
        made.loss,
        tuple(made.losses.values()) if task.by_store else (),
        ages=tuple(made.ages_in_line()) if task.ages else (),
    )


def _ages_of(task: Task, problem: Problem) -> tuple[float, ...]:
    """The ages of a plan."""
    from .sheets import MissionPlan

    return tuple(MissionPlan.of_problem(problem, task.in_order).ages_in_line())


def _least_found(task: Task, setup: bytes, forecast: bytes, stores: Sequence[int | InPackets]) -> Found:
    """What is found of a plan of the kind that is asked for. What it loses is counted in packets: of stores that are
    given as such, or of which a unit has so many."""
    by_store, text = (_in_order if task.in_order else _least)(setup, forecast)
    loss, shown, bound = _shown(text)
    if any(each != 1 for each in stores):
        shown += f"bound {bound}\n"
        dumps = _dumps_in(text) if any(isinstance(each, InPackets) for each in stores) else []
        by_store = tuple(
            sum(lost for _, lost, _, _ in each.steps(dumps[place])) if isinstance(each, InPackets) else units * each
            for place, (units, each) in enumerate(zip(by_store, stores))
        )
        bound, loss = sum(by_store) - (loss - bound), sum(by_store)
    return Found(loss, by_store if task.by_store else (), bound, shown)


def _least(setup: bytes, forecast: bytes) -> tuple[tuple[int, ...], bytes]:
    """What each store loses in a least plan, and its text."""
    losses = _library.LossesTold()
    text = _library.told(_library.rudlayog_plan_losses, texts=(setup, forecast), more=(losses,))
    return tuple(losses.by_store[: text.count(b" ", 9, text.index(b"\n", 9))]), text


def _in_order(setup: bytes, forecast: bytes) -> tuple[tuple[int, ...], bytes]:
    """The same of a plan that serves the stores in order. What the first ones lose up to a store, less what they lose
    before it, is what it loses."""
    text = _library.told(_library.rudlayog_plan_in_order, texts=(setup, forecast))
    loss, *firsts = map(int, _LOSS.findall(text, text.index(b"\nloss ")))
    return tuple(map(sub, [*firsts, loss], [0, *firsts])), text


def _dumps_in(text: bytes) -> list[tuple[int, ...]]:
    """For each store what leaves it in each step of a plan text."""
    return list(zip(*(map(int, amounts.split()) for amounts in _DUMP.findall(text))))


def _shown(text: bytes) -> Shown:
    """The loss, the lines of the cut, and the bound, which come after the dumps."""
    loss, cut, bound = _CERTIFICATE.search(text, text.index(b"\nloss ")).groups()  # type: ignore[union-attr]
    return int(loss), cut.decode("ascii"), int(bound)


def _flown(setup: Setup, forecast: Forecast, dumps: Dumps, steps: Any) -> tuple[int, ...]:
    """What each store loses with these dumps, as far as windows and limits allow them. `steps` says which dumps belong
    to each step of the forecast; in parts of a step what is not yet sent goes on. The stores of the setup come in their
    order."""
    held = [store.start for store in setup.stores]
    gone = [0] * len(held)
    limits = {limit.channel: [limit.blocks] * len(forecast.windows) for limit in setup.limits}
    for name, column in forecast.limits.items():
        channel = int(name.removeprefix(LIMIT))
        limits[channel] = [min(both) for both in zip(column, limits.get(channel, column))]
    left = [list(amounts) for amounts in dumps]
    for step, (window, of_step) in enumerate(zip(forecast.windows, steps, strict=True)):
        rooms = {channel: column[step] for channel, column in limits.items()}
        amounts = left[of_step]
        for place, store in enumerate(setup.stores):
            own = forecast.sizes.get(f"{SIZE}{store.id}")
            size = min(store.size, own[step]) if own else store.size
            there = held[place] + forecast.arrivals[store.id][step]
            early = 0 if setup.arrivals == DURING else max(there - size, 0)
            sent = min(there - early, amounts[place], window, rooms.get(store.channel, window))
            lost = max(there - sent - size, early)
            gone[place] += lost
            held[place] = there - lost - sent
            amounts[place] -= sent
            window -= sent
            if store.channel in rooms:
                rooms[store.channel] -= sent
    return tuple(gone)
