"""The least loss of a mission by a linear program of scipy, in octets and without rounding, from what the mission says;
and that of a setup and a forecast, in blocks."""

from itertools import pairwise

from player import Coming, length_of, links_of, octets_of, spans_of, time_of
from scipy.optimize import linprog
from scipy.sparse import lil_matrix


def edges_of(mission, longest=None):
    """All moments at which something begins or ends, and others between them, if no step is to be longer than so many
    seconds."""
    last = time_of(mission, mission.end)
    parts = [*mission.passes, *mission.observations]
    events = {time_of(mission, moment) for one in parts for moment in (one.begin, one.end)}
    edges = sorted({0, last, *(time for time in events if 0 < time < last)})
    if longest is None:
        return edges
    counts = [-(-(end - begin) // (longest * 1_000_000)) for begin, end in pairwise(edges)]
    inner = (
        begin + (end - begin) * part // count
        for (begin, end), count in zip(pairwise(edges), counts)
        for part in range(count)
    )
    return [*inner, last]


def links_in(mission, edges):
    """The passes that are used in each step: the step, and what each of them sends at most, in octets, of which
    stores."""
    return [
        (step, [(float(rate) * (until - first) / 1e6, kept) for rate, kept in links_of(mission, one).values()])
        for one, begin, end in spans_of(mission)
        for step, (first, until) in enumerate(pairwise(edges))
        if begin <= first and until <= end
    ]


def least_octets(mission, longest=None):
    """The least loss in octets. In a step everything comes and goes evenly, so what is held is most as it begins or
    ends."""
    edges, stores = edges_of(mission, longest), mission.stores
    links, lengths = links_in(mission, edges), [length_of(mission, store) for store in stores]
    steps = len(edges) - 1
    count = len(stores) * steps
    # lost and held for each store and step, and what each link sends of each store
    width = 2 * count + len(links) * len(stores)
    equal, right = lil_matrix((count, width)), []
    for place, store in enumerate(stores):
        coming, octets = Coming(mission, store), lengths[place]
        come = [float(coming.until(edge) * octets) for edge in edges]
        for step in range(steps):
            row = place * steps + step
            equal[row, row] = equal[row, count + row] = 1
            if step:
                equal[row, count + row - 1] = -1
            right.append(come[step + 1] - come[step] + (0 if step else float(octets_of(store.holds, octets))))
    rooms, most = lil_matrix((sum(len(limits) for _, limits in links), width)), []
    for number, (step, limits) in enumerate(links):
        first = 2 * count + number * len(stores)
        for place in range(len(stores)):
            equal[place * steps + step, first + place] = 1
        for limit, kept in limits:
            for place, store in enumerate(stores):
                if store.id in kept:
                    rooms[len(most), first + place] = 1
            most.append(limit)
    sizes = [int(octets_of(store.size, mission.block) // mission.block) * each for store, each in zip(stores, lengths)]
    bounds = [(0, None)] * count + [(0, size) for size in sizes for _ in range(steps)] + [(0, None)] * (width - 2 * count)
    given = {"A_ub": rooms.tocsr(), "b_ub": most} if most else {}
    found = linprog(
        [1] * count + [0] * (width - count), A_eq=equal.tocsr(), b_eq=right, bounds=bounds, method="highs", **given
    )
    return found.fun


def least_blocks(setup, forecast):
    """The least loss of a setup and a forecast whose arrivals come during dumps, in blocks."""
    steps, stores, limits = len(forecast.windows), setup.stores, forecast.limits
    count = len(stores) * steps

    def at(kind, place, step):
        return kind * count + place * steps + step

    # what is held before and arrives is lost, dumped or held; what is held as a step ends is at most the size
    equal, right = lil_matrix((count, 3 * count)), []
    rooms, most = lil_matrix((count + steps * (1 + len(limits)), 3 * count)), []
    for place, store in enumerate(stores):
        for step in range(steps):
            row = place * steps + step
            for kind in range(3):
                equal[row, at(kind, place, step)] = 1
            if step:
                equal[row, at(2, place, step - 1)] = -1
            right.append(forecast.arrivals[store.id][step] + (0 if step else store.start))
            rooms[row, at(2, place, step)] = 1
            most.append(store.size)
    for number, (channel, column) in enumerate(
        [(None, forecast.windows), *((int(name[6:]), column) for name, column in limits.items())]
    ):
        for step in range(steps):
            for place, store in enumerate(stores):
                if channel in (None, store.channel):
                    rooms[count + number * steps + step, at(1, place, step)] = 1
            most.append(column[step])
    return linprog(
        [1] * count + [0] * 2 * count, A_ub=rooms.tocsr(), b_ub=most, A_eq=equal.tocsr(), b_eq=right, method="highs"
    ).fun
