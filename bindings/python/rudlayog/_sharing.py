"""How what leaves in a step is shared out among the passes that are used in it."""

from __future__ import annotations

from collections.abc import Mapping

# A link of a step: its number, its window, and the limits of channels.
Link = tuple[int, int, Mapping[int, int]]


def shared(dumped: Mapping[str, int], channels: Mapping[str, int], links: list[Link]) -> dict[int, dict[str, int]]:
    """What of each store leaves by each link, which has a number, a window and the limits of channels. What cannot be
    shared out at once is by moving what other channels send to other links (augmenting paths)."""
    if len(links) == 1:
        return {links[0][0]: {store: blocks for store, blocks in dumped.items() if blocks}}
    wanted: dict[int, int] = {}
    for store, blocks in dumped.items():
        wanted[channels[store]] = wanted.get(channels[store], 0) + blocks
    sent = {(channel, place): 0 for channel in wanted for place, _, _ in links}
    for channel, blocks in wanted.items():
        while blocks > 0:
            gain = _sent_more(channel, blocks, sent, links, set())
            if not gain:
                raise AssertionError(f"{blocks} blocks of channel {channel} find no link")
            blocks -= gain
    return _by_store(dumped, channels, links, sent)


def _sent_more(channel: int, most: int, sent: dict[tuple[int, int], int], links: list[Link], seen: set[int]) -> int:
    """Sends more blocks of a channel, at most this many, if need be in place of another channel that has another link,
    and says how many."""
    for place, window, limits in links:
        room = min(most, limits.get(channel, window) - sent[channel, place])
        if room <= 0 or place in seen:
            continue
        seen.add(place)
        free = window - sum(blocks for (_, link), blocks in sent.items() if link == place)
        if free > 0:
            gain = min(room, free)
            sent[channel, place] += gain
            return gain
        for other in {each for each, link in sent if link == place and each != channel and sent[each, place]}:
            gain = _sent_more(other, min(room, sent[other, place]), sent, links, seen)
            if gain:
                sent[other, place] -= gain
                sent[channel, place] += gain
                return gain
    return 0


def _by_store(
    dumped: Mapping[str, int], channels: Mapping[str, int], links: list[Link], sent: dict[tuple[int, int], int]
) -> dict[int, dict[str, int]]:
    """What of each store leaves by each link, where the links have what their channels send."""
    left = dict(dumped)
    found: dict[int, dict[str, int]] = {}
    for (channel, place), blocks in sent.items():
        for store in left:
            if channels[store] == channel and blocks and left[store]:
                share = min(blocks, left[store])
                found.setdefault(place, {})[store] = found.get(place, {}).get(store, 0) + share
                left[store] -= share
                blocks -= share
    return found
