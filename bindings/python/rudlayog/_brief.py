"""What is shown of an object: at most some characters."""

from __future__ import annotations

from collections.abc import Callable
from typing import Any, TypeVar

Kind = TypeVar("Kind", bound=type[Any])
# How many characters are shown at most.
MOST = 300


def brief(kind: Kind) -> Kind:
    """The same class, whose objects are shown in at most so many characters."""
    whole: Callable[[Any], str] = getattr(kind, "__repr__")

    def shown(self: Any) -> str:
        return cut(whole(self))

    setattr(kind, "__repr__", shown)
    return kind


def cut(words: str) -> str:
    """Some words, without the last ones where they are too many."""
    return words if len(words) <= MOST else f"{words[: MOST - 3]} .."
