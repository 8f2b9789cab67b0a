"""The page as somebody uses it who does anything: actions at random, with what must hold after each of them. What is
saved is least for the texts that are saved with it, and what is typed stays."""

from __future__ import annotations

import json
from pathlib import Path

from browsers import Browser
from faults import start
from use import Use

SCRIPT = Path(__file__).with_name("chance.js").read_text(encoding="utf-8")
AT_ONCE = 500


def acted(browser: Browser, page: str, count: int) -> tuple[int, list[str]]:
    """How many actions there were, and what did not hold."""
    use, found = Use(browser, page), list[str]()
    start(use, "two_passes")
    for seed in range(-(-count // AT_ONCE)):
        script = SCRIPT.replace("SEED", str(seed + 1)).replace("COUNT", str(min(AT_ONCE, count - seed * AT_ONCE)))
        found += [f"seed {seed + 1}: {it}" for it in json.loads(use.do(script))]
    return count, found
