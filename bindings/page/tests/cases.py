"""What the page is compared on: the examples, the families of bench/make.py, problems made at random, and texts that
are hard on memory or on the stack. Each case is a name, a setup, a forecast, and a plan where one is judged."""

from __future__ import annotations

import random
import re
import subprocess
import sys
from collections.abc import Callable, Iterator
from pathlib import Path

TOP = Path(__file__).resolve().parents[3]
EXAMPLES = ("mission", "tight", "two_passes", "channel_limit", "in_order", "first_run", "during", "bank_off",
    "deadline")
LETTERS = "ABCDEFGHIJKLMNOPQRSTUVWXYZ0123456789_-"
MARK = b"\xef\xbb\xbf"
Case = tuple[str, bytes, bytes, bytes]


def examples() -> Iterator[Case]:
    for name in EXAMPLES:
        folder = TOP / "examples" / name
        setup, forecast = (folder / "setup.toml").read_bytes(), (folder / "forecast.csv").read_bytes()
        yield name, setup, forecast, b""
        if (folder / "plan.txt").exists():
            yield f"{name}, judged", setup, forecast, (folder / "plan.txt").read_bytes()


def families(folder: Path) -> Iterator[Case]:
    subprocess.run([sys.executable, "-B", str(TOP / "bench" / "make.py"), str(folder)], check=True, capture_output=True)
    for it in sorted(folder.iterdir()):
        yield it.name, (it / "setup.toml").read_bytes(), (it / "forecast.csv").read_bytes(), b""


def problem(dice: random.Random) -> tuple[bytes, bytes]:
    """A setup and a forecast that can be read."""
    stores, steps = dice.choice([1, 2, 3, 5, 10, 16]), dice.choice([1, 2, 3, 8, 24, 60, 144, 256])
    most, ids = dice.choice([3, 20, 500, 20_000, 1_000_000]), set[str]()
    while len(ids) < stores:
        ids.add("".join(dice.choice(LETTERS) for _ in range(dice.randint(1, 8))))
    names = sorted(ids, key=lambda _: dice.random())
    setup = ['arrivals = "during"\n'] if dice.random() < 0.4 else []
    for name in names:
        size = dice.randint(1, most)
        start = f"start = {dice.randint(0, size)}\n" if dice.random() < 0.5 else ""
        kind = dice.choice(["circular", "bounded"])
        setup.append(
            f'[[store]]\nid = "{name}"\nsize = {size}\ntype = "{kind}"\nchannel = {dice.randrange(8)}\n{start}')
    limited = dice.choice([0, 0.3, 1])
    setup += [f"[[limit]]\nchannel = {it}\nblocks = {dice.randint(0, most)}\n" for it in range(8)
        if dice.random() < limited]
    for _ in range(dice.choice([0, 0, 3])):
        setup.append(f'[[route]]\napid = {dice.randrange(2047)}\nservice = {dice.randrange(256)}\nsubtype = '
            f'{dice.randrange(256)}\nstore = "{dice.choice(names)}"\n')
    often, rich = dice.choice([0.1, 0.4, 1]), dice.choice([1, stores, 3 * stores])
    columns = [f"limit:{it}" for it in range(8) if dice.random() < limited / 8]
    sized = dice.choice([0, 0, 0.4])
    columns += [f"size:{name}" for name in names if dice.random() < sized]
    rows = ["step,window," + ",".join([*names, *columns])]
    for step in range(1, steps + 1):
        window = min(1_000_000, dice.randint(0, most * rich)) if dice.random() < often else 0
        cells = [dice.randint(0, most) if dice.random() < 0.4 else 0 for _ in names] + [
            dice.randint(0, most) for _ in columns]
        rows.append(f"{step},{window}," + ",".join(map(str, cells)))
    end, mark = dice.choice(["\n", "\n", "\n", "\r\n"]), dice.choice([b"", b"", b"", MARK])
    return mark + end.join("\n".join(setup).split("\n")).encode(), mark + (end.join(rows) + end).encode()


def spoiled(dice: random.Random, text: bytes) -> bytes:
    """A text with some octets changed."""
    octets = bytearray(text)
    for _ in range(dice.choice([1, 1, 2, 5])):
        at, how = dice.randrange(len(octets)), dice.randrange(5)
        if how == 0:
            octets[at] = dice.randrange(256)
        elif how == 1:
            del octets[at : at + min(dice.randint(1, 8), len(octets) - 1)]
        elif how == 2:
            octets[at:at] = bytes([dice.choice(b'0123456789,\n"[]=# ')])
        else:
            octets[at] = dice.choice(b"0123456789")
    return bytes(octets)


def other_plan(dice: random.Random, text: bytes) -> bytes:
    """A plan text that can be read, but says something else."""
    lines = text.decode().split("\n")
    for _ in range(dice.choice([1, 2, 9])):
        at = dice.randrange(2, len(lines) - 2)
        words = lines[at].split(" ")
        numbers = [nth for nth, word in enumerate(words) if re.fullmatch(r"-?\d+", word)
            and not (words[0] == "dump" and nth == 1)]
        if numbers:
            nth = dice.choice(numbers)
            words[nth] = str(max(0, int(words[nth]) + dice.choice([-1, 1, 1, -5, 40, 1000])))
            lines[at] = " ".join(words)
        if words[0] in ("stretch", "count") and dice.random() < 0.4:
            del lines[at]
    return "\n".join(lines).encode()


def made(count: int, seed: int, plan: Callable[[bytes, bytes], bytes]) -> Iterator[Case]:
    """Problems at random: six in ten are planned, one has a fault, and three come with a plan that is not quite the one
    of the program."""
    dice = random.Random(seed)
    for nth in range(count):
        setup, forecast = problem(dice)
        kind, judged = dice.randrange(10), b""
        if kind == 6 and dice.random() < 0.5:
            setup = spoiled(dice, setup)
        elif kind == 6:
            forecast = spoiled(dice, forecast)
        elif kind > 6:
            judged = (spoiled if kind == 7 else other_plan)(dice, plan(setup, forecast))
        yield f"problem {nth} of seed {seed}", setup, forecast, judged


def is_short(case: Case) -> bool:
    """Whether a case is a problem of an example, or one at random of few steps: what each of its numbers is worth is
    soon known."""
    name, _, forecast, plan = case
    return not plan and (name in EXAMPLES or (name.startswith("problem") and forecast.count(b"\n") < 30))


def hard() -> Iterator[Case]:
    """Texts that are deep, wide, long or broken."""
    folder = TOP / "examples" / "first_run"
    setup, forecast = (folder / "setup.toml").read_bytes(), (folder / "forecast.csv").read_bytes()
    setups = {
        "deep arrays": b"a = " + b"[" * 300_000,
        "closed arrays": b"a = " + b"[" * 60 + b"]" * 60 + b"\n" + setup,
        "deep tables": b"a = " + b"{a=" * 200_000,
        "deep keys": b".".join([b"a"] * 200_000) + b" = 1\n",
        "deep heads": b"[" + b".".join([b"a"] * 100_000) + b"]\n",
        "many keys": b"".join(b"k%d = 1\n" % it for it in range(200_000)),
        "zeros": b"\0" * 1000,
        "a mark": MARK + setup,
        "CR LF": setup.replace(b"\n", b"\r\n"),
        "comments": setup + b"# x\n" * 2_000_000,
        "a long text": b'a = "' + b"x" * 8_000_000 + b'"\n' + setup,
        "many stores": b"".join(b'[[store]]\nid = "S%d"\nsize = 5\ntype = "bounded"\nchannel = 0\n' % it
        for it in range(50_000)),
        "a great number": setup.replace(b"size = ", b"size = 9", 1),
        "a minus": setup.replace(b"size = ", b"size = -", 1),
        "no UTF-8": setup + b"# \xff\n",
    }
    forecasts = {
        "a wide header": forecast.split(b"\n")[0] + b",X" * 1_000_000 + b"\n",
        "many records": forecast + forecast.split(b"\n")[-2] * 100_000,
        "an open quote": b'"' + b"x" * 4_000_000,
        "a header alone": forecast.split(b"\n")[0],
        "empty lines": forecast.replace(b"\n", b"\n\n\n"),
        "CR alone": forecast.replace(b"\n", b"\r"),
    }
    for name, text in setups.items():
        yield name, text, forecast, b""
    for name, text in forecasts.items():
        yield name, setup, text, b""
    yield "an empty setup", b"", forecast, b""
    yield "many stores of a plan", setup, forecast, b"mmplan 1\nstores " + b"A " * 1_000_000
    yield "many lines of a plan", setup, forecast, b"mmplan 1\nstores SCI\n" + b"dump 1 1\n" * 1_000_000
