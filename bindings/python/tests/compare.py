#!/usr/bin/env python3
"""Compares the package with the program on random texts, good and bad: `compare.py PROGRAM CALLS SEED`. What goes to
standard output, the status, and the words and the hint of each refusal must be the same; and texts that are read and
written again must be answered as they are, where the library takes them, and be refused where it does not. Prints one
line where that is so."""

import random
import subprocess
import sys
import tempfile
from collections.abc import Callable
from dataclasses import astuple
from pathlib import Path

sys.path.insert(0, str(Path(__file__).resolve().parents[1]))
from rudlayog import Forecast, Limit, Plan, Refusal, Route, Setup, Store  # noqa: E402
from rudlayog import ask, chart, check, plan, read, sensitivity, table  # noqa: E402

EXAMPLES = Path(__file__).resolve().parents[3] / "examples"
REQUESTS = (EXAMPLES / "requests" / "requests.hex").read_text().split("\n")
PROBLEM, PLANNED = ("setup", "forecast"), ("setup", "forecast", "plan")
COMMANDS = {
    **dict.fromkeys(("plan", "plan --in-order", "sensitivity"), PROBLEM),
    **dict.fromkeys(("check", "chart", "chart --worth", "table"), PLANNED),
    "ask": ("setup", "requests"),
    "read": ("requests",),
}


def setup(dice: random.Random) -> Setup:
    names = dice.sample(["SCI", "HK", "IMG_1", "X-2", "ABCDEFGH", "0"], dice.randint(1, 5))
    stores = []
    for name in names:
        size = dice.choice([1, 3, 9, 200, 1_000_000])
        kind, channel = dice.choice(["bounded", "circular"]), dice.randint(0, 7)
        stores.append(Store(name, size, kind, channel, dice.randint(0, min(size, 9))))
    routes = {(dice.randint(0, 2046), dice.randint(0, 255), dice.randint(0, 255)) for _ in range(dice.randint(0, 3))}
    channels = dice.sample(range(8), dice.randint(0, 2))
    limits = [Limit(channel, dice.randint(0, 4)) for channel in channels]
    arrivals = dice.choice(["before", "before", "during"])
    return Setup.of(stores, [Route(*key, dice.choice(names)) for key in sorted(routes)], limits, arrivals)


def forecast(dice: random.Random, stores: Setup) -> Forecast:
    steps = dice.choice([1, 2, 5, 12, 40])
    most = dice.choice([3, 9, 400])
    channels = sorted(dice.sample(range(8), dice.choice([0, 0, 1, 3])))
    names = [store.id for store in stores.stores]
    often = dice.choice([0, 0, 0.5])
    sized = [f"size:{name}" for name in names if dice.random() < often]
    names = ["window", *names, *(f"limit:{channel}" for channel in channels), *sized]
    return Forecast.table({name: [dice.randint(0, most) for _ in range(steps)] for name in names})


def spoiled(dice: random.Random, text: bytes) -> bytes:
    """The text with one octet changed, left out or put in, or one line left out or repeated."""
    if not text or dice.random() < 0.5:
        return text
    at = dice.randrange(len(text))
    if dice.random() < 0.3:
        lines = text.split(b"\n")
        at = dice.randrange(len(lines))
        lines[at : at + 1] = [lines[at]] * dice.choice([0, 2])
        return b"\n".join(lines)
    octet = bytes([dice.choice(b'0123456789 ,\n"=[]AZaz-\xff\x00')])
    return dice.choice([text[:at] + octet + text[at + 1 :], text[:at] + text[at + 1 :], text[:at] + octet + text[at:]])


def texts(dice: random.Random) -> dict[str, bytes]:
    good = setup(dice)
    coming = forecast(dice, good)
    made = bytes(plan(good, coming, in_order=dice.random() < 0.5))
    lines = [dice.choice(REQUESTS) for _ in range(dice.randint(0, 6))]
    found = {"setup": bytes(good), "forecast": bytes(coming), "plan": made, "requests": "\n".join(lines).encode()}
    return {name: spoiled(dice, text) for name, text in found.items()}


def answered(command: str, given: list[bytes]) -> tuple[bytes, int, str, str | None]:
    """What the package answers: as standard output, as a status, as words, and as a hint."""
    try:
        if command.startswith("plan"):
            return bytes(plan(*given, in_order=command == "plan --in-order")), 0, "", None
        if command == "check":
            verdict = check(*given)
            return f"{verdict.line}\n".encode(), 0 if verdict else 1, "", None
        if command.startswith("chart"):
            return chart(*given, worth=command == "chart --worth").svg.encode(), 0, "", None
        if command == "table":
            return table(*given).text.encode(), 0, "", None
        if command == "sensitivity":
            records = (("" if cell is None else str(cell) for cell in astuple(worth)) for worth in sensitivity(*given))
            header = "item,name,step,now,next,most,without"
            return "\n".join([header, *map(",".join, records), ""]).encode(), 0, "", None
        replies = read(*given) if command == "read" else ask(*given)
        return replies.text.encode(), 0 if replies.all_done else 1, "", None
    except Refusal as refusal:
        words = f"expected {refusal.expected}; {refusal.advice}"
        return f"refused {refusal.text()}\n".encode(), 1, words, refusal.found


def told(call: Callable[[], object]) -> object:
    """What a call answers, or the text of its refusal."""
    try:
        return call()
    except Refusal as refusal:
        return refusal.text()


def are_read(found: dict[str, bytes]) -> bool:
    """Whether the package reads a setup, a forecast and a plan as the library does."""
    setup, forecast, made = found["setup"], found["forecast"], Plan(found["plan"])
    direct = told(lambda: plan(setup, forecast))
    if direct != "30 Header" and told(lambda: plan(Setup.read(setup), Forecast.read(forecast))) != direct:
        return False
    verdict = told(lambda: check(setup, forecast, made).kind)
    again = told(lambda: Plan.of(made.to_dict(), made.loss, made.cut, made.firsts) == made)
    return isinstance(direct, str) or again == verdict or (again is True and not str(verdict).startswith("34"))


def main() -> int:
    program, calls, seed = sys.argv[1], int(sys.argv[2]), int(sys.argv[3])
    dice = random.Random(seed)
    refused = 0
    with tempfile.TemporaryDirectory() as room:
        for call in range(calls):
            command = dice.choice(list(COMMANDS))
            found = texts(dice)
            if not are_read(found):
                words = f"the package and the library read differently: {found}"
                print(f"compare: call {call} of seed {seed}: {words}"[:2000])
                return 1
            given = [found[name] for name in COMMANDS[command]]
            names = [str(Path(room, name)) for name in COMMANDS[command]]
            for name, text in zip(names, given, strict=True):
                Path(name).write_bytes(text)
            ran = subprocess.run([program, *command.split(" "), *names], capture_output=True, check=False)
            # of a verdict, and of a line that `ask` refuses, the program says more on standard error than the package
            # keeps
            words = ran.stderr.decode() if ran.stdout.startswith(b"refused ") else ""
            said = words[words.index("expected ") :].split("\n", 1)[0] if words else ""
            hint = next((line.removeprefix("hint: ") for line in words.splitlines() if line.startswith("hint: ")), None)
            if (ran.stdout, ran.returncode, said, hint) != answered(command, given):
                print(f"compare: call {call} of seed {seed}, {command}: the package and the program answer differently")
                print(f"program: {ran.stdout[:300]!r} {ran.returncode} {said!r} {hint!r}")
                print(f"package: {answered(command, given)!r}"[:2000])
                return 1
            refused += bool(said)
    print(f"compare: {calls} calls, {refused} of them refused: package and program answer the same")
    return 0


if __name__ == "__main__":
    sys.exit(main())
