#!/usr/bin/env python3
"""Compares what the C example `tool` does on several processors: `problems.py PROBLEMS SEED TOOL TOOL ..`. Each tool
is the words of a command, as `qemu-riscv64 -L /usr/riscv64-linux-gnu out/tool`. On each of the made problems, some of
them spoiled, all must print the same, on standard output and on standard error, and end in the same status. Prints
one line where that is so."""

import random
import shlex
import subprocess
import sys
import tempfile
from pathlib import Path

sys.dont_write_bytecode = True
sys.path.insert(0, str(Path(__file__).resolve().parents[2] / "python" / "tests"))
from compare import REQUESTS, forecast, plan, setup, texts  # noqa: E402

PROBLEM, PLANNED = ("setup", "forecast"), ("setup", "forecast", "plan")
COMMANDS = {
    "plan": PROBLEM,
    "sensitivity": PROBLEM,
    "check": PLANNED,
    "chart": PLANNED,
    "table": PLANNED,
    "ask": ("setup", "requests"),
    "read": ("requests",),
}


def problem(dice: random.Random) -> dict[str, bytes]:
    """A setup, a forecast, a plan and requests; of one in four some are spoiled."""
    if dice.random() < 0.25:
        return texts(dice)
    stores = setup(dice)
    coming = forecast(dice, stores)
    lines = "\n".join(dice.choice(REQUESTS) for _ in range(dice.randint(0, 6)))
    made = bytes(plan(stores, coming, in_order=dice.random() < 0.5))
    return {"setup": bytes(stores), "forecast": bytes(coming), "plan": made, "requests": lines.encode()}


def ended(tool: list[str], words: list[str], folder: str) -> tuple[bytes, bytes, int]:
    ran = subprocess.run([*tool, *words], cwd=folder, capture_output=True, stdin=subprocess.DEVNULL, timeout=300)
    return ran.stdout, ran.stderr, ran.returncode


def absolute(word: str) -> str:
    return str(Path(word).absolute()) if Path(word).exists() else word


def main(count: str, seed: str, *tools: str) -> None:
    dice = random.Random(int(seed))
    told = 0
    commands = [[absolute(word) for word in shlex.split(tool)] for tool in tools]
    with tempfile.TemporaryDirectory() as folder:
        for number in range(int(count)):
            for name, text in problem(dice).items():
                (Path(folder) / name).write_bytes(text)
            command = dice.choice(["plan", *COMMANDS])
            first, *others = [ended(tool, [command, *COMMANDS[command]], folder) for tool in commands]
            told += first[2] == 0
            if any(other != first for other in others):
                sys.exit(f"problem {number} of seed {seed}, tool {command}: {first} and {others}")
    print(f"problems: {count} through {len(tools)} tools, of which {told} are done: the same output, words and status")


if __name__ == "__main__":
    main(*sys.argv[1:])
