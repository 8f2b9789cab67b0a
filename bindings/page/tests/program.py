"""What the program `mm_tool` prints, to compare the page with."""

from __future__ import annotations

import subprocess
import tempfile
from pathlib import Path

from cases import TOP, Case

PROGRAM = TOP / "crates" / "mm_tool" / "out" / "mm_tool"
PLAN, IN_ORDER, WORTH = "plan", "plan --in-order", "chart --worth"
JUDGED = ("check", "chart", "table")


def told(task: str, *texts: bytes) -> bytes | str:
    """The text that the program prints, of a task perhaps with its flag; or of a refusal its line and its hint, in a
    str."""
    with tempfile.TemporaryDirectory() as folder:
        files = [str(Path(folder, str(nth))) for nth in range(len(texts))]
        for file, text in zip(files, texts):
            Path(file).write_bytes(text)
        ran = subprocess.run([PROGRAM, *task.split(), *files], capture_output=True, check=False)
    if not ran.stdout.startswith(b"refused "):
        return ran.stdout
    hint = next((line[6:] for line in ran.stderr.decode(errors="replace").split("\n") if line.startswith("hint: ")), "")
    return f"{ran.stdout.decode().strip()[8:]}; {hint}"


def text(task: str, *texts: bytes) -> bytes:
    """The text that the program prints, of a task that is not refused."""
    said = told(task, *texts)
    if isinstance(said, str):
        raise ValueError(said)
    return said


def plan_or_nothing(task: str, setup: bytes, forecast: bytes) -> bytes:
    said = told(task, setup, forecast)
    return b"" if isinstance(said, str) else said


def answers(case: Case, task: str = PLAN) -> dict[str, bytes | str]:
    """What is printed of a case, in the order in which the page asks: the plan, by one task or the other, and the plan
    judged, drawn and tabulated; a refusal is the last."""
    _, setup, forecast, plan = case
    said: dict[str, bytes | str] = {"plan": plan or told(task, setup, forecast)}
    for judges in JUDGED:
        if isinstance(made := said["plan"], bytes):
            said[judges] = told(judges, setup, forecast, made)
    return said


def worths(case: Case) -> dict[str, bytes | str]:
    """What is printed of what each number of a case is worth, and the chart that is shaded by it."""
    _, setup, forecast, _ = case
    plan = told(PLAN, setup, forecast)
    said: dict[str, bytes | str] = {"sensitivity": told("sensitivity", setup, forecast)}
    return said if isinstance(plan, str) else {**said, "chart": told(WORTH, setup, forecast, plan)}
