"""Compares the library in the page with the program, octet for octet; and refuses each of its allocations in turn."""

from __future__ import annotations

import base64
import json
from collections.abc import Sequence
from concurrent.futures import ThreadPoolExecutor
from typing import Any

from browsers import Browser, Chromium, Fault
from cases import Case
from program import IN_ORDER, answers, worths

AT_ONCE = 20
__all__ = ["ASK", "COMPARE", "Fault", "IN_TURN", "base64_of", "differences", "in_order_of", "ready", "refused_in_turn",
    "wanted_of", "worths_of"]
READ = "const octetsOf = text => Uint8Array.from(atob(text), it => it.charCodeAt(0)), { library } = window.rudlayog;"
SAY = """
const written = octets =>
  { let text = ""; for (let at = 0; at < octets.length; at += 32768) text += String.fromCharCode(
  ...octets.subarray(at, at + 32768)); return btoa(text); };
const told = it => (it.refused ? `${it.refused.words.split(": expected ")[0]}; ${it.refused.hint}`
  : [written(it.octets)]);
const say = answers =>
  JSON.stringify(
  CASES.map(
  texts => { try { return answers(...texts.map(octetsOf)); } catch (fault) { return { plan: String(fault) }; } }));
"""
JUDGE = """
return say((setup, forecast, given) => {
  const planned = given.length ? { octets: given } : library.PLANS(setup, forecast), said = { plan: told(planned) };
  if (!planned.refused) for (const task of ["check", "chart", "table"]) said[task] = told(
    library[task](setup, forecast, planned.octets));
  return said;
});
"""
COMPARE, IN_TURN = JUDGE.replace("PLANS", "plan"), JUDGE.replace("PLANS", "planInOrder")
ASK = """
return say((setup, forecast) => {
  const { octets, refused } = library.plan(setup, forecast),
    said = { sensitivity: told(library.sensitivity(setup, forecast)) };
  return refused ? said : { ...said, chart: told(library.chartWorth(setup, forecast, octets)) };
});
"""
# Each allocation of each call is refused in turn, and then the memory is not let grow: the call answers as with enough
# memory, or out of memory.
REFUSE = """
const [setup, forecast] = CASE.map(octetsOf), Instance = WebAssembly.Instance,
  plan = library.plan(setup, forecast).octets;
let count = 0, refused = 0, most = Infinity;
WebAssembly.Instance = function (module, { heap }) {
  let memory;
  const none = (out, pointer) => { const view = new DataView(memory.buffer); view.setBigUint64(Number(out), 0n, true);
    view.setBigUint64(Number(out) + 8, pointer, true); };
  const made = new Instance(module, { heap: { ...heap,
    rattle_alloc: (...words) => (++count === refused ? none(words[0], 16n) : heap.rattle_alloc(...words)),
    rattle_realloc: (...words) => (++count === refused ? none(words[0], words[1]) : heap.rattle_realloc(...words)) } });
  memory = made.exports.memory;
  const grow = memory.grow.bind(memory);
  memory.grow = pages => { if (BigInt(memory.buffer.byteLength) / 65536n + BigInt(pages) > most) throw new RangeError(
    "no memory"); return grow(pages); };
  return made;
};
const texts = { plan: [], planInOrder: [], sensitivity: [] };
const out = {};
for (const name of CALLS) {
  // Each call has a library of its own, and so an instance of its own.
  const does = () => window.rudlayog.libraryOf(window.rudlayog.module)[name](
    setup, forecast, ...(texts[name] ?? [plan]));
  count = 0; refused = 0; most = Infinity;
  const wanted = does().octets, all = count, told = { all, none: 0, same: 0, other: [] };
  const note = (what, mayThrow) => {
    try {
      const it = does();
      if (!it.refused && it.octets.length === wanted.length
        && it.octets.every((octet, at) => octet === wanted[at])) told.same++;
      else if (it.refused?.words.startsWith("0 NoMemory")) told.none++;
      else told.other.push(`${what}: ${it.refused?.words ?? "another text"}`);
    } catch (fault) { if (mayThrow && String(fault).includes("no memory for the texts")) told.none++;
      else told.other.push(`${what}: ${fault}`); }
  };
  for (refused = 1; refused <= all; refused++) { count = 0; note(`allocation ${refused}`, false);
    if (refused % 50 === 0) await new Promise(done => setTimeout(done, 0)); }
  refused = 0;
  for (most = 17n; most <= 40n; most++) note(`${most} pages`, true);
  out[name] = told;
}
WebAssembly.Instance = Instance;
return JSON.stringify(out);
"""


def base64_of(octets: bytes) -> str:
    return base64.b64encode(octets).decode()


def ready(browser: Browser, page: str) -> None:
    """Opens the page, and waits until it can plan."""
    browser.open(f"file://{page}")
    browser.run("for (let turn = 0; turn < 3000 && !document.documentElement.dataset.hook; turn++) await new "
        "Promise(done => setTimeout(done, 10)); if (!document.documentElement.dataset.hook) throw new Error('the page "
        "is not ready');")


def wanted_of(cases: Sequence[Case]) -> list[dict[str, bytes | str]]:
    """What the program says of cases."""
    with ThreadPoolExecutor() as threads:
        return list(threads.map(answers, cases))


def in_order_of(cases: Sequence[Case]) -> list[dict[str, bytes | str]]:
    """What the program says of cases where the stores are served in order."""
    with ThreadPoolExecutor() as threads:
        return list(threads.map(lambda case: answers(case, IN_ORDER), cases))


def worths_of(cases: Sequence[Case]) -> list[dict[str, bytes | str]]:
    """What the program says that each number of cases is worth."""
    with ThreadPoolExecutor() as threads:
        return list(threads.map(worths, cases))


def differences(browser: Browser, cases: Sequence[Case], wanted: Sequence[dict[str, bytes | str]], does: str = COMPARE,
    limit: int = 0) -> list[str]:
    """Where the page, which is open and ready, says something else than the program. A limit in milliseconds ends what
    takes longer, in Chromium."""
    found: list[str] = []
    for start in range(0, len(cases), AT_ONCE):
        given = [[base64_of(text) for text in case[1:]] for case in cases[start : start + AT_ONCE]]
        script = f"const CASES = {json.dumps(given)};{READ}{SAY}{does}"
        said: list[dict[str, Any]] = json.loads(browser.run(script, limit) if limit and isinstance(browser, Chromium)
            else browser.run(script))
        for case, page, program in zip(cases[start:], said, wanted[start:]):
            texts = {task: base64.b64decode(it[0]) if isinstance(it, list) else it for task, it in page.items()}
            found += [f"{case[0]}: {task} is another" for task in {**program, **texts}
                if texts.get(task) != program.get(task)]
    return found


def refused_in_turn(browser: Browser, case: Case, calls: Sequence[str]) -> tuple[int, list[str]]:
    """How many allocations were refused, and where a call then answered something else. Chromium alone lets a test take
    a heap's place."""
    given = [base64_of(text) for text in case[1:3]]
    told: dict[str, dict[str, Any]] = json.loads(
        browser.run(f"const CASE = {json.dumps(given)}, CALLS = {json.dumps(calls)};{READ}{REFUSE}"))
    found = [f"{case[0]}, {call}: {it}" for call, said in told.items() for it in said["other"]]
    found += [f"{case[0]}, {call}: nothing was refused" for call,
        said in told.items() if not said["all"] or not said["none"]]
    return sum(said["all"] for said in told.values()), found
