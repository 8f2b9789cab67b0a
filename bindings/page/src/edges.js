// When the steps of a mission begin, by the rules of the Python package: where passes begin and end while they are
// used, and observations in them. Times are microseconds from the mission's begin.
import { written } from "./moments.js";
import { MOST_STEPS, problemWith, unitFor, usesOf } from "./timeline.js";
import { refuse } from "./units.js";

const MOST_TOLD = 10;
const ascending = times => [...times].sort((a, b) => a - b);

// The edges of the steps from a time on, with those that are given `also`. Refuses too many.
export function missionEdges(mission, from = 0, also = []) {
  const last = mission.end - mission.begin, moments = mission.observations.flatMap(it => [it.begin, it.end])
    .map(it => it - mission.begin).filter(it => it > 0 && it < last), edges = new Set([from, last, ...also]);
  for (const { begin, end } of usesOf(mission))
    for (const time of [begin, end, ...moments.filter(it => it >= begin && it < end)]) edges.add(time);
  const found = ascending(edges).filter(it => it >= from);
  if (found.length > MOST_STEPS + 1) refuseSteps(mission, found);
  return found;
}

// A time span as Python writes it.
function spanText(micros) {
  const part = micros % 1_000_000, seconds = Math.floor(micros / 1_000_000), days = Math.floor(seconds / 86_400);
  const two = it => String(it).padStart(2, "0"), clock = [Math.floor((seconds % 86_400) / 3600),
    two(Math.floor((seconds % 3600) / 60)), two(seconds % 60)].join(":");
  const before = days ? `${days} ${days === 1 ? "day" : "days"}, ` : "";
  return `${before}${clock}${part ? `.${String(part).padStart(6, "0")}` : ""}`;
}

// The nearest neighbours of edges, at most so many, that can be at one moment: so that no pass and no observation
// begins as it ends.
function joinable(edges, names, ends, most) {
  const runs = new Map(edges.map(it => [it, [it]])), found = [], pairs = edges.slice(1)
    .map((end, nth) => [edges[nth], end]).sort((a, b) => a[1] - a[0] - (b[1] - b[0]));
  for (const [first, last] of pairs) {
    const joined = [...runs.get(first), ...runs.get(last)], end = joined.at(-1);
    if (found.length === most) break;
    if (names.has(first) && names.has(last) && joined.every(it => (ends.get(it) ?? end + 1) > end)) {
      found.push([first, last]);
      for (const it of joined) runs.set(it, joined);
    }
  }
  return found.sort((a, b) => a[0] - b[0] || a[1] - b[1]);
}

// Refuses too many steps: says which events are nearest to one another, if enough of them can be at one moment.
function refuseSteps(mission, edges) {
  const steps = edges.length - 1, names = new Map(), ends = new Map();
  for (const it of [...mission.passes, ...mission.observations.map(one => ({ ...one, name: one.name || one.store }))]) {
    const begin = it.begin - mission.begin, end = it.end - mission.begin;
    for (const [time, does] of [[begin, "begins"], [end, "ends"]])
      names.set(time, [...names.get(time) ?? [], `${it.name} ${does}`]);
    ends.set(begin, Math.min(end, ends.get(begin) ?? end));
  }
  const nearest = joinable(edges, names, ends, steps - MOST_STEPS), said = time => `(${names.get(time).join(", ")})`;
  const joined = nearest.slice(0, MOST_TOLD).map(([from, to]) =>
    `${written(mission.begin + from)} ${said(from)} and ${spanText(to - from)} later ${said(to)}`);
  const more = nearest.length > MOST_TOLD ? `, and ${nearest.length - MOST_TOLD} more` : "";
  refuse("", `${steps} steps from event to event`, `at most ${MOST_STEPS}: plan in parts (horizon=)${
    nearest.length === steps - MOST_STEPS
      ? `, or let events that are near be at one moment (${joined.join("; ")}${more})` : ""}`);
}

// What is planned for a mission, in the steps and the unit that the Python package chooses.
export function problemOf(mission) {
  const edges = missionEdges(mission);
  return problemWith(mission, edges, unitFor(mission, edges));
}
