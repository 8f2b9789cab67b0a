// Passes are data: a station, when it begins and ends, and its rate. The windows of the forecast follow them. A pass
// that was found in windows has its steps in place of times. Each has in `windows` what it gives to which step;
// together they are the windows of the forecast.
import { beginOf, edgesOf } from "./clock.js";
import { missionIn, passOf } from "./mission.js";
import { SECOND, momentOf, textOf, written } from "./moments.js";
import { forecastOf, forecastText, isSize } from "./texts.js";
import { missionEdges } from "./edges.js";
import { MOST_STEPS, countBefore, countUntil, falls, flowAt, problemWith, unitWith, withPasses } from "./timeline.js";
import { Faults, blocksASecond, rateOf } from "./units.js";

export const MOST_WINDOW = 1_000_000;
// In `bad` is what was typed of a pass and cannot be read; the pass is what it was before.
/** @type {Pass} */
export const NEW_PASS = { station: "", name: "", from: null, to: null, rate: "", channels: null, windows: [],
  bad: null };
export const sumOf = pass => pass.windows.reduce((sum, [, blocks]) => sum + blocks, 0);

// The windows of a forecast; null where one of them is no number.
function windowsIn(forecast) {
  const windows = forecastOf(forecast)?.records.map(record => (/^\d{1,15}$/.test(record[1]) ? Number(record[1]) : NaN));
  return windows && !windows.some(Number.isNaN) ? windows : null;
}

// The passes that windows are: steps one after another.
function foundIn(windows) {
  const found = [];
  windows.forEach((blocks, nth) => {
    if (!blocks) return;
    const last = found.at(-1)?.windows;
    if (last?.at(-1)[0] === nth) last.push([nth + 1, blocks]);
    else found.push({ ...NEW_PASS, windows: [[nth + 1, blocks]] });
  });
  return found;
}

// These passes with what the windows let them send, the last of a step first takes what its window has more or less;
// and after them those that are found in what is left.
function reconciled(passes, windows) {
  const kept = passes.map(it => ({ ...it, windows: it.windows.map(each => [...each]) })), rest = [...windows];
  for (const it of kept) for (const each of it.windows) {
    each[1] = Math.min(each[1], rest[each[0] - 1] ?? 0);
    rest[each[0] - 1] -= each[1];
  }
  rest.forEach((blocks, nth) => {
    const last = blocks > 0 && kept.findLast(it => it.windows.some(([step]) => step === nth + 1));
    if (!last) return;
    last.windows.find(([step]) => step === nth + 1)[1] += blocks;
    rest[nth] = 0;
  });
  return [...kept, ...foundIn(rest)];
}

const firstStep = pass => pass.windows[0]?.[0] ?? MOST_STEPS + 1;
export const inOrder = passes =>
  passes.toSorted((a, b) => (a.from !== null && b.from !== null ? a.from - b.from : firstStep(a) - firstStep(b)));

// The session with the passes that its windows are now, `before` being those that they were: those with a name or a
// time keep what is theirs, and the rest are found anew.
/**
 * @param {Session} session
 * @returns {Session}
 */
export function withWindowsOf(session, before = session.passes) {
  const windows = windowsIn(session.forecast);
  if (!windows) return session;
  const found = reconciled(before.filter(it => it.station || it.from !== null), windows);
  return { ...session, passes: inOrder(found.filter(it => it.from !== null || sumOf(it) > 0)) };
}

// ---- Windows that follow

const missions = new WeakMap(), units = new WeakMap();
// The mission of a session, as its files say it; null where it has none.
export function missionOf({ mission }) {
  if (!mission) return null;
  if (!missions.has(mission)) missions.set(mission, missionIn(mission.file, new Map(Object.entries(mission.files))));
  return missions.get(mission);
}

const givenOf = ({ station, name, from, to, rate, channels }) =>
  ({ station, name, begin: written(from), end: written(to), ...(rate ? { rate } : {}),
    ...(channels ? { channels } : {}) });

// The unit in which the blocks of a mission are counted; null where there is no mission.
export function unitOf(session) {
  const mission = missionOf(session), { unit } = session;
  if (!mission) return null;
  if (units.get(mission)?.count !== BigInt(unit)) units.set(mission, unitWith(mission, unit));
  return units.get(mission);
}

// The mission of a session with these of its passes.
const missionWith = (session, passes) => withPasses(missionOf(session), passes.filter(it => it.from !== null)
  .map(it => passOf(givenOf(it), `pass ${it.name}`)));

// The edges of the steps of a mission with these passes, from where the session begins.
function edgesWith(session, passes, also = []) {
  const mission = missionWith(session, passes), since = it => it - mission.begin;
  return missionEdges(mission, since(session.edges[0]), also.map(since)).map(it => it + mission.begin);
}

// What a mission with these passes has in these steps: the columns of its forecast, and what each pass can send. What
// was counted before the first step is not counted again.
const problems = new WeakMap();
function problemIn(session, passes, edges) {
  const known = problems.get(passes);
  if (known?.edges === edges) return known;
  const mission = missionWith(session, passes), own = edges.map(it => it - mission.begin),
    early = own[0] > 0 ? 1 : 0, made = problemWith(mission, early ? [0, ...own] : own, unitOf(session));
  const within = lists => new Map([...lists].map(([name, column]) => [name, column.slice(early)]));
  const problem = { edges, columns: within(made.columns), shares: within(made.shares) };
  problems.set(passes, problem);
  return problem;
}

// What a pass with a time gives to each step, in blocks.
function stepsGivenBy(session, pass, count) {
  const edges = edgesOf(session, count);
  if (!edges || pass.from === null) return pass.windows;
  const column = falls(flowAt(pass.from - edges[0], pass.to - edges[0],
    blocksASecond(rateOf(pass.rate, "rate"), session.packet)), edges.map(it => it - edges[0]));
  return column.flatMap(
    (blocks, nth) => (pass.from < edges[nth + 1] && pass.to > edges[nth] ? [[nth + 1, blocks]] : []));
}

function sumsByStep(passes, count) {
  const column = new Array(count).fill(0);
  for (const { windows } of passes) for (const [step, blocks] of windows) column[step - 1] += blocks;
  return column;
}

const isCount = cell => /^\d+$/.test(cell);
const numberAt = (columns, name, step) => (columns.get(name) ?? columns.get("window"))[step] ?? 0;
const isAsBefore = (before, name, cell, step) => (before.has(name)
  ? isCount(cell) && Number(cell) === numberAt(before, name, step) : cell === "0");

// The forecast in other steps, with other numbers in these columns: what was typed more or less stays, in the first of
// the steps that begin in its own. A channel without a limit has the window. A limit that no pass has any more goes,
// unless another one was typed; and one that is new comes after those of lower channels.
function changedBy(forecast, before, after) {
  const { header, records } = forecastOf(forecast), steps = after.edges.slice(0, -1),
    places = steps.map(time => countUntil(before.edges, time) - 1);
  function column(name, at) {
    const isOwn = before.columns.has(name) || after.columns.has(name);
    let more = 0;
    return places.map((place, step) => {
      const cell = records[place][at], isFirst = place !== places[step - 1];
      if (!isOwn) return isFirst || isSize(name) ? cell : "0";
      if (isFirst && !isCount(cell)) return cell;
      if (isFirst) more = Number(cell) - numberAt(before.columns, name, place);
      const whole = numberAt(after.columns, name, step) + more;
      more = Math.min(whole, 0);
      return String(whole - more);
    });
  }
  const isGone = (name, at) => before.columns.has(name) && !after.columns.has(name)
    && records.every((record, step) => isAsBefore(before.columns, name, record[at], step));
  const columns = header.map((name, at) => [name, at]).slice(1).filter(it => !isGone(...it))
    .map(([name, at]) => [name, column(name, at)]);
  for (const name of after.columns.keys()) {
    if (before.columns.has(name) || header.includes(name)) continue;
    const next = columns.findIndex(([other]) => isSize(other) || (other.startsWith("limit:") && other > name));
    columns.splice(next < 0 ? columns.length : next, 0, [name, column(name, 1)]);
  }
  const first = after.edges === before.edges ? records.map(record => record[0]) : steps.map((_, nth) => `${nth + 1}`);
  return forecastText(forecast, { header: [header[0], ...columns.map(it => it[0])],
    records: first.map((cell, step) => [cell, ...columns.map(it => it[1][step])]) });
}

// The session with other passes, in the order in which they are given: their windows follow, and what was typed in
// other steps stays.
/**
 * @param {Session} session
 * @param {Pass[]} passes
 * @returns {Session}
 */
export function withPassesOf(session, passes) {
  const windows = windowsIn(session.forecast), count = windows?.length;
  // A text with other rows than the mission has steps is nothing that follows its passes.
  const isFollowed = session.mission && forecastOf(session.forecast)?.records.length === session.edges.length - 1;
  if (isFollowed) return missionFollowed(session, passes);
  if (!windows || session.mission) return { ...session, passes };
  const made = passes.map(it => (session.passes.includes(it) ? it
    : { ...it, windows: stepsGivenBy(session, it, count) }));
  return { ...session, forecast: changedWindows(session, made, count), passes: made };
}

// The forecast whose windows are those of other passes.
function changedWindows({ forecast, passes }, others, count) {
  const edges = Array.from({ length: count + 1 }, (_, nth) => nth);
  const [before, after] = [passes, others].map(list =>
    ({ edges, columns: new Map([["window", sumsByStep(list, count)]]) }));
  return changedBy(forecast, before, after);
}

// The edges with other passes; those of before where there would be too many.
function edgesOr(session, passes, typed) {
  try {
    return edgesWith(session, passes, typed);
  } catch (fault) {
    if (fault instanceof Faults) return session.edges;
    throw fault;
  }
}

// The steps in which something was typed stay, and all others are those of the passes.
function missionFollowed(session, passes) {
  const { edges } = session, before = problemIn(session, session.passes, edges),
    { header, records } = forecastOf(session.forecast);
  const isTyped = (record, step) => record.some((cell, at) => at > 0
    && !isAsBefore(before.columns, header[at], cell, step));
  const typed = records.flatMap((record, step) => (isTyped(record, step) ? edges.slice(step, step + 2) : []));
  const after = problemIn(session, passes, edgesOr(session, passes, typed)),
    forecast = changedBy(session.forecast, before, after);
  const moved = ({ windows, ...it }) => ({ ...it, windows: windows.map(([step, blocks]) =>
    [after.edges.indexOf(edges[step - 1]) + 1, blocks]).filter(([step]) => step > 0) });
  const made = passes.map(it => (it.from === null ? moved(it) : sharesOf(it, after))), windows = windowsIn(forecast);
  return { ...session, forecast, edges: after.edges, passes: windows ? reconciled(made, windows) : made };
}

const sharesOf = (pass, { shares }) =>
  ({ ...pass, windows: (shares.get(pass.name) ?? []).flatMap((blocks, nth) => (blocks ? [[nth + 1, blocks]] : [])) });

const textsOf = channels => (channels ? Object.fromEntries(
  Object.entries(channels).map(([channel, rate]) => [channel, String(rate)])) : null);

// The passes of a mission as data, with what each of them sends in which step.
export function missionPasses(mission, problem) {
  return mission.passes.map(
    it => sharesOf({ ...NEW_PASS, station: it.station, name: it.name, from: it.begin, to: it.end,
    rate: String(it.given.rate ?? ""), channels: textsOf(it.given.channels) }, problem));
}

// The session after its clock was changed: passes with times stay where they are, and so their windows move to other
// steps.
export function withClock(session, more) {
  const changed = { ...session, ...more }, windows = windowsIn(session.forecast);
  if (!windows || !edgesOf(changed, windows.length) || !session.passes.some(it => it.from !== null)) return changed;
  const passes = session.passes.map(
    it => (it.from === null ? it : { ...it, windows: stepsGivenBy(changed, it, windows.length) }));
  const forecast = changedWindows(session, passes, windows.length);
  return { ...changed, forecast, passes: inOrder(passes) };
}

export const withoutPass = (session, nth) => withPassesOf(session, session.passes.filter((_, at) => at !== nth));

// A name for a pass of a station that no other pass has.
export function nameFor(station, passes) {
  const names = new Set(passes.map(it => it.name));
  return [...Array(passes.length + 1).keys()].map(it => `${station} ${it + 1}`).find(it => !names.has(it));
}

// ---- What is said of a pass

const TIMES = "it is written as 2026-11-27 19:30, in UTC, or as 2026-331T19:30:00Z, with the day of the year.";
const UNITLESS = /^[\d.]+$/;

// What is wrong with a pass that is typed among these, or null.
export function faultOf(session, pass, passes) {
  const { from, to, rate, station } = pass, mission = missionOf(session),
    stations = mission?.stations.map(it => it.name) ?? [];
  if (from === null || to === null)
    return `The time of the ${from === null ? "begin" : "end"} cannot be read: ${TIMES}`;
  if (to <= from) return "The pass ends before it begins.";
  if (stations.length && !stations.includes(station)) return `The mission has the stations ${stations.join(", ")}.`;
  if (!rate && !mission?.stations.some(it => it.name === station && it.rate))
    return "The pass needs a rate: its station has none.";
  try {
    if (rate) rateOf(rate, "rate");
  } catch (fault) {
    return fault instanceof Faults ? `The rate cannot be read: expected ${fault.list[0].meant}.` : String(fault);
  }
  return meetingFault(pass, passes, mission) ?? (mission ? stepsFault(session, [...passes, pass]) : null);
}

// Whether a mission with these passes has more steps than are planned.
function stepsFault(session, passes) {
  try {
    edgesWith(session, passes);
    return null;
  } catch (fault) {
    if (!(fault instanceof Faults)) throw fault;
    return `The mission then has ${fault.list[0].found}: at most ${MOST_STEPS}.`;
  }
}

// One station has one pass at a time, and passes of a mission that says nothing of overlaps have none: the passes with
// times that this one may not meet.
const barredTo = (pass, passes, mission) => passes.filter(it => it !== pass && it.from !== null
  && (it.station === pass.station ? pass.station || mission : mission && mission.overlap === null));
const doMeet = (one, other) => one.from < other.to && one.to > other.from;

function meetingFault(pass, passes, mission) {
  const other = barredTo(pass, passes, mission).find(it => doMeet(it, pass));
  if (!other) return null;
  const when = `from ${textOf(other.from)} to ${textOf(other.to)}`;
  return other.station === pass.station ? `${pass.station} has a pass ${when}: a station has one at a time.`
    : `${other.station} has a pass ${when}, and the mission does not say whether passes may overlap.`;
}

// A pass with what is typed of it, where that can be read.
const asTyped = pass => ({ ...pass, bad: null, ...Object.fromEntries(Object.entries(pass.bad ?? {})
  .map(([key, text]) => [key, key === "from" || key === "to" ? momentOf(text) : text.trim()])) });

// What is wrong with what is typed of a pass among others, or null.
export function faultTyped(session, pass, others) {
  if (UNITLESS.test(pass.bad.rate?.trim() ?? "")) return "Write the rate with its unit, as 900 blocks/h or 64 kbit/s.";
  return pass.from === null ? null : faultOf(session, asTyped(pass), others);
}

// A pass of a session in which something else is typed. What cannot be read stays with it, and all else is as it was.
export function passWith(session, nth, what, text) {
  const { passes } = session, pass = passes[nth], typed = { ...pass, bad: { ...pass.bad, [what]: text } },
    others = passes.filter(it => it !== pass);
  if (faultTyped(session, typed, others)) return typed;
  const made = asTyped(typed), isOf = /^(.*) \d+$/.exec(pass.name)?.[1] === pass.station;
  return isOf && made.station !== pass.station ? { ...made, name: nameFor(made.station, others) } : made;
}

// ---- Passes that are moved

export const clamped = (it, least, most) => Math.max(least, Math.min(most, it));
const edgesOrSteps = (session, count) => edgesOf(session, count) ?? Array.from({ length: count + 1 }, (_, nth) => nth);

// Whether a pass can be moved: all of it can be read, and it has times on a clock, or steps that no mission counts.
export const isMovablePass = (session, pass) => !pass.bad
  && (pass.from === null ? !session.mission && pass.windows.length > 0 : beginOf(session, 1) !== null);

// A pass of which a part is moved by so much: its `begin`, its `end`, or `all` of it. It comes to whole seconds, and
// stays within the steps and beside the passes that it may not meet; one without times goes by whole steps.
/**
 * @param {Session} session
 * @param {number} nth
 * @param {Grasped["part"]} part
 * @param {number} by
 * @returns {Pass}
 */
export function passMoved(session, nth, part, by) {
  const pass = session.passes[nth], places = edgesOrSteps(session, forecastOf(session.forecast).records.length);
  return pass.from === null ? stepsMoved(pass, part, by, places) : timesMoved(session, pass, part, by, places);
}

function timesMoved(session, pass, part, by, places) {
  const { from, to } = pass, barred = barredTo(pass, session.passes, missionOf(session)), whole = time =>
    Math.round(time / SECOND) * SECOND;
  const first = Math.min(from, places[0]), last = Math.max(to, places.at(-1)),
    before = Math.max(first, ...barred.filter(it => it.to <= from).map(it => it.to)),
    after = Math.min(last, ...barred.filter(it => it.from >= to).map(it => it.from));
  if (part === "begin") return { ...pass, from: clamped(whole(from + by), before, Math.max(before, to - SECOND)) };
  if (part === "end") return { ...pass, to: clamped(whole(to + by), Math.min(after, from + SECOND), after) };
  const moved = far => ({ ...pass, from: from + far, to: to + far }),
    far = clamped(whole(from + by) - from, first - from, last - to), there = moved(far);
  return barred.some(it => doMeet(it, there)) ? moved(clamped(far, before - from, after - to)) : there;
}

function stepsMoved(pass, part, by, places) {
  const { windows } = pass, first = windows[0][0], last = windows.at(-1)[0], count = places.length - 1,
    nearest = place => places.reduce((best, it, nth) =>
      (Math.abs(it - place) < Math.abs(places[best] - place) ? nth : best), 0);
  const steps = (from, to, blocks) => Array.from({ length: Math.max(0, to - from + 1) }, (_, nth) =>
    [from + nth, blocks]);
  if (part === "all") {
    const far = clamped(nearest(places[first - 1] + by) - first + 1, 1 - first, count - last);
    return { ...pass, windows: windows.map(([step, blocks]) => [step + far, blocks]) };
  }
  if (part === "begin") {
    const begin = clamped(nearest(places[first - 1] + by) + 1, 1, last);
    return { ...pass, windows: [...steps(begin, first - 1, windows[0][1]), ...windows.filter(it => it[0] >= begin)] };
  }
  const end = clamped(nearest(places[last] + by), first, count);
  return { ...pass, windows: [...windows.filter(it => it[0] <= end), ...steps(last + 1, end, windows.at(-1)[1])] };
}

// The session with a pass that was moved, or, as `fault`, why it cannot be so.
/**
 * @param {Session} session
 * @param {number} nth
 * @param {Pass} made
 * @returns {{ session?: Session, fault?: string }}
 */
export function withMoved(session, nth, made) {
  const others = session.passes.filter((_, at) => at !== nth), fault = made.from === null ? null
    : faultOf(session, made, others);
  return fault ? { fault } : { session: withPassesOf(session, session.passes.with(nth, made)) };
}

// When a pass begins and ends; null where no times are said.
/**
 * @param {Session} session
 * @param {Pass} pass
 * @returns {[Moment, Moment] | null}
 */
export function spanOf(session, pass) {
  if (pass.from !== null) return [pass.from, pass.to];
  const steps = pass.windows.map(([step]) => step);
  const span = steps.length ? [beginOf(session, Math.min(...steps)), beginOf(session, Math.max(...steps) + 1)]
    : [null, null];
  return span.includes(null) ? null : /** @type {[Moment, Moment]} */ (span);
}

// The first and the last step of a pass: of one with times those in which it begins and ends.
/** @returns {[number, number]} */
export function stepSpan(session, { from, to, windows }, count) {
  const edges = from === null ? null : edgesOf(session, count);
  if (!edges) return [windows[0][0], windows.at(-1)[0]];
  return [Math.max(countUntil(edges, from), 1), Math.min(countBefore(edges, to), count)];
}

export function stepsOf({ windows }) {
  const steps = windows.map(([step]) => step);
  return !steps.length ? "none" : steps.length === 1 ? `${steps[0]}` : `${steps[0]} to ${steps.at(-1)}`;
}

export const isSame = (a, b) => a.station === b.station && a.from === b.from && a.to === b.to;

// The passes that each pass of a list meets, by their places in it, in their order: those with a span, walked through
// by their begins.
function meetingsOf(session, passes) {
  const met = passes.map(() => []), spans = passes.map((pass, nth) => ({ nth, span: spanOf(session, pass) }))
    .filter(it => it.span).sort((a, b) => a.span[0] - b.span[0]);
  let open = [];
  for (const it of spans) {
    open = open.filter(other => other.span[1] > it.span[0]);
    for (const other of open) {
      met[other.nth].push(it.nth);
      met[it.nth].push(other.nth);
    }
    open.push(it);
  }
  for (const list of met) list.sort((a, b) => a - b);
  return met;
}

// What a planner must know of each pass: where it is cut, and which others it meets.
/**
 * @param {Session} session
 * @returns {string[][]}
 */
export function remarksOn(session) {
  const { passes } = session, met = meetingsOf(session, passes),
    count = forecastOf(session.forecast)?.records.length ?? 0,
    [first, last] = [beginOf(session, 1), beginOf(session, count + 1)],
    counts = missionOf(session)?.overlap === "better" ? "only the one that sends more counts" : "both windows count";
  return passes.map((pass, nth) => {
    const span = spanOf(session, pass), said = [];
    if (!span) return said;
    const [from, to] = span;
    if (to <= first || from >= last) said.push("outside the steps");
    else {
      if (from < first) said.push("begins before step 1, and is cut there");
      if (to > last) said.push("ends after the last step, and is cut there");
    }
    for (const at of met[nth]) {
      const { station } = passes[at];
      said.push(isSame(passes[at], pass) && pass.from !== null ? `the same as pass ${at + 1}`
        : `overlaps pass ${at + 1}${station ? `, ${station}` : ""}: ${counts}`);
    }
    return said;
  });
}
