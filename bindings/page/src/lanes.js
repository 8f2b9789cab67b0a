// The chart of the page: a lane for each station with its passes, for the windows and for each store, over the time, or
// over the steps where they have none. Its words keep their size however narrow it is, it is drawn for a part of the
// time where it is zoomed, and it tells the values of a step.
import { LINK, amountsOf } from "./amounts.js";
import { beginOf, edgesOf, hasClock } from "./clock.js";
import { at, find, make } from "./dom.js";
import { DAY, HOUR, MINUTE, shown, shownSpan } from "./moments.js";
import { listenToPasses, printedStations, showPassLanes } from "./passlanes.js";
import { sentBy } from "./passtable.js";
import { missionOf } from "./passes.js";
import { setupOf } from "./setup.js";
import { laneOf, drawingOf, scaleOf } from "./shapes.js";
import { certificatesOf, forecastOf, sizeName } from "./texts.js";
import { countUntil } from "./timeline.js";

const LEAST_SHOWN = 8, MOST_ZOOM = 512, MARKS = 6;
const MARK_UNITS = [MINUTE, 5 * MINUTE, 15 * MINUTE, 30 * MINUTE, HOUR, 2 * HOUR, 3 * HOUR, 6 * HOUR, 12 * HOUR, DAY,
  2 * DAY, 7 * DAY, 14 * DAY];

// What is drawn, with the edges of its steps: times, or whole numbers where there are none. What is shown of it goes
// `from` a place `to` another one among these.
/** @type {Drawn | null} */
let drawn = null;
/** @type {{ from: number, to: number } | null} */
let view = null;
/** @type {(step: number) => void} */
let goes = () => {};
/** @type {ReturnType<typeof listenToPasses> | null} */
let passes = null;
let held = 1, sessionNow = () => drawn.session;

const fractionAt = place => (place - view.from) / (view.to - view.from);

/**
 * @template A, B
 * @param {A} a
 * @param {B} b
 * @returns {[A, B]}
 */
const pair = (a, b) => [a, b];

// ---- The axis

// The marks of the axis with their places: the time of UTC where the steps have any, and else the number of the step.
/** @returns {[number, string][]} */
function marksOf(session, { from, to }) {
  if (!hasClock(session)) {
    const by = [1, 2, 5, 10, 20, 50, 100].find(it => (to - from) / it <= MARKS) ?? 100;
    return drawn.edges.slice(1).filter(it => it === 1 || it % by === 0).map(it => pair(it - 0.5, `${it}`));
  }
  const by = MARK_UNITS.find(it => (to - from) / it <= MARKS) ?? 28 * DAY, marks = [];
  for (let time = Math.ceil(from / by) * by; time <= to; time += by) marks.push(
    pair(time, by >= DAY ? shown(time).slice(0, 6) : shown(time)));
  return marks;
}

const said = (words, tone = "") => make("span", words, { className: `said ${tone}`.trim() });

function axis(session, { view: { from, to }, fractionAt: partAt }) {
  const [row, box] = laneOf(hasClock(session) ? "UTC" : "step", said(`in ${drawn.amounts.unit}`));
  row.classList.add("axis");
  for (const [place, words] of marksOf(session, { from, to })) {
    if (place < from || place > to) continue;
    const mark = make("span", words);
    mark.style.left = `${(100 * partAt(place)).toFixed(3)}%`;
    box.append(mark);
  }
  return row;
}

// ---- The lanes

// The windows as rates, so that what they send is an area.
/**
 * @param {Records} records
 * @param {Scale} scale
 */
function windowLane({ steps }, { bars }) {
  const { edges, amounts } = drawn, rateOf = (blocks, nth) => blocks / (edges[nth + 1] - edges[nth]),
    rates = steps.map((it, nth) => rateOf(it.window, nth)), most = Math.max(Number.MIN_VALUE, ...rates);
  const sent = steps.flatMap(it => [...it.of].map(([id, each]) => pair(id, each.dumped)));
  const [row, box] = laneOf("windows", said(`${amounts.total(sent)} sent`));
  box.append(drawingOf([["p-window", bars(steps, () => 0, (_, nth) => rates[nth] / most)],
    ["p-used", bars(steps, () => 0, (it, nth) => rateOf(it.dumped, nth) / most)]]));
  return row;
}

// How large each store is in each step: as the forecast says, or else the setup.
/**
 * @param {Session} session
 * @returns {Map<string, (step: number) => number>}
 */
function sizesOf({ setup, forecast }) {
  const { header, records } = forecastOf(forecast) ?? { header: [], records: [] };
  return new Map((setupOf(setup)?.store ?? []).map(({ keys }) => {
    const column = header.indexOf(sizeName(keys.id));
    return [keys.id, step => Number(column < 0 ? keys.size : records[step - 1]?.[column])];
  }));
}

// What arrives in a store, as a rate; and of a mission each observation, as a frame.
/**
 * @param {string} id
 * @param {Records["steps"]} steps
 * @param {Scale} scale
 */
function arrivalsDrawn(id, steps, { bars, spans }) {
  const { edges, session } = drawn, rates = steps.map((it, nth) =>
    it.of.get(id).arrived / (edges[nth + 1] - edges[nth])), most = Math.max(Number.MIN_VALUE, ...rates);
  const picture = drawingOf([["p-arrives", bars(steps, () => 0, (_, nth) => rates[nth] / most)],
    ["p-seen", spans(observationsOf(session, id).map(it => [it.begin, it.end]))]]);
  picture.setAttribute("class", "arrivals");
  return picture;
}

const observationsOf = (session, id) => (missionOf(session)?.observations ?? []).filter(it => it.store === id);

/**
 * @param {[string, OfStore & { most: number }]} store
 * @param {number} nth
 * @param {Scale} scale
 */
function storeLane([id, sums], nth, scale) {
  const { records: { steps }, cuts, most, edges, sizes, amounts } = drawn, sizeAt = sizes.get(id) ?? (() => 0),
    of = row => row.of.get(id), { bars } = scale, all = steps.map((_, step) => sizeAt(step + 1)),
    size = Math.max(1, sums.most, ...all.filter(Number.isFinite));
  const [row, box] = laneOf(id, sums.lost ? said(`${amounts.volume(id, sums.lost)} lost`, "lost") : "",
    `of ${amounts.size(id, size)}`);
  row.dataset.store = id;
  row.querySelector("b").prepend(make("i", "", { className: `dot s${nth % 16}` }));
  const isCut = scale.spans(cuts.filter(it => it.id === id).map(it => [edges[it.steps[0] - 1], edges[it.steps[1]]]));
  box.append(arrivalsDrawn(id, steps, scale), drawingOf([["p-cut", isCut],
    ["p-held", bars(steps, () => 0, it => of(it).held / size)],
    ["p-left", bars(steps, it => of(it).held / size, it => (of(it).held + of(it).dumped) / size)],
    ["p-none", bars(steps, (_, step) => all[step] / size, () => 1)],
    ["p-lost", bars(steps, it => 1 - Math.max(0.12, of(it).lost / most) * (of(it).lost ? 1 : 0), () => 1)]]));
  return row;
}

const lanesBelow = (records, scale) => [windowLane(records, scale),
  ...[...records.stores].map((it, nth) => storeLane(it, nth, scale))];

// The chart of an answer to be printed: all of its time.
/**
 * @param {Session} session
 * @param {Answer} answer
 */
export function printedLanes(session, answer) {
  if (drawn?.session !== session) showLanes(session, answer);
  const { whole, edges, records } = drawn, scale = scaleOf(whole, edges),
    made = make("div", "", { className: "lanes" });
  made.append(axis(session, scale), ...printedStations(session, drawn, whole), ...lanesBelow(records, scale));
  return made;
}

const isNarrow = () => matchMedia("(max-width: 600px)").matches;

// Draws the chart of an answer, of all steps where it is of others than the last one.
/**
 * @param {Session} session
 * @param {Answer} answer
 */
export function showLanes(session, { records, plan }) {
  const count = records.steps.length, times = edgesOf(session, count),
    edges = times ?? Array.from({ length: count + 1 }, (_, nth) => nth), whole = { from: edges[0], to: edges[count] };
  const isSame = drawn && drawn.edges[0] === whole.from && drawn.edges[drawn.count] === whole.to;
  if (!isSame) view = whole;
  const shortest = Math.min(...edges.slice(1).map((it, nth) => it - edges[nth]));
  drawn = { session, records, count, edges, whole, isTimed: times !== null, amounts: amountsOf(session),
    sent: sentBy(session.passes, records), ids: [...records.stores.keys()], sizes: sizesOf(session),
    cuts: certificatesOf(plan)[0]?.stretches ?? [],
    most: Math.max(1, ...records.steps.flatMap(it => [...it.of.values()].map(each => each.lost))),
    least: Math.min(whole.to - whole.from, Math.max(LEAST_SHOWN * shortest, (whole.to - whole.from) / MOST_ZOOM)) };
  held = Math.min(held, count);
  layLanes();
}

function layLanes() {
  const { session, records, count, whole, edges } = drawn, box = at("lanes"), scale = scaleOf(view, edges);
  at("lanes-axis").replaceChildren(axis(session, scale));
  showPassLanes(drawn, view, sessionNow());
  at("lanes-stores").replaceChildren(...lanesBelow(records, scale));
  box.classList.toggle("narrow", isNarrow());
  at("lanes-stores").setAttribute("aria-valuemax", String(count));
  box.dataset.steps = `${stepOf(view.from)} ${stepOf(Math.ceil(view.to) - 1)}`;
  at("wider").disabled = at("whole").disabled = view.from === whole.from && view.to === whole.to;
  at("closer").disabled = view.to - view.from <= drawn.least;
  markStep(held);
  passes?.tellAgain();
}

// ---- A step

// What is so of a store in a step, and of the step, in words.
function storeWords([id, { held: there, dumped, lost }]) {
  const say = (blocks, what) => (blocks ? `, ${drawn.amounts.volume(id, blocks)} ${what}` : "");
  return `${id} holds ${drawn.amounts.volume(id, there)}${say(dumped, "sent")}${say(lost, "lost")}`;
}

// When a step is, in words, with its number and the stations that have a pass in it.
function nameOfStep(step) {
  const { session } = drawn, [begin, end] = [step, step + 1].map(it => beginOf(session, it)), where = session.passes
    .filter(it => it.station && it.windows.some(each => each[0] === step && each[1])).map(it => it.station);
  const when = begin === null || end === null ? "" : `${shownSpan(begin, end)} UTC`;
  return [`Step ${step}`, when, [...new Set(where)].join(" and ")].filter(Boolean).join(", ");
}

function valuesOf(step) {
  const { session, records, amounts: { rate, total, unit, flow } } = drawn, row = records.steps[step - 1],
    stores = [...row.of].filter(([, it]) => it.held || it.dumped || it.lost).map(storeWords);
  const all = what => total([...row.of].map(([id, it]) => [id, it[what]]));
  const lost = row.lost ? `${all("lost")} lost` : "nothing lost", window = rate(LINK, row.window, step);
  const [ofFlow, inUnit] = session.isInBlocks ? ["", ""] : [` ${flow}`, `. Volumes are in ${unit}.`];
  const sum = `window ${window}${ofFlow}, ${all("dumped")} sent, ${lost}`;
  return `${nameOfStep(step)}: ${sum}. ${stores.join("; ")}${inUnit}`;
}

// What is so of one store in a step, in words, with the observations that it has then.
function valuesIn(id, step) {
  const { session, records, edges, sizes, amounts: { rate, volume, size, unit, flow } } = drawn,
    it = records.steps[step - 1].of.get(id), seen = observationsOf(session, id)
      .filter(one => one.name && one.begin < edges[step] && one.end > edges[step - 1]).map(one => one.name);
  const names = seen.length ? ` (${[...new Set(seen)].join(", ")})` : "";
  return `${nameOfStep(step)}: ${id} holds ${volume(id, it.held)} of ${size(id, sizes.get(id)?.(step) ?? 0)} ${unit}; ${
    rate(id, it.arrived, step)} ${flow} arrive${names}, ${rate(id, it.dumped, step)} are sent, ${
    it.lost ? `${volume(id, it.lost)} ${unit} lost` : "nothing lost"}.`;
}

// The step in which a place lies, and the middle of a step.
const stepOf = place => Math.max(1, Math.min(drawn.count, countUntil(drawn.edges, Math.floor(place))));
const middleOf = step => (drawn.edges[step - 1] + drawn.edges[step]) / 2;

// Marks a step, and tells its values, or those of one store in it.
function markStep(step, id = "") {
  held = step;
  const line = at("lanes-line"), words = valuesOf(step), part = fractionAt(middleOf(step)),
    lane = find("#lanes .lane-box");
  line.hidden = part < 0 || part > 1;
  line.style.left = `${lane.offsetLeft + lane.offsetWidth * part}px`;
  at("lanes-stores").setAttribute("aria-valuenow", String(step));
  at("lanes-stores").setAttribute("aria-valuetext", words);
  at("told").textContent = id ? valuesIn(id, step) : words;
}

function stepAt(event) {
  const lane = at("lanes").querySelector(".lane-box")?.getBoundingClientRect();
  if (!lane || event.clientX < lane.left || event.clientX > lane.right) return null;
  return stepOf(view.from + ((event.clientX - lane.left) / lane.width) * (view.to - view.from));
}

// Shows so much of the whole, around the step that is held.
function showAround(span) {
  const { whole } = drawn, from = Math.max(whole.from, Math.min(whole.to - span, middleOf(held) - span / 2));
  view = { from, to: from + span };
  layLanes();
}

const zoom = by => showAround(
  Math.max(drawn.least, Math.min(drawn.whole.to - drawn.whole.from, (view.to - view.from) * by)));

function move(step) {
  const to = Math.max(1, Math.min(drawn.count, step)), part = fractionAt(middleOf(to));
  held = to;
  if (part < 0 || part > 1) showAround(view.to - view.from);
  else markStep(to);
}

function press(event) {
  const steps = { ArrowLeft: -1, ArrowRight: 1, ArrowDown: -1, ArrowUp: 1, PageDown: -12, PageUp: 12, Home: -Infinity,
    End: Infinity };
  if (!drawn) return;
  if (passes.press(event)) event.preventDefault();
  else if (event.ctrlKey || event.metaKey || event.altKey) return;
  else if (event.key === "+" || event.key === "=") zoom(0.5);
  else if (event.key === "-") zoom(2);
  else if (event.target !== at("lanes-stores")) return;
  else if (event.key in steps) move(Number.isFinite(steps[event.key]) ? held + steps[event.key] : steps[event.key] < 0
    ? 1 : drawn.count);
  else if (event.key === "Enter") goes(held);
  else return;
  event.preventDefault();
}

// Listens to the chart: `goesTo` is called with a step that is chosen, and the others where passes are dragged; `now`
// says which session is worked on.
/**
 * @param {() => Session} now
 * @param {Drags & { goesTo: (step: number) => void }} does
 */
export function listenToLanes(now, { goesTo, ...drags }) {
  const box = at("lanes");
  [goes, sessionNow] = [goesTo, now];
  passes = listenToPasses(box, now, { ...drags, tells: words => { at("told").textContent = words; } });
  box.addEventListener("pointermove", event => {
    const step = drawn && !passes.isPass(event) && stepAt(event), target = /** @type {HTMLElement} */ (event.target);
    if (step) markStep(step, /** @type {HTMLElement} */ (target.closest("[data-store]"))?.dataset.store);
  });
  box.addEventListener("click", event => {
    const step = drawn && !passes.isPass(event) && stepAt(event);
    if (step) goes(step);
  });
  box.addEventListener("keydown", press);
  for (const [id, by] of Object.entries({ closer: 0.5, wider: 2, whole: Infinity }))
    at(id).addEventListener("click", () => drawn && zoom(by));
  // What is told may be higher than before, which changes nothing in the chart.
  let width = 0;
  new ResizeObserver(([{ contentRect }]) => {
    if (drawn && contentRect.width !== width) layLanes();
    ({ width } = contentRect);
  }).observe(box.parentElement);
}
