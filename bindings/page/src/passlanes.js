// The lanes of the stations in the chart: each pass with what it sends of each store. A pass is dragged, and stretched
// at its two handles, by the pointer and by keys.
import { LINK } from "./amounts.js";
import { at, make, mark } from "./dom.js";
import { HOUR, MINUTE, SECOND, shownSpan } from "./moments.js";
import { isMovablePass, missionOf, spanOf, sumOf } from "./passes.js";
import { laneOf, drawingOf, scaleOf } from "./shapes.js";

// Of more passes than these only the times are drawn: they are moved where the chart is zoomed.
const MOST_HANDLED = 300, LEAST_MOVE = 3, EDGE = 6, ENOUGH = 24; // pixels
const HANDLED = { begin: "Begin", end: "End" };

// What is laid: the chart that is drawn with what its passes send; the lanes by station; and the passes that stand in
// them, by their numbers, with the passes as they were laid. `heldPass` is the one that has the handles.
/** @type {Drawn | null} */
let chart = null;
/** @type {Scale | null} */
let scale = null;
/** @type {Pass[]} */
let laidOf = [];
/** @type {Map<string, { lane: HTMLElement, box: HTMLElement }>} */
const lanes = new Map();
/** @type {Map<number, HTMLElement>} */
const bodies = new Map();
/** @type {Map<string, HTMLElement>} */
const handles = new Map();
let heldPass = 0;

// Where a pass lies, on the axis of the chart; null where it has no steps.
/**
 * @param {Session} session
 * @param {Drawn} drawn
 * @param {Pass} pass
 * @returns {[number, number] | null}
 */
function placeInChart(session, { edges, isTimed }, pass) {
  if (isTimed && pass.from !== null) return [pass.from, pass.to];
  const steps = pass.windows.map(it => it[0]);
  return steps.length ? [edges[steps[0] - 1], edges[steps.at(-1)] ?? edges.at(-1)] : null;
}

const nameOfPass = ({ station }) => station || "passes";

// ---- Words

// A pass in words: when it is, how much it can send, and what it sends.
/**
 * @param {Session} session
 * @param {number} nth
 */
function passWords(session, nth) {
  const pass = session.passes[nth], { amounts, sent } = chart, { unit, volume, total } = amounts,
    span = spanOf(session, pass), all = sumOf(pass), is = sent[nth];
  const when = span ? `${shownSpan(...span)} UTC` : `steps ${pass.windows[0]?.[0]} to ${pass.windows.at(-1)?.[0]}`;
  const pace = span ? `, ${amounts.pace(all, (span[1] - span[0]) / MINUTE)}` : "";
  const stores = is ? [...is.of].filter(it => it[1]).map(([id, blocks]) => `${id} ${volume(id, blocks)}`) : [];
  const name = ["Pass", nth + 1, pass.station && `, ${pass.station}`].join(" ").replace(" ,", ",").trim();
  return `${name}, ${when}: ${volume(LINK, all)} ${unit} at most${pace}; ${
    is?.sent ? `${total([...is.of])} sent: ${stores.join(", ")}` : "nothing sent"}.`;
}

// ---- What is laid

// What leaves in a pass, store above store, as parts of its greatest rate.
/**
 * @param {Drawn} drawn
 * @param {Pass} pass
 * @param {number} nth
 * @param {number[]} place
 */
function dumpsIn({ edges, sent, ids }, pass, nth, [from, to]) {
  const own = scaleOf({ from, to }, edges), { dumps } = sent[nth];
  /** @type {(step: number) => [number, number]} */
  const timeOf = step => [Math.max(from, edges[step - 1]), Math.min(to, edges[step])];
  const rateOf = (step, blocks) => { const [a, b] = timeOf(step); return b > a ? blocks / (b - a) : 0; };
  const most = Math.max(Number.MIN_VALUE, ...pass.windows.map(([step, blocks]) => rateOf(step, blocks)));
  const tops = new Map(), shapes = new Map();
  for (const { step, id, blocks } of dumps) {
    const low = tops.get(step) ?? 0, high = low + rateOf(step, blocks) / most;
    tops.set(step, high);
    shapes.set(id, (shapes.get(id) ?? "") + own.box(...timeOf(step), low, high));
  }
  return drawingOf([...shapes].map(([id, d]) => [`own s${ids.indexOf(id) % 16}`, d]));
}

function bodyOf(nth) {
  const made = bodies.get(nth) ?? make("span", "", { className: "pass-bar", role: "slider" });
  made.dataset.cell = `pass ${nth} all`;
  bodies.set(nth, made);
  return made;
}

function setPlace(element, [from, to], { fractionAt } = scale) {
  const [left, right] = [from, to].map(fractionAt);
  element.style.left = `${(100 * left).toFixed(4)}%`;
  element.style.width = `${(100 * (right - left)).toFixed(4)}%`;
}

// What a reader of the screen is told of a pass, or of its begin or end: where it is on the axis.
function tell(element, session, nth, what, value) {
  const { edges, isTimed } = chart, unit = isTimed ? SECOND : 1, pass = session.passes[nth],
    name = `pass ${nth + 1}${pass.station ? `, ${pass.station}` : ""}`;
  const words = { "aria-label": what ? `${what} of ${name}` : name, "aria-valuemin": "0",
    "aria-valuemax": String(Math.round((edges.at(-1) - edges[0]) / unit)),
    "aria-valuenow": String(Math.round((value - edges[0]) / unit)), "aria-valuetext": passWords(session, nth),
    "aria-disabled": String(!isMovablePass(session, pass)) };
  for (const [key, text] of Object.entries(words)) element.setAttribute(key, text);
}

// The handles stand at the pass that is heldPass.
function layHandles(session) {
  const pass = session.passes[heldPass], isLaid = pass && bodies.get(heldPass)?.isConnected,
    place = isLaid ? placeInChart(session, chart, pass) : null;
  for (const [part, word] of Object.entries(HANDLED)) {
    const made = handles.get(part) ?? make("span", "", { className: `edge ${part}`, role: "slider", tabIndex: 0 });
    handles.set(part, made);
    made.hidden = !place || !isMovablePass(session, pass);
    if (!place) continue;
    made.dataset.cell = `pass ${heldPass} ${part}`;
    const value = place[part === "begin" ? 0 : 1], box = bodies.get(heldPass).parentElement;
    made.style.left = `${(100 * scale.fractionAt(value)).toFixed(4)}%`;
    tell(made, session, heldPass, word, value);
    if (made.parentElement !== box) box.append(made);
  }
}

/**
 * @param {Session} session
 * @param {number} nth
 */
export function holdPass(session, nth) {
  heldPass = nth;
  for (const [at, body] of bodies) body.tabIndex = at === heldPass ? 0 : -1;
  layHandles(session);
}

// The lanes that stations have: those of the mission first, and others as they come.
function namesIn(session) {
  const there = new Set(session.passes.map(nameOfPass)), known = [...missionOf(session)?.stations ?? []]
    .map(it => it.name);
  return [...new Set([...known, ...lanes.keys(), ...there])].filter(it => there.has(it));
}

function layLaneOf(name) {
  if (!lanes.has(name)) {
    const [lane, box] = laneOf(name, "");
    lane.classList.add("station");
    lanes.set(name, { lane, box });
  }
  return lanes.get(name);
}

// Lays the passes of a session, over the chart that is drawn: what they send only where it is of this session.
/** @param {Session} session */
export function layPassLanes(session) {
  if (!chart) return;
  laidOf = session.passes;
  const names = namesIn(session), parent = at("lanes-stations"), wanted = names.map(it => layLaneOf(it).lane);
  // What stays where it is keeps the focus.
  if (wanted.length !== parent.children.length || wanted.some((it, nth) => it !== parent.children[nth]))
    parent.replaceChildren(...wanted);
  for (const name of lanes.keys()) if (!names.includes(name)) lanes.delete(name);
  const shown = session.passes.map((pass, nth) => ({ pass, nth, place: placeInChart(session, chart, pass) }))
    .filter(it => it.place && scale.isShown(...it.place)), isHandled = shown.length <= MOST_HANDLED;
  for (const { box } of lanes.values()) box.querySelector("svg.spans")?.remove();
  const left = new Set(bodies.keys());
  if (isHandled) for (const it of shown) {
    layBody(session, it);
    left.delete(it.nth);
  }
  else for (const name of names) {
    const picture = drawingOf([["p-pass", scale.spans(shown.filter(it => nameOfPass(it.pass) === name)
      .map(it => it.place))]]);
    picture.setAttribute("class", "spans");
    lanes.get(name).box.append(picture);
  }
  for (const nth of left) {
    bodies.get(nth).remove();
    bodies.delete(nth);
  }
  if (!bodies.has(heldPass)) heldPass = bodies.keys().next().value ?? 0;
  holdPass(session, heldPass);
}

function layBody(session, { pass, nth, place }) {
  const body = bodyOf(nth), { box } = lanes.get(nameOfPass(pass));
  setPlace(body, place);
  body.classList.toggle("still", !isMovablePass(session, pass));
  tell(body, session, nth, "", place[0]);
  mark(body, !!pass.bad, "passes-fault");
  if (chart.session === session) body.replaceChildren(dumpsIn(chart, pass, nth, place));
  if (body.parentElement !== box) box.append(body);
}

// Lays the passes of a session over a chart that is drawn, of which this part is shown.
/**
 * @param {Drawn} drawn
 * @param {{ from: number, to: number }} view
 * @param {Session} session
 */
export function showPassLanes(drawn, view, session) {
  chart = drawn;
  scale = scaleOf(view, drawn.edges);
  layPassLanes(session);
}

// The lanes of the stations of a chart that is printed, with all of its time.
/**
 * @param {Session} session
 * @param {Drawn} drawn
 * @param {{ from: number, to: number }} whole
 */
export function printedStations(session, drawn, whole) {
  const own = scaleOf(whole, drawn.edges), all = session.passes.map((pass, nth) =>
    ({ pass, nth, place: placeInChart(session, drawn, pass) })).filter(it => it.place && own.isShown(...it.place));
  return namesIn(session).map(name => {
    const [lane, box] = laneOf(name, "");
    lane.classList.add("station");
    for (const { pass, nth, place } of all) {
      if (nameOfPass(pass) !== name) continue;
      const body = make("span", "", { className: "pass-bar" });
      setPlace(body, place, own);
      body.append(dumpsIn(drawn, pass, nth, place));
      box.append(body);
    }
    return lane;
  });
}

// ---- Moving

/** @type {(element: any) => HTMLElement | null} */
const passPart = element => element?.closest?.(".pass-bar, .edge");

// Which pass of a session and which part of it an element is; null where it is none, or of another session, whose
// passes are still shown.
/**
 * @param {EventTarget} element
 * @param {Session} session
 * @returns {Grasped | null}
 */
function graspedIn(element, { passes }) {
  const found = /^pass (\d+) (all|begin|end)$/.exec(passPart(element)?.dataset.cell ?? ""),
    nth = Number(found?.[1]);
  return found && passes[nth] && passes[nth] === laidOf[nth]
    ? { nth, part: /** @type {Grasped["part"]} */ (found[2]), kind: found[0] } : null;
}

// Near the ends of a pass that is wide enough it is stretched.
/**
 * @param {PointerEvent} event
 * @param {Grasped} grasped
 * @returns {Grasped}
 */
function partAt(event, grasped) {
  if (grasped.part !== "all") return grasped;
  const box = bodies.get(grasped.nth).getBoundingClientRect();
  const part = box.width < ENOUGH ? "all" : event.clientX < box.left + EDGE ? "begin"
    : event.clientX > box.right - EDGE ? "end" : "all";
  return { ...grasped, part, kind: `pass ${grasped.nth} ${part}` };
}

const STEPS = { ArrowLeft: -MINUTE, ArrowRight: MINUTE, PageDown: -HOUR, PageUp: HOUR };

// Takes a key that is pressed on a pass or at one of its handles; answers whether it did.
/**
 * @param {KeyboardEvent} event
 * @param {Grasped} grasped
 * @param {Session} session
 * @param {(grasped: Grasped, by: number, isFromNow: boolean) => void} moves
 */
function pressPass(event, grasped, session, moves) {
  const { edges } = chart, pass = session.passes[grasped.nth], way = Math.sign(STEPS[event.key] ?? 0);
  if (event.key === "ArrowUp" || event.key === "ArrowDown") {
    const all = [...bodies.keys()].sort((a, b) => a - b),
      next = all[all.indexOf(grasped.nth) + (event.key === "ArrowUp" ? -1 : 1)];
    bodies.get(next)?.focus();
    return true;
  }
  if (!way || !pass) return false;
  // A pass without times goes by steps.
  const step = pass.from !== null ? (event.shiftKey ? way * SECOND : STEPS[event.key])
    : way * (edges[1] - edges[0]);
  moves(grasped, step, true);
  return true;
}

// Listens to the passes in the chart. `moves` is called with what is moved, by how much, and whether that is counted
// from where it is now, or from where it was at first, and answers why it goes no further; `ends` is called before a
// drag and after it, `takesBack` with the session before it where it is taken back, and `tells` with words of a pass.
/**
 * @param {HTMLElement} box
 * @param {() => Session} now
 * @param {Drags & { tells: (words: string) => void }} does
 */
export function listenToPasses(box, now, { moves, ends, takesBack, tells }) {
  let drag = null, frame = 0, wasDragged = false, fault = "";
  /** @type {(grasped: Grasped, by: number, isFromNow: boolean) => void} */
  const moved = (grasped, by, isFromNow) => {
    fault = moves(grasped, by, isFromNow);
    tells(`${fault && `${fault} `}${passWords(now(), grasped.nth)}`);
  };
  const follow = () => {
    frame = 0;
    if (!drag?.isMoving) return;
    // A drag ends where something else is done meanwhile.
    if (now() !== (drag.last ?? drag.base)) {
      drag = null;
      return;
    }
    moved(drag, ((drag.x - drag.from) / drag.width) * (drag.to - drag.since), false);
    drag.last = now();
  };
  box.addEventListener("pointerdown", event => {
    const grasped = graspedIn(event.target, now());
    wasDragged = false;
    if (!grasped || event.button) return;
    event.preventDefault();
    // What was moved by keys before is undone by itself.
    ends();
    holdPass(now(), grasped.nth);
    const part = partAt(event, grasped), { width } = bodies.get(grasped.nth).parentElement.getBoundingClientRect(),
      { from: since, to } = scale.view;
    (part.part === "all" ? bodies.get(part.nth) : handles.get(part.part)).focus({ preventScroll: true });
    drag = { ...part, from: event.clientX, x: event.clientX, width, since, to, isMoving: false, base: now(),
      last: null };
  });
  // Wherever the focus is, Escape takes a drag back.
  document.addEventListener("keydown", event => {
    if (!drag || event.key !== "Escape") return;
    const { base, last } = drag;
    drag = null;
    event.preventDefault();
    event.stopPropagation();
    if (now() === last) takesBack(base);
  }, true);
  document.addEventListener("pointermove", event => {
    if (!drag) return;
    drag.x = event.clientX;
    drag.isMoving ||= Math.abs(drag.x - drag.from) >= LEAST_MOVE;
    wasDragged ||= drag.isMoving;
    frame ||= requestAnimationFrame(follow);
  });
  const end = () => {
    if (!drag) return;
    cancelAnimationFrame(frame);
    follow();
    drag = null;
    ends();
  };
  document.addEventListener("pointerup", end);
  document.addEventListener("pointercancel", () => {
    drag = null;
    ends();
  });
  const show = ({ target }) => {
    const found = graspedIn(target, now());
    if (!found || drag) return;
    fault = "";
    if (found.part === "all" && found.nth !== heldPass) holdPass(now(), found.nth);
    tells(passWords(now(), found.nth));
  };
  for (const name of ["pointerover", "focusin"]) box.addEventListener(name, show);
  return {
    // Whether a key is taken. What was moved by keys Escape takes back as what was typed.
    press(event) {
      const grasped = graspedIn(event.target, now());
      return !!grasped && event.key !== "Escape" && !event.ctrlKey && !event.metaKey && !event.altKey
        && pressPass(event, grasped, now(), moved);
    },
    isPass: event => wasDragged || graspedIn(event.target, now()) !== null,
    // Tells again of the pass that has the focus, since its answer came; answers whether one has it.
    tellAgain() {
      const grasped = graspedIn(document.activeElement, now());
      if (grasped) tells(`${fault && `${fault} `}${passWords(now(), grasped.nth)}`);
      return grasped !== null;
    },
  };
}
