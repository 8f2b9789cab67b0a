// What a planner works on: three texts, whether stores are served in order, the clock, the passes, and the variants
// that were kept. A session is never changed: each change makes another, and the one before it can be had again.
import { momentOf, textOf } from "./moments.js";
import { NEW_PASS, withWindowsOf } from "./passes.js";
import { NOTHING, decode, encode } from "./texts.js";
import { MOST_STEPS } from "./timeline.js";

const MOST_KEPT = 500;
export const MOST_VARIANTS = 12;
export const TEXTS = ["setup", "forecast", "given"];
/** @type {Session} */
export const EMPTY = {
  setup: NOTHING, forecast: NOTHING, given: NOTHING, isInOrder: false, name: "", begins: "", minutes: "60",
    edges: null, passes: [], mission: null, unit: 1,
  packet: 1024, badPacket: null, isInBlocks: true, before: null, variants: [], reference: null,
};

// Whether so many octets are a packet. What is typed and is none stays in `badPacket`.
export const isPacket = octets => Number.isInteger(octets) && octets >= 1 && octets <= 1024;

export const hasBoth = ({ setup, forecast }) => setup.length > 0 && forecast.length > 0;

// ---- As JSON

// Octets as JSON: their text, or numbers where they are none in UTF-8.
function asJsonText(octets) {
  const text = decode(octets), again = encode(text);
  return again.length === octets.length && again.every((it, at) => it === octets[at]) ? text : [...octets];
}

const isByte = it => Number.isInteger(it) && it >= 0 && it < 256;
const readOctets = it => (typeof it === "string" ? encode(it) : Array.isArray(it) && it.every(isByte)
  ? Uint8Array.from(it) : NOTHING);
const readCount = it => (Number.isSafeInteger(it) && it >= 0 ? it : 0);
const isObject = it => typeof it === "object" && it !== null && !Array.isArray(it);
const readTexts = it => (isObject(it) ? Object.fromEntries(
  Object.entries(it).map(([key, value]) => [key, String(value)])) : null);

export function toJson(session) {
  const time = it => (it === null ? null : `${textOf(it, "T")}Z`);
  const plain = ({ variants, reference, edges, mission, ...it }) => ({
    ...it, ...Object.fromEntries(TEXTS.map(which => [which, asJsonText(it[which])])),
    edges, mission: mission && { file: mission.file, files: Object.fromEntries(
      Object.entries(mission.files).map(([name, octets]) => [name, asJsonText(octets)])) },
    passes: it.passes.map(pass => ({ ...pass, from: time(pass.from), to: time(pass.to) })),
  });
  const variants = session.variants.map(it => ({ ...it, session: plain(it.session) }));
  return JSON.stringify({ rudlayog: 1, ...plain(session), variants, reference: session.reference }, null, 1);
}

function readPass(it) {
  const [from, to] = [it.from, it.to].map(time => momentOf(String(time ?? ""))),
    windows = Array.isArray(it.windows) ? it.windows : [];
  const isWindow = each => Array.isArray(each) && each.length === 2 && each.every(Number.isSafeInteger) && each[0] >= 1
    && each[0] <= MOST_STEPS && each[1] >= 0;
  const hasTimes = from !== null && to !== null && from < to;
  return { ...NEW_PASS, station: String(it.station ?? ""), name: String(it.name ?? ""), rate: String(it.rate ?? ""),
    channels: readTexts(it.channels), bad: readTexts(it.bad),
    from: hasTimes ? from : null, to: hasTimes ? to : null, windows: windows.filter(isWindow).map(each => [...each]) };
}

// The passes of a session that names the stations of its steps, as the Python package writes them.
function readStations(stations) {
  const passes = [];
  for (const { step, name } of Object.entries(isObject(stations) ? stations : {})
    .map(([step, name]) => ({ step: Number(step), name: String(name) })).sort((a, b) => a.step - b.step)) {
    const last = passes.at(-1);
    if (!Number.isInteger(step) || step < 1 || step > MOST_STEPS) continue;
    if (last?.station === name && last.windows.at(-1)[0] === step - 1) last.windows.push([step, 1]);
    else passes.push({ ...NEW_PASS, station: name, windows: [[step, 1]] });
  }
  return passes;
}

function readMission(it) {
  if (!isObject(it) || !isObject(it.files) || typeof it.files[it.file] === "undefined") return null;
  return { file: String(it.file), files: Object.fromEntries(
    Object.entries(it.files).map(([name, text]) => [name, readOctets(text)])) };
}

function readSession(it) {
  const edges = Array.isArray(it.edges) && it.edges.length > 1
    && it.edges.every((each, nth, all) => Number.isSafeInteger(each) && (!nth || each > all[nth - 1])) ? it.edges
    : null;
  const { before } = it, named = Array.isArray(it.passes) ? it.passes.filter(isObject).map(readPass)
    : readStations(it.stations);
  return withWindowsOf({
    ...EMPTY,
    ...Object.fromEntries(TEXTS.map(which => [which, readOctets(it[which])])),
    isInOrder: it.isInOrder === true, isInBlocks: it.isInBlocks !== false, name: String(it.name ?? ""),
      begins: String(it.begins ?? ""), minutes: String(it.minutes ?? 60),
    edges, mission: edges && readMission(it.mission), unit: Math.max(readCount(it.unit), 1),
    packet: isPacket(it.packet) ? it.packet : 1024,
    badPacket: typeof it.badPacket === "string" ? it.badPacket : null,
    before: isObject(before) ? { steps: readCount(before.steps), lost: readCount(before.lost),
      sent: readCount(before.sent), octets: readCount(before.octets) } : null,
    passes: named,
  });
}

function readVariant(it) {
  if (!isObject(it) || !isObject(it.session) || !Number.isSafeInteger(it.loss)) return null;
  const counts = list => (Array.isArray(list) ? list.filter(each => Array.isArray(each)
    && Number.isSafeInteger(each[1])).map(each => [String(each[0]), ...each.slice(1).map(readCount)]) : []);
  return { name: String(it.name ?? "reference"), loss: it.loss, session: readSession(it.session),
    stores: counts(it.stores), sent: counts(it.sent) };
}

// The session of a text that toJson wrote, or that somebody wrote like it; null where it is none.
/** @returns {Session | null} */
export function fromJson(text) {
  try {
    const it = JSON.parse(text);
    if (it?.rudlayog !== 1) return null;
    const old = isObject(it.reference) ? [{ ...it.reference, name: "reference" }] : [],
      given = Array.isArray(it.variants) ? it.variants : old;
    const variants = given.map(readVariant).filter(Boolean).slice(0, MOST_VARIANTS),
      wanted = old.length ? 0 : it.reference;
    return { ...readSession(it), variants, reference: Number.isInteger(wanted) && variants[wanted] ? wanted : null };
  } catch {
    return null;
  }
}

// ---- Before and after

// The session that is worked on, with those before and after it. `changed` is called after each change.
export function historyOf(changed) {
  let now = EMPTY, done = [], undone = [], last = null, since = EMPTY, saved = EMPTY, opened = EMPTY;

  function go(from, to) {
    if (!from.length) return;
    to.push(now);
    now = from.pop();
    last = null;
    changed();
  }

  return {
    get now() { return now; },
    get kind() { return last; },
    get canUndo() { return done.length > 0; },
    get canRedo() { return undone.length > 0; },
    get isSaved() { return now === saved || !(now.setup.length || now.forecast.length); },
    // Whether nothing was changed since it was opened.
    get isAsOpened() { return now === opened; },
    // The session before the changes of this kind began, or the one that is there.
    before: kind => (kind !== null && kind === last ? since : now),
    // Changes of one kind after another, such as keys that are pressed in one cell, are undone as one.
    change(more, kind = null) {
      if (kind === null || kind !== last) [done, since] = [[...done, now].slice(-MOST_KEPT), now];
      [now, undone, last] = [{ ...now, ...more }, [], kind];
      changed();
    },
    // What is opened can be undone too. It is saved where it came from a file.
    open(session, isSaved) {
      if (now.setup.length || now.forecast.length) done = [...done, now].slice(-MOST_KEPT);
      [now, undone, last, opened] = [session, [], null, session];
      if (isSaved) saved = session;
      changed();
    },
    // The same in another form, which is no change.
    amend(more) {
      const it = { ...now, ...more };
      if (now === saved) saved = it;
      if (now === opened) opened = it;
      now = it;
      changed();
    },
    leave() { last = null; },
    save(session) { saved = session; },
    undo: () => go(done, undone),
    redo: () => go(undone, done),
  };
}
