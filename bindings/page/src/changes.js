// What a planner does: each is a change of the session, or what is saved of it. What needs an answer waits for the one
// to this session.
import { LINK, amountsOf, blocksTyped, isLimitRate } from "./amounts.js";
import { hasClock } from "./clock.js";
import { at, find, make } from "./dom.js";
import { dropped, ofFolder, openedFrom, readFiles } from "./files.js";
import { desk, examples, history, keepSoon, keeper, layNow, note, pageWith, resume, showAgain } from "./main.js";
import { momentOf, shown } from "./moments.js";
import { MOST_WINDOW, NEW_PASS, faultOf, inOrder, isMovablePass, isSame, nameFor, passMoved, passWith,
  remarksOn, sumOf, withClock, withMoved, withPassesOf, withWindowsOf, withoutPass } from "./passes.js";
import { layPassLanes } from "./passlanes.js";
import { question } from "./question.js";
import { restOf } from "./rest.js";
import { EMPTY, MOST_VARIANTS, hasBoth, isPacket, toJson } from "./session.js";
import { setupOf, withNumber, withOrder } from "./setup.js";
import { exampleSession, showKept } from "./start.js";
import { goTo, pastedFrom } from "./steps.js";
import { NOTHING, digits, encode, forecastOf, isSize, storeOfSize, withCells } from "./texts.js";
import { variantOf } from "./variants.js";
import { followStore } from "./view.js";
import { askWorths, dateWorths, shadeChart, shadedChart } from "./worth.js";

const SAVED = {
  plan: ["plan.txt", "text/plain"], chart: ["chart.svg", "image/svg+xml"], table: ["table.csv", "text/csv"],
  setup: ["setup.toml", "text/plain"], forecast: ["forecast.csv", "text/csv"],
  session: ["rudlayog.json", "application/json"], page: ["rudlayog.html", "text/html"],
};
const LEFT = "What was changed here is in no file yet.";

// ---- Cells

export function changeCell(it) {
  const kind = it.dataset.cell, [first, second, third] = kind.split(" ");
  if (first === "pass") changePass(it, kind);
  else if (first === "variant") nameVariant(Number(second), it.value, kind);
  else if (third) changeSetup(it, kind, first, Number(second), third);
  else changeForecast([{ step: Number(first), column: Number(second), text: it.value }], kind);
}

function changeSetup(it, kind, array, nth, key) {
  const { now } = history, { id } = setupOf(now.setup)[array][nth].keys;
  const isPlain = array === "limit" && !isLimitRate(now), typed = isPlain ? it.value
    : blocksTyped(now, it.value, array === "limit" ? { id: LINK, key: array, step: 1 } : { id, key });
  history.change({ setup: withNumber(now.setup, array, nth, key, typed) }, kind);
}

// The forecast with other cells. Whoever named a pass keeps it while its windows are typed.
function changeForecast(cells, kind) {
  const { now } = history, { header } = forecastOf(now.forecast);
  const of = new Map(cells.map(it => [`${it.step} ${it.column}`, it.text]));
  // A size is a volume, and all else flows in its step.
  const measured = (name, column, step) => (isSize(name) ? { id: storeOfSize(name), key: "size" }
    : { id: name, key: column === 1 ? "window" : name.startsWith("limit:") ? "limit" : "arrives", step });
  const forecast = withCells(now.forecast, (record, step) => record.map((cell, column) => {
    const typed = of.get(`${step} ${column}`);
    return typed === undefined ? cell : blocksTyped(now, typed, measured(header[column], column, step));
  }));
  history.change(withWindowsOf({ ...now, forecast }, history.before(kind).passes), kind);
}

export function paste(it, text) {
  const pasted = pastedFrom(it, text);
  if (pasted?.cells.length) changeForecast(pasted.cells, null);
  else if (pasted) note(pasted.fits ? "Nothing is pasted: these cells have the same numbers."
    : "Nothing is pasted: the range is larger than what is edited from this cell on.");
  return pasted !== null;
}

function changePass(it, kind) {
  const base = history.before(kind), [, nth, what] = kind.split(" "),
    made = passWith(base, Number(nth), what, it.value);
  const passes = base.passes.with(nth, made), isName = what === "station" && (!base.mission || made.from === null);
  history.change(made.bad || isName ? { ...base, passes } : withPassesOf(base, passes), kind);
}

export function changeText(which, text) {
  const octets = encode(text), { now } = history, changed = { ...now, [which]: octets };
  history.change(which === "forecast" ? withWindowsOf(changed, history.before(which).passes) : changed, which);
}

export const changeClock = (which, value) => history.change(
  withClock(history.before(which), { [which]: value }), which);

export function changePacket(text) {
  const base = history.before("packet"), octets = Number(text);
  history.change(isPacket(octets) ? withClock(base, { packet: octets, badPacket: null })
    : { ...base, badPacket: text }, "packet");
}

// The focus goes with the store, so that the next press moves the same one.
export function moveStore(nth, way) {
  const { now } = history, to = way === "up" ? nth - 1 : nth + 1, { store } = setupOf(now.setup);
  history.change(withOrder(now, Math.min(nth, to)));
  followStore(to, way);
  note(`${store[nth].keys.id} is store ${to + 1} of ${store.length} now.`);
}

// ---- Passes

export async function cancelPass(nth) {
  const pass = history.now.passes[nth];
  if (history.now.reference === null) await keepVariant();
  const found = history.now.passes.indexOf(pass);
  if (found >= 0) history.change(withoutPass(history.now, found));
  else note("The passes were changed meanwhile: press again.");
}

// The pass that is typed in a form. One of a mission has a name of its own.
function passIn(form, { passes, mission }) {
  const typed = Object.fromEntries([...new FormData(form)].map(([name, text]) => [name, String(text).trim()]));
  const { station, rate, unit } = typed, [from, to] = [typed.from, typed.to].map(momentOf);
  return { ...NEW_PASS, station, name: mission ? nameFor(station, passes) : "", from, to,
    rate: rate && `${rate} ${unit}` };
}

// The first window that is larger than the library plans; undefined where none is.
const firstLarge = ({ forecast }) => forecastOf(forecast).records
  .map((record, nth) => ({ step: nth + 1, blocks: Number(record[1]) })).find(it => it.blocks > MOST_WINDOW);

export function addPass(form) {
  const { now } = history, pass = passIn(form, now);
  const say = words => { at("pass-fault").textContent = words; };
  if (!hasClock(now)) return say("Say first, above the steps, when step 1 begins.");
  if (!forecastOf(now.forecast)) return say("This forecast is edited as a text.");
  if (now.passes.some(it => isSame(it, pass))) return say("This pass is there already.");
  const fault = faultOf(now, pass, now.passes);
  if (fault) return say(fault);
  const followed = withPassesOf(now, [...now.passes, pass]), session = { ...followed,
    passes: inOrder(followed.passes) }, made = session.passes.find(it => isSame(it, pass));
  const steps = made.windows.length;
  if (!steps) return say("The pass lies outside the steps.");
  const large = firstLarge(session);
  if (large) return say(`Step ${large.step} would have a window of ${digits(large.blocks)} blocks: 1,000,000 at most.`);
  history.change(session);
  say("");
  const remarks = remarksOn(session)[session.passes.indexOf(made)].map(it => ` It ${it}.`).join("");
  const { unit, volume } = amountsOf(session);
  const all = `${volume(LINK, sumOf(made))} ${unit}`;
  return note(`The pass has ${all} in ${steps} ${steps === 1 ? "step" : "steps"}.${remarks}`);
}

// Moves a pass, or its begin or its end, by so much: from where it is now, or from where it was before it was moved.
// Answers why it does not go there, or nothing.
export function movePass({ nth, part, kind }, by, isFromNow) {
  const { now } = history, base = history.before(kind), pass = now.passes[nth];
  if (pass.bad) return "A cell of it cannot be read, so it is not moved.";
  if (!isMovablePass(now, pass)) return "It stands in windows that were typed, and is moved there.";
  const { session, fault } = withMoved(base, nth, passMoved(isFromNow ? now : base, nth, part, by));
  if (fault) return fault;
  history.change(session, kind);
  layPassLanes(history.now);
  return "";
}

// Undoes what was done since a session, which is one change or two.
export function takesBack(base) {
  for (let turn = 0; turn < 2 && history.now !== base; turn++) history.undo();
}

export async function planRest(step) {
  let session, answer;
  // What is typed meanwhile counts.
  do {
    session = history.now;
    answer = await desk.answers.of(session);
  } while (session !== history.now);
  const isRead = setupOf(session.setup) && forecastOf(session.forecast), count = answer.records?.steps.length ?? 0;
  if (!isRead || !count) return note("These texts are edited as texts.");
  if (!(Number.isInteger(step) && step > 1 && step <= count))
    return note(`Choose a step after the first: a whole number from 2 to ${count}.`);
  history.change({ ...restOf(session, answer.records, step), reference: null });
  return note(`This is the rest of the plan, from step ${step} on, which is step 1 now. Undo goes back.`);
}

export function goToStep(step) {
  const count = forecastOf(history.now.forecast)?.records.length;
  if (count && !goTo(step)) note(`There is no step ${step}: the steps are the whole numbers from 1 to ${count}.`);
}

// ---- Variants

function nameVariant(nth, name, kind) {
  history.change({ variants: history.now.variants.map((it, at) => (at === nth ? { ...it, name } : it)) }, kind);
}

export async function keepVariant() {
  const session = history.now, answer = await desk.answers.of(session), { variants } = history.now;
  if (answer.refused || answer.loss === null || !answer.records) return;
  if (variants.length >= MOST_VARIANTS) note(`${MOST_VARIANTS} variants are kept: drop one first.`);
  else {
    const made = variantOf(session, answer, `variant ${variants.length + 1}`);
    history.change({ variants: [...variants, made], reference: variants.length });
  }
}

export function openVariant(nth) {
  const { variants, reference } = history.now;
  if (variants[nth]) history.change({ ...variants[nth].session, variants, reference });
}

export const compareWith = nth => history.now.variants[nth] && history.change({ reference: nth });

export function dropVariant(nth) {
  const { variants, reference } = history.now, kept = variants[reference];
  const left = variants.filter((_, at) => at !== nth);
  history.change({ variants: left, reference: left.includes(kept) ? left.indexOf(kept) : null });
}

// ---- Worth

// What each number is worth, and the shaded chart where that is wanted.
export async function ask() {
  const now = () => history.now, isKnown = await askWorths(desk.side, now(), now);
  if (!isKnown) return;
  await showAgain(false);
  if (at("shade").checked) await shade();
}

async function shade() {
  const session = history.now, { plan, refused } = await desk.answers.of(session);
  if (!refused && (await shadeChart(desk.side, session, plan, () => history.now))) await showAgain(true);
}

export async function toggleShade() {
  dateWorths(history.now);
  if (at("shade").checked && !shadedChart(history.now)) await ask();
  else await showAgain(true);
}

// ---- Files

// Whether what is there may be left: it is asked for where it is in no file.
async function mayLeave() {
  if (history.isSaved) return true;
  const answers = [["Save all in one file, and go on", "save"], ["Go on without a file", "go"], ["Stay here", "stay"]];
  const where = keeper.now() ? "It stays in the list of the start screen, in this browser alone."
    : "This browser has no room to keep it.";
  const answer = await question(`${LEFT} ${where}`, answers);
  if (answer === "save") await save("session");
  return answer !== "stay";
}

async function open(session, words) {
  if (!(await mayLeave())) return note("Nothing was opened.");
  keeper.part();
  history.open(session, true);
  const wants = session.forecast.length ? "" : " The setup is here; a forecast is wanted too.";
  return note(`${words}${session.setup.length ? wants : " A setup is wanted too."}`.trim());
}

export async function take(files, isFolder = false) {
  const read = await readFiles(files), { session, texts, words } = openedFrom(isFolder ? ofFolder(read) : read),
    { now } = history;
  if (session) return open(session, words);
  if (!texts) return note(words || "There is nothing in the folder that this page opens.");
  // A plan alone is judged for the texts that are there.
  if (!texts.setup && !texts.forecast) {
    history.change(texts);
    return note(words);
  }
  // Another forecast has passes of its own, and another problem nothing to be compared with.
  const ofForecast = texts.forecast ? { passes: [], edges: null, mission: null } : {};
  const ofBoth = texts.setup && texts.forecast ? { variants: [], reference: null, name: "" } : {};
  return open(withWindowsOf({ ...now, ...texts, ...ofForecast, ...ofBoth }), words);
}

export async function takeDropped(transfer) {
  const { files, isFolder } = await dropped(transfer);
  if (files.length || isFolder) await take(files, isFolder);
}

export const openExample = name => (examples[name] ? open(exampleSession(examples, name), "") : undefined);
export const closeSession = () => open(EMPTY, "").then(() => { if (!hasBoth(history.now)) note(""); });

export async function openKept(name) {
  if (!(await mayLeave())) return;
  keeper.part();
  if (!resume(name, "")) note("It is no longer there.");
}

export async function forgetKept(name) {
  const it = keeper.list().find(each => each.name === name), answers = [["Forget it", true], ["Keep it", false]];
  const where = it?.isChanged ? "It is in no file, and cannot be had again." : "";
  if (!it || !(await question(`Forget ${it.title}? ${where}`.trim(), answers, true))) return;
  keeper.forget(name);
  showKept(keeper.list());
}

// Asks which session is forgotten, so that there is room for that which is worked on.
export async function makeRoom() {
  const answers = keeper.others().map(({ name, title, time, isChanged }) =>
    [`Forget ${title}, of ${shown(time * 1000)}${isChanged ? ", which is in no file" : ""}`, name]);
  const name = await question("A session that is forgotten makes room for this one, and cannot be had again.",
    [...answers, ["Forget none", null]], true);
  if (name) keeper.forget(name);
}

function download(name, type, octets) {
  const link = make("a"), url = URL.createObjectURL(new Blob([octets], { type }));
  link.href = url;
  link.download = name;
  link.click();
  setTimeout(() => URL.revokeObjectURL(url), 1000);
}

const WHOLE = { session: toJson, page: pageWith };

// What is saved of a session. Of its answer it waits for what is saved.
async function octetsOfPart(session, which) {
  if (which in WHOLE) return encode(WHOLE[which](session));
  if (!["plan", "chart", "table"].includes(which)) return session[which];
  const answer = await desk.answers.of(session);
  return (which === "chart" && shadedChart(session)) || answer[which];
}

export async function save(which) {
  const session = history.now, octets = await octetsOfPart(session, which);
  if (!octets) return note("There is no plan to save: the texts cannot be read.");
  download(...SAVED[which], octets);
  // The texts one by one have neither clock nor passes.
  if (!(which in WHOLE)) return undefined;
  history.save(session);
  return keepSoon();
}

// Prints the plan of what is shown, which has nothing that cannot be read.
export async function print() {
  const bad = find("#all [aria-invalid=true]"), isLaid = !bad && (await layNow());
  bad?.focus();
  if (isLaid) window.print();
  else note(`Nothing is printed: ${bad ? `${bad.getAttribute("aria-label") ?? "what is marked"} cannot be read.`
    : "there is no plan of these texts."}`);
}

export const planAnew = () => history.change({ given: NOTHING });
