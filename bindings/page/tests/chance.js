// Acts at random in the page, as a planner may: of a seed, so that it can be done again. What must hold after each
// action, and once the page has answered, is told where it does not.
let seed = SEED;
const chance = below => {
  seed = (Math.imul(seed, 1664525) + 1013904223) >>> 0;
  return Math.floor((seed / 2 ** 32) * below);
};
const oneOf = list => list[chance(list.length)], found = [], done = [], text = it => new TextDecoder().decode(it);
const tell = words => found.push(`${words}, after ${done.slice(-6).join("; ")}`);
const shown = selector => [...document.querySelectorAll(selector)].filter(it => it.offsetParent && !it.disabled);
window.chanceFaults ??= (() => {
  const list = [];
  for (const name of ["error", "unhandledrejection"]) window.addEventListener(name, event =>
    list.push(String(event.reason ?? event.message)));
  return list;
})();

// ---- Typing

// What the page holds of a cell; undefined where it is held as another number.
function heldOf(name) {
  const { state } = rudlayog, [first, second, third] = name.split(" ");
  if (first === "pass") {
    const pass = state.passes[second];
    return pass?.bad?.[third] ?? (third === "station" || third === "rate" ? pass?.[third] : undefined);
  }
  if (third || first === "variant" || at("in-units").checked) return undefined;
  const row = text(state.forecast).split("\n")[Number(first)];
  return row?.includes('"') ? undefined : row?.split(",")[Number(second)];
}

function typeIn(it, value) {
  const { cell: name } = it.dataset;
  done.push(`${name ?? it.id} = ${value}`);
  it.focus();
  it.value = value;
  it.dispatchEvent(new Event("input", { bubbles: true }));
  if (it.value !== value) tell(`${name} shows ${it.value}`);
  const held = name && heldOf(name);
  if (held !== undefined && held.trim() !== value.trim() && !value.includes(",")) tell(`${name} is held as ${held}`);
}

const NUMBERS = ["0", "1", "7", "50", "300", "12", "1x", "", "1000001", "1,5", "2.5"];
const stamp = () => `${oneOf(["2031-03-0", "2026-11-2"])}${1 + chance(9)} ${oneOf(["00", "06", "09", "18", "23"])}:${
  oneOf(["00", "15", "30", "5", "99"])}`;
const typedFor = it => {
  const [, , what] = it.dataset.cell.split(" ");
  if (["from", "to"].includes(what)) return chance(3) ? stamp() : it.value;
  if (what === "station") return oneOf(["Redu", "New Norcia", "Malargue", "N", "", "Kiruna 2"]);
  if (what === "rate") return oneOf(["900 blocks/h", "64 kbit/s", "900", "x", ""]);
  return it.dataset.cell.startsWith("variant") ? oneOf(["a", "", "wide <b>"]) : oneOf(NUMBERS);
};

// ---- Acting

const key = (name, ctrlKey = false) => document.activeElement.dispatchEvent(
  new KeyboardEvent("keydown", { key: name, ctrlKey, bubbles: true, cancelable: true }));
const click = selector => {
  const it = shown(selector);
  if (it.length) oneOf(it).click();
};
const typeSome = selector => {
  const it = shown(selector);
  if (it.length) {
    const one = oneOf(it);
    typeIn(one, typedFor(one));
  }
};
function addOne(from = stamp(), to = stamp()) {
  const form = at("pass");
  for (const [name, value] of Object.entries({ station: oneOf(["Redu", "Malargue", "New Norcia", ""]), from, to,
    rate: oneOf(["900", "", "64"]), unit: oneOf(["blocks/h", "kbit/s"]) })) form[name].value = value;
  form.requestSubmit();
}
// Opens an example; one that is no mission gets a clock and passes.
async function openOne() {
  const it = at("example");
  it.value = oneOf(["two_passes", "tight", "in_order", "channel_limit", "mars_week", "mars_week", "mars_week"]);
  it.dispatchEvent(new Event("change", { bubbles: true }));
  for (let turn = 0; turn < 20; turn++) {
    await wait(5);
    answer("Go on without a file");
  }
  if (at("begins").disabled) return;
  typeIn(at("begins"), "2026-11-21 06:00");
  for (const hour of ["07", "08", "10"]) addOne(`2026-11-21 ${hour}:00`, `2026-11-21 ${hour}:40`);
}

// Moves the pointer, which holds a pass or one of its ends, by some pixels.
const points = (it, type, clientX) => it.dispatchEvent(new PointerEvent(type, { clientX, button: 0,
  buttons: type === "pointerup" ? 0 : 1, pointerType: "mouse", bubbles: true, cancelable: true }));
// Drags a pass or one of its ends; now and then Escape takes it back.
async function dragOne() {
  const all = shown("#lanes .pass-bar, #lanes .edge"), it = all.length ? oneOf(all) : null;
  if (!it) return;
  const box = it.getBoundingClientRect(), from = box.left + box.width * oneOf([0.05, 0.5, 0.95]);
  done.push(`drag ${it.dataset.cell}`);
  points(it, "pointerdown", from);
  const by = chance(300) - 150, { forecast, passes } = rudlayog.state, isBack = chance(4) === 0;
  for (const part of [0.4, 1]) {
    points(document, "pointermove", from + by * part);
    await wait(30);
  }
  if (isBack) key("Escape");
  points(document, "pointerup", from + by);
  // A pass that is cancelled goes once its variant is kept, which may be during the drag.
  const isOther = text(rudlayog.state.forecast) !== text(forecast);
  if (isBack && isOther && rudlayog.state.passes.length === passes.length) tell("a drag that is taken back is not");
}
function pushOne() {
  const all = shown("#lanes .pass-bar, #lanes .edge");
  if (!all.length) return;
  oneOf(all).focus();
  done.push(`push ${document.activeElement.dataset.cell}`);
  for (let turn = chance(4); turn >= 0; turn--) key(oneOf(["ArrowLeft", "ArrowRight", "PageUp", "PageDown"]));
}
const ZOOMS = ["closer", "wider", "whole"];

const ACTS = {
  cell: () => typeSome("#grid input"), passCell: () => typeSome("#passes input"),
  store: () => typeSome("#stores input"),
  limit: () => typeSome("#limits input"), variantName: () => typeSome("#variants input"),
  clock: () => at("begins").disabled || typeIn(at("begins"), stamp()),
  minutes: () => at("minutes").disabled || typeIn(at("minutes"), oneOf(["60", "30", "x", "0.5"])),
  name: () => typeIn(at("name"), oneOf(["a mission", ""])), focus: () => click("#passes input, #grid input"),
  look: () => { const it = shown("#passes input, #grid input, #stores input"); if (it.length) oneOf(it).focus(); },
  undo: () => press("undo"), redo: () => press("redo"), ctrlZ: () => key("z", true), escape: () => key("Escape"),
  order: () => press("in-order"), units: () => press("in-units"), keep: () => press("keep"),
  back: () => click("[data-act^=open], [data-act^=compare], [data-act^=drop]"), move: () => click("[data-act^=down]"),
  cancel: () => click("[data-act^=cancel]"), add: addOne, drag: dragOne, push: pushOne, zoom: () => press(oneOf(ZOOMS)),
  shows: () => click("[data-shows]"),
  rest: () => { at("step").value = String(2 + chance(12)); press("rest"); }, open: openOne,
};
const OFTEN = ["cell", "cell", "cell", "passCell", "passCell", "passCell", "store", "look", "undo", "undo", "redo",
  "ctrlZ", "escape", "add", "cancel", "limit", "variantName", "clock", "name", "order", "units", "keep", "back", "move",
  "shows", "drag", "drag", "push", "zoom"], SELDOM = ["minutes", "rest", "open", "open"];

// ---- What must hold

async function saved(which, type) {
  const before = rudlayog.saved.length;
  document.querySelector(`[data-saves=${which}]`).click();
  for (let turn = 0; turn < 400; turn++) {
    const it = rudlayog.saved.slice(before).find(each => each.type === type);
    if (it) return new Uint8Array(await it.arrayBuffer());
    await wait(5);
  }
  return null;
}

// What is saved is least for the texts that are saved with it, and the windows are those of the passes.
async function judge() {
  await settle();
  const { state, library } = rudlayog;
  if (!state.refused) {
    const [plan, setup, forecast, session] = [await saved("plan", "text/plain"), await saved("setup", "text/plain"),
      await saved("forecast", "text/csv"), await saved("session", "application/json")];
    if (!plan || !setup || !forecast || !session) return tell("something is not saved");
    const { verdict } = library.check(setup, forecast, plan), whole = JSON.parse(text(session));
    if (!["least", "least in order"].includes(verdict?.kind)) tell(`what is saved is ${verdict?.kind}`);
    if (whole.setup !== text(setup) || whole.forecast !== text(forecast)) tell("the file has other texts");
    if (`least ${verdict.loss}` !== at("line").textContent.replace(" in order", "")) tell(at("line").textContent);
  }
  const rows = text(state.forecast).trim().split("\n").slice(1).map(row => row.split(","));
  if (rows.every(row => /^\d+$/.test(row[1]))) {
    const sums = rows.map(() => 0);
    for (const { windows } of state.passes) for (const [step, blocks] of windows) sums[step - 1] += blocks;
    const at = sums.findIndex((sum, nth) => sum !== Number(rows[nth][1]));
    if (at >= 0) tell(`step ${at + 1} has ${rows[at][1]} and its passes ${sums[at]}`);
  }
  const texts = () => [rudlayog.state.setup, rudlayog.state.forecast].map(text).join("\0"), before = texts();
  let undone = 0;
  for (; undone < 5 && !at("undo").disabled; undone++) press("undo");
  for (; undone > 0; undone--) press("redo");
  if (texts() !== before) tell("undone and done again it is another");
}

await openOne();
for (let nth = 0; nth < COUNT; nth++) {
  const name = chance(12) ? oneOf(OFTEN) : oneOf(SELDOM);
  done.push(name);
  // Between two actions of a person there is a moment.
  await wait(0);
  try {
    await ACTS[name]();
  } catch (fault) {
    tell(`${name}: ${fault}`);
  }
  if (chance(4) === 0) await wait(chance(30));
  if (nth % 40 === 39) await judge();
  for (const fault of window.chanceFaults.splice(0)) tell(fault);
  rudlayog.saved.length = 0;
}
return JSON.stringify(found);
