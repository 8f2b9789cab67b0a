// What the page shows of a session and of the answer to it: verdict, the program's chart, stores and texts.
import { LINK, amountsOf, isLimitRate, octetsIn } from "./amounts.js";
import { at, button, cellWith, fill, find, head, input, keepingFocus, make, mark, number, row,
  write } from "./dom.js";
import { firstsOf, lossSentence } from "./order.js";
import { isMovable, setupOf } from "./setup.js";
import { MOST_READ, decode, digits } from "./texts.js";
import { difference, refusalOf, sentenceOf } from "./words.js";

const SUMS = [["arrived", "arrives"], ["dumped", "sent"], ["lost", "lost"], ["together", "lost down to it"],
  ["held", "at the end"], ["most", "most held"]];
const SUMMED = ["start", "arrived", "dumped", "lost", "held"];
const PLANNED = ["plan", "chart", "table"];
const DIMS_AFTER = 400; // milliseconds

let dims = 0;
// What is shown of another session's plan is dimmed, but not at each key on the way to another number.
export function dim(isOld) {
  clearTimeout(dims);
  if (isOld) dims = setTimeout(() => document.body.classList.add("old"), DIMS_AFTER);
  else document.body.classList.remove("old");
}

// What each store loses, as pairs; none before the table is there.
/** @type {(answer: Answer) => [string, number][]} */
const lossesIn = ({ records }) => [...records?.stores ?? []].map(([id, it]) => [id, it.lost]);

// What is lost, where it is shown in another unit than blocks; null before that is known.
export function lostIn(session, answer) {
  const { unit, total } = amountsOf(session);
  return session.isInBlocks || !answer.records ? null : `${total(lossesIn(answer))} ${unit}`;
}

// Shows the verdict, and answers where a refusal says that the fault is, or null.
export function showVerdict(session, answer) {
  const { refused, verdict, loss, line } = answer, said = refused && refusalOf(refused, session),
    isKnown = !refused && loss !== null;
  at("verdict").className = refused ? "refused" : ["least", "least in order"].includes(verdict.kind) ? "least"
    : "wrong";
  at("said").textContent = refused
    ? `${said.whose ? `The ${said.whose}` : "This"} cannot be read: ${said.advice || said.short}`
    : sentenceOf(verdict, lostIn(session, answer));
  at("line").textContent = refused ? (said.advice ? `refused ${said.short}` : "") : line;
  at("expected").textContent = refused && said.expected
    ? `Expected: ${said.expected}.${said.hint ? ` Found: ${said.hint}.` : ""}` : "";
  const reference = session.variants[session.reference], { isInBlocks } = session, { shownSum } = amountsOf(session);
  const differs = reference && isKnown ? difference(isInBlocks ? loss : octetsIn(session, lossesIn(answer)),
    isInBlocks ? reference.loss : octetsIn(reference.session, reference.stores), shownSum, isInBlocks) : null;
  at("more").textContent = differs?.words ?? "";
  at("more").className = ["better", "", "worse"][(differs?.sign ?? 0) + 1];
  const { before } = session, lost = before && (isInBlocks ? before.lost
    : before.octets || octetsIn(session, [[LINK, before.lost]]));
  const all = before && isKnown
    ? `: ${shownSum(lost + (isInBlocks ? loss : octetsIn(session, lossesIn(answer))))} in all` : "";
  const unit = isInBlocks ? "" : " MB";
  const early = before && `In the ${digits(before.steps)} steps before, ${shownSum(lost)}${unit} were lost${all}.`;
  at("before").textContent = early ?? "";
  at("judging").hidden = !session.given.length;
  at("keep").disabled = !isKnown;
  at("back").disabled = !reference;
  for (const it of at("savers").children) if (PLANNED.includes(it.dataset.saves)) it.disabled = !!refused;
  for (const id of ["rest", "ask", "shade"]) at(id).disabled = !!refused;
  return said?.place ?? null;
}

// The words of a chart, in their order, with their kinds.
function wordsOf(chart, kinds) {
  const plain = text => text.replace(/&#(\d+);/g, (_, code) => String.fromCharCode(code)).replaceAll("&lt;", "<")
    .replaceAll("&amp;", "&");
  return [...chart.matchAll(/<text class='(\w)'[^>]*>([^<]*)<\/text>/g)].filter(it => kinds.includes(it[1]))
    .map(it => [it[1], plain(it[2])]);
}

let drawnChart = null, chartMarks = [];
export function showChart(octets) {
  const image = at("chart"), last = drawnChart, text = decode(octets);
  drawnChart = URL.createObjectURL(new Blob([octets], { type: "image/svg+xml" }));
  image.onload = () => last && URL.revokeObjectURL(last);
  image.src = drawnChart;
  image.alt = wordsOf(text, "hamw").map(it => it[1].trim()).join(". ");
  chartMarks = [...text.matchAll(/<text class='k' x='([\d.]+)' y='96'>(\d+)<\/text>/g)].map(
    it => [Number(it[1]), Number(it[2])]);
  image.dataset.width = /viewBox='0 0 (\d+) /.exec(text)[1];
  showWhy(wordsOf(text, "bw"));
}

// Why no plan loses fewer, in words that can be read however small the chart is.
function showWhy(words) {
  const parts = [];
  for (const [kind, text] of words) {
    const list = parts.at(-1)?.[1];
    if (kind === "b") parts.push([make("h3", text), make("ul")]);
    // What begins with a space goes on with the line before.
    else if (text.startsWith(" ") && list?.lastChild) list.lastChild.textContent += text;
    else list?.append(make("li", text));
  }
  at("why").replaceChildren(...parts.flat());
}

// The step on which the chart is pressed, by the first two marks of its axis.
export function stepOnChart(event, count) {
  if (chartMarks.length < 2) return null;
  const image = at("chart"), box = image.getBoundingClientRect(),
    x = ((event.clientX - box.left) / box.width) * Number(image.dataset.width);
  const [[x0, s0], [x1, s1]] = chartMarks, step = Math.round(s0 + ((x - x0) * (s1 - s0)) / (x1 - x0));
  return step >= 1 && step <= count ? step : null;
}

// ---- Stores

const storeCell = (array, nth, key, label) => input(`${array} ${nth} ${key}`, label);
const orderedName = what => (what === "together" ? "ordered" : "");

function layRow({ keys }, nth) {
  const moves = [["up", "↑"], ["down", "↓"]].map(([way, sign]) =>
    button(sign, `${way} ${nth}`, `Move ${keys.id} ${way}`));
  const size = storeCell("store", nth, "size", `Size of ${keys.id}`);
  const start = storeCell("store", nth, "start", `What is in ${keys.id} at the start`);
  const words = [make("td", keys.type, { className: "text" }), make("td", keys.channel)];
  const sums = SUMS.map(([what]) => make("td", "", { className: orderedName(what) }));
  const edited = [size, start].map(it => cellWith(it));
  return row(make("th", keys.id, { scope: "row" }), cellWith(...moves), ...words, ...edited, ...sums);
}

let storesOf = "";
function layStores(setup) {
  const stores = setup.store.map(({ keys }) => [keys.id, keys.type, keys.channel]);
  const form = JSON.stringify([stores, setup.limit.map(({ keys }) => keys.channel)]);
  if (form === storesOf) return;
  storesOf = form;
  const table = at("stores"), together = "Blocks that this store and those above it lose together";
  const titleOf = what => (what === "together" ? together : "");
  const sums = SUMS.map(([what, name]) => head(name, { className: orderedName(what), title: titleOf(what) }));
  const heads = ["store", "order", "type", "channel", "size", "at the start"].map(it => head(it));
  table.tHead.replaceChildren(row(...heads, ...sums));
  keepingFocus(() => table.tBodies[0].replaceChildren(...setup.store.map(layRow)));
  table.tFoot.replaceChildren(row(make("th", "all", { scope: "row", colSpan: 5 }), make("td"),
    ...SUMS.map(([what]) => make("td", "", { className: orderedName(what) }))));
  at("limits").replaceChildren(...setup.limit.flatMap(({ keys }, nth) => {
    const label = make("label", `channel ${keys.channel}: at most `);
    label.append(storeCell("limit", nth, "blocks", `What channel ${keys.channel} sends at most in a step`), " ",
      make("span", "", { className: "limit-unit" }));
    return [label, " "];
  }));
}

// Lays the rows of the stores, with what is edited in them.
export function showSetup(session, place) {
  const setup = setupOf(session.setup), isStill = !isMovable(session), { size, volume } = amountsOf(session),
    limit = limitShown(session);
  for (const id of ["stores", "limits", "stores-hint"]) at(id).hidden = !setup;
  at("stores-none").hidden = !!setup;
  if (!setup) return;
  layStores(setup);
  [...at("stores").tBodies[0].rows].forEach(({ cells }, nth, { length }) => {
    const [up, down] = /** @type {any} */ (cells[1].children);
    up.disabled = isStill || nth === 0;
    down.disabled = isStill || nth === length - 1;
  });
  for (const it of ["stores", "limits"].flatMap(id => [...at(id).querySelectorAll("input")])) {
    const [array, nth, key] = it.dataset.cell.split(" "), { keys } = setup[array][nth], text = keys[key] ?? "0";
    const isPlain = session.isInBlocks || !/^\d+$/.test(text), amount = key === "size" ? size : volume;
    fill(it, isPlain ? text : array === "limit" ? limit.text(Number(text)) : amount(keys.id, Number(text)));
    mark(it, place?.array === array && place.nth === Number(nth) && place.key === key, "said expected");
  }
  for (const it of at("limits").querySelectorAll(".limit-unit")) write(it, limit.unit, "limit-unit");
}

// How a limit for all steps is shown: as a rate where all steps are of one length.
function limitShown(session) {
  const { rate, flow } = amountsOf(session), isRate = isLimitRate(session);
  return { text: blocks => (isRate ? rate(LINK, blocks, 1) : String(blocks)), unit: isRate ? flow : "blocks a step" };
}

// The focus goes with a store that was moved: to the button that moves it on, or back where it can go no further.
export function followStore(nth, way) {
  const [on, back] = way === "up" ? ["up", "down"] : ["down", "up"];
  const it = find(`[data-act="${on} ${nth}"]`);
  (it.disabled ? find(`[data-act="${back} ${nth}"]`) : it).focus();
}

function showSums(cells, id, sums, size, volume) {
  SUMS.forEach(([what], column) => {
    if (what === "together") return;
    const name = number(sums[what], what === "lost" ? "lost" : "")[1], text = volume(id, sums[what]);
    const part = what === "most" && size ? ` (${Math.round((100 * sums.most) / size)} %)` : "";
    write(cells[6 + column], `${text}${part}`, name);
  });
}

let lossesSaid = "";
// What stores lose together with those above them, and why, where the plan shows it.
function showFirsts(stores, records, firsts, { total, volume, unit }) {
  const inUnit = unit === "blocks" ? "" : ` ${unit}`;
  const column = 6 + SUMS.findIndex(([what]) => what === "together"), sentences = [];
  document.body.classList.toggle("unordered", !firsts);
  for (const [nth, certificate] of firsts?.entries() ?? []) {
    const { id } = stores[nth].keys, lost = records.stores.get(id)?.lost;
    const sum = total(stores.slice(0, nth + 1).map(({ keys }) => [keys.id, records.stores.get(keys.id)?.lost ?? 0]));
    write(at("stores").tBodies[0].rows[nth].cells[column], certificate ? sum : "not shown",
      certificate?.loss ? "ordered is" : "ordered is none");
    if (certificate && lost) sentences.push(lossSentence(id, `${volume(id, lost)}${inUnit}`, nth && `${sum}${inUnit}`,
      certificate));
  }
  const text = sentences.join("\n");
  if (text === lossesSaid) return;
  lossesSaid = text;
  at("losses").replaceChildren(...sentences.map(it => make("li", it)));
  at("losses-hint").hidden = !sentences.length;
}

export function showStores(session, answer, records, place) {
  showSetup(session, place);
  const stores = setupOf(session.setup)?.store, { unit, volume, total } = amountsOf(session);
  at("stores-unit").textContent = unit;
  if (!records || !stores) return;
  const all = Object.fromEntries(SUMMED.map(what => [what, []]));
  const plain = text => (/^\d+$/.test(text) ? Number(text) : 0);
  stores.forEach((store, nth) => {
    const { id, size } = store.keys, sums = records.stores.get(id);
    if (!sums) return;
    showSums(at("stores").tBodies[0].rows[nth].cells, id, sums, Number(size), volume);
    for (const what of SUMMED) all[what].push([id, what === "start" ? plain(store.keys.start ?? "0") : sums[what]]);
  });
  ["start", ...SUMS.map(it => it[0])].forEach((what, column) => {
    if (!(what in all)) return;
    const isSome = all[what].some(it => it[1]), name = number(isSome ? 1 : 0, what === "lost" ? "lost" : "")[1];
    write(at("stores").tFoot.rows[0].cells[1 + column], total(all[what]), name);
  });
  showFirsts(stores, records, firstsOf(answer), amountsOf(session));
}

// ---- Texts

export function showTexts(session, plan) {
  for (const which of ["setup", "forecast", "given"]) {
    const area = at(which), isLong = session[which].length > MOST_READ;
    area.disabled = isLong;
    // A text that nobody sees is not written at each key press.
    if (area.closest("details").open) fill(
      area, isLong ? `This text has ${digits(session[which].length)} bytes, and is not shown.`
      : decode(session[which]));
  }
  if (at("plan-box").open) write(at("plan"), plan ? decode(plan) : "");
}
