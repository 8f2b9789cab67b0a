// The table of the passes: what each sends, of which store, and what is lost without it.
import { LINK, amountsOf } from "./amounts.js";
import { at, button, cellWith, fill, find, focused, giveRoles, head, input, keepingFocus, make, mark, number,
  row, write } from "./dom.js";
import { shown, textOf } from "./moments.js";
import { faultTyped, inOrder, remarksOn, spanOf, stepsOf, sumOf, withoutPass } from "./passes.js";
import { NOTHING } from "./texts.js";

const HEADS = ["nr", "steps", "from (UTC)", "to (UTC)", "station", "rate", "cancel", "window", "sent", "used",
  "lost without it", "remarks"];
const CLASSES = { "from (UTC)": "clock", "to (UTC)": "clock", station: "name", cancel: "act", remarks: "text" };
const WINDOW = 7, WORTH = 10, REMARKS = 11, TYPED = ["from", "to", "station", "rate"], MANY = 60;
let turn = 0, laidPasses = "", listed = null;

// What each pass sends of each store: what leaves in its steps, `dumps` being what leaves in each of them. Of a step
// that several passes share, the first takes as much as its window.
/**
 * @param {Pass[]} passes
 * @param {Records} records
 * @returns {Sent[]}
 */
export function sentBy(passes, records) {
  const left = records.steps.map(row => new Map([...row.of].map(([id, it]) => [id, it.dumped])));
  return passes.map(({ windows }) => {
    const of = new Map([...records.stores.keys()].map(id => [id, 0])), dumps = [];
    for (const [step, blocks] of windows) {
      let room = blocks;
      for (const [id, waiting] of left[step - 1] ?? []) {
        const sent = Math.min(room, waiting);
        if (!sent) continue;
        room -= sent;
        left[step - 1].set(id, waiting - sent);
        of.set(id, of.get(id) + sent);
        dumps.push({ step, id, blocks: sent });
      }
    }
    return { of, dumps, sent: [...of.values()].reduce((sum, it) => sum + it, 0) };
  });
}

function layPass(pass, nth, stores) {
  const name = `pass ${nth + 1}`, empty = count => Array.from({ length: count }, () => make("td"));
  const text = { inputMode: "text" };
  const typed = (what, label, className) => cellWith(input(`pass ${nth} ${what}`, label, { ...text, className }));
  const ofTimes = [["from", `Begin of ${name}, in UTC`, "time"], ["to", `End of ${name}, in UTC`, "time"],
    ["rate", `Rate of ${name}, with its unit`, "rate"]];
  // A pass that was found in windows has steps alone.
  const [from, to, rate] = pass.from === null ? empty(3) : ofTimes.map(it => typed(...it));
  const station = typed("station", `Station of ${name}`, "name"), remarks = make("td", "", { className: "text words" });
  const cancel = cellWith(button("Cancel", `cancel ${nth}`, `Cancel ${name}`));
  cancel.className = "act";
  const [steps, ...sums] = empty(5), number = make("th", String(nth + 1), { scope: "row" });
  return row(number, steps, from, to, station, rate, cancel, ...sums, remarks, ...empty(stores.length));
}

function layPasses(passes, stores) {
  const form = JSON.stringify([passes.map(it => it.from === null), stores]);
  if (form === laidPasses) return;
  laidPasses = form;
  const table = at("passes"), heads = HEADS.map(it => head(it, { className: CLASSES[it] ?? "" }));
  const own = stores.map(it => head(it, { title: `What ${it} sends in the pass` }));
  table.tHead.replaceChildren(row(...heads, ...own));
  keepingFocus(() => table.tBodies[0].replaceChildren(...passes.map((it, nth) => layPass(it, nth, stores))));
  if (passes.length > MANY) giveRoles(table);
}

function showTimes(cells, session, pass) {
  const span = spanOf(session, pass);
  [2, 3].forEach((column, which) => {
    const time = span?.[which];
    if (pass.from === null) write(cells[column], time === undefined ? "" : shown(time), "text clock");
  });
  const texts = { from: textOf(pass.from ?? NaN), to: textOf(pass.to ?? NaN), station: pass.station, rate: pass.rate };
  TYPED.forEach((what, nth) => {
    const it = cells[nth + 2].firstElementChild;
    if (!it) return;
    fill(it, pass.bad?.[what] ?? texts[what]);
    if (what === "rate") it.placeholder = session.mission ? "of the station" : "";
    mark(it, what in (pass.bad ?? {}), "passes-fault");
  });
}

// Shows the passes as data, at once; what they send comes with the answer.
export function showPasses(session) {
  const { unit, volume } = amountsOf(session), { passes } = session, body = at("passes").tBodies[0],
    stores = [...(at("passes").dataset.stores ?? "").split(" ")].filter(Boolean);
  at("passes").hidden = !passes.length;
  at("passes").parentElement.classList.toggle("many", passes.length > MANY);
  if (session !== listed) {
    listed = session;
    turn++;
    at("passes").dataset.worth = "";
  }
  layPasses(passes, stores);
  write(at("passes-unit"), unit);
  const remarks = remarksOn(session);
  at("passes").classList.toggle("plain", !remarks.some(it => it.length));
  passes.forEach((pass, nth) => {
    const { cells } = body.rows[nth];
    write(cells[1], stepsOf(pass), "is");
    showTimes(cells, session, pass);
    write(cells[WINDOW], volume(LINK, sumOf(pass)), number(sumOf(pass), "")[1]);
    write(cells[REMARKS], remarks[nth].join("; "), "text words");
  });
  write(at("passes-fault"), wordsOnBad(session), "fault");
}

const NAMES = { from: "begin", to: "end" };

// What is wrong with the first pass of which something cannot be read.
function wordsOnBad(session) {
  const nth = session.passes.findIndex(it => it.bad), pass = session.passes[nth];
  if (!pass) return "";
  const fault = faultTyped(session, pass, session.passes.filter(it => it !== pass)),
    cells = Object.keys(pass.bad).map(it => NAMES[it] ?? it).join(" and ");
  return `Pass ${nth + 1}, ${cells}: ${fault ?? "type it again."} The plan has it as it was before.`;
}

// Shows what the passes send, and then asks what is lost without each of them.
export function showSent(ask, session, { records, verdict, loss }) {
  const { passes } = session, stores = [...records.stores.keys()], body = at("passes").tBodies[0];
  at("passes").dataset.stores = stores.join(" ");
  const { total, volume } = amountsOf(session);
  showPasses(session);
  sentBy(passes, records).forEach(({ of, sent }, nth) => {
    const { cells } = body.rows[nth], window = sumOf(passes[nth]);
    write(cells[WINDOW + 1], total([...of]), number(sent, "")[1]);
    write(cells[WINDOW + 2], window ? `${Math.round((100 * sent) / window)} %` : "", "is");
    stores.forEach((id, column) => write(cells[HEADS.length + column], volume(id, of.get(id)),
      number(of.get(id), "")[1]));
  });
  if (passes.length) tellWorth(ask, session, ["least", "least in order", "first not shown"].includes(verdict.kind)
    ? loss : null, turn);
}

const asPlanned = session => ({ ...session, given: NOTHING, isInOrder: false });

// How many blocks more the best plan loses without each pass: one after another, until something is changed.
async function tellWorth(ask, session, loss, ofTurn) {
  const { volume } = amountsOf(session), body = at("passes").tBodies[0],
    least = loss ?? (await ask("least", asPlanned(session))).loss;
  for (let nth = 0; nth < session.passes.length; nth++) {
    if (ofTurn !== turn) return;
    const without = (await ask("least", asPlanned(withoutPass(session, nth)))).loss;
    if (ofTurn !== turn) return;
    const isKnown = typeof without === "number" && typeof least === "number", more = without - least;
    write(body.rows[nth].cells[WORTH], isKnown ? volume(LINK, more) : "?",
      `${isKnown ? number(more, "")[1] : "is"} worth`);
  }
  if (ofTurn === turn) at("passes").dataset.worth = "known";
}

// Sorts the rows once that which was typed in is left. The focus stays with its pass; `layAgain` lays what else shows
// passes in their order.
export function sortPasses(history, layAgain) {
  const { passes } = history.now, sorted = inOrder(passes), it = focused();
  if (sorted.every((pass, nth) => pass === passes[nth])) return;
  const { cell, act } = it.dataset, held = passes[passNth(it)],
    [from, to] = "selectionStart" in it ? [it.selectionStart, it.selectionEnd] : [null, null];
  if (held) it.blur();
  history.amend({ passes: sorted });
  showPasses(history.now);
  layAgain(history.now);
  if (!held) return;
  const name = (cell ?? act).replace(/\d+/, sorted.indexOf(held)),
    found = find(`[data-${cell ? "cell" : "act"}="${name}"]`);
  // A pass may be moved out of what is shown of the chart.
  found?.focus({ preventScroll: from === null });
  if (found && from !== null) found.setSelectionRange(from, to);
}

// Of which pass a cell or a button is; undefined where it is of none.
export const passNth = it => /^(?:pass|cancel) (\d+)/.exec(it.dataset?.cell ?? it.dataset?.act ?? "")?.[1];
