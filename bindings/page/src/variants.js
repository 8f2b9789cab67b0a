// Variants side by side: what was kept, with what it loses, and how stores and passes differ from what is there now.
import { LINK, amountsOf, octetsIn } from "./amounts.js";
import { at, button, cellWith, fill, head, input, isTypedIn, keepingFocus, make, row,
  write } from "./dom.js";
import { shown } from "./moments.js";
import { sentBy } from "./passtable.js";
import { spanOf, stepsOf } from "./passes.js";

const MOST_PASSES = 128; // that are listed

const signed = (more, shownSum) => (more > 0 ? `+${shownSum(more)}` : more < 0 ? `−${shownSum(-more)}` : "0");
const labelOf = (session, pass) => {
  const span = spanOf(session, pass), when = span ? shown(span[0]) : `step ${stepsOf(pass)}`;
  return pass.station ? `${pass.station}, ${when}` : when;
};

// What is kept of a session with its answer: its loss, what each store loses, and what each pass sends.
export function variantOf({ variants, reference, ...session }, { loss, records }, name) {
  const whole = { ...session, variants: [], reference: null }, sent = sentBy(session.passes, records);
  return { name, loss, session: whole, stores: [...records.stores].map(([id, it]) => [id, it.lost]),
    sent: session.passes.map((pass, nth) =>
      [labelOf(session, pass), sent[nth].sent, octetsIn(session, [...sent[nth].of])]) };
}

// How much more or less is lost.
function differenceCell(more, shownSum) {
  const className = !more ? "none" : more > 0 ? "lost" : "better";
  return make("td", more === undefined ? "" : signed(more, shownSum), { className });
}

function variantRow(it, nth, now, session) {
  const name = input(`variant ${nth}`, `Name of variant ${nth + 1}`, { className: "name", inputMode: "text" });
  const { sum: sumNow, shownSum } = amountsOf(session), isReference = session.reference === nth;
  const { sum } = amountsOf({ ...it.session, isInBlocks: session.isInBlocks }), of = new Map(it.stores);
  fill(name, it.name);
  const acts = cellWith(
    button("Open", `open ${nth}`, `Go back to ${it.name}`),
    button(isReference ? "Reference" : "Compare", `compare ${nth}`, `Compare the verdict with ${it.name}`),
    button("Drop", `drop ${nth}`, `Drop ${it.name}`),
  );
  acts.className = "act";
  acts.children[1].setAttribute("aria-pressed", String(isReference));
  const lost = make("td", shownSum(sum(it.stores)), { className: it.loss ? "lost" : "none" });
  const more = now.stores.map(([id, blocks]) => (of.has(id) ? sum([[id, of.get(id)]]) - sumNow([[id, blocks]])
    : undefined));
  return row(cellWith(name), lost, differenceCell(sum(it.stores) - sumNow(now.stores), shownSum), acts,
    ...more.map(it => differenceCell(it, shownSum)));
}

let laidVariants = "";
// Shows the variants beside the answer to what is there.
export function showVariants(session, answer) {
  const { variants } = session;
  at("variants-box").hidden = !variants.length;
  if (!variants.length || !answer.records) return;
  const now = variantOf(session, answer, "now"), ids = now.stores.map(it => it[0]), { isInBlocks } = session;
  const told = variants.map(({ session: _, ...it }) => it);
  const form = JSON.stringify([told, session.reference, now.loss, now.stores, now.sent, isInBlocks]),
    table = at("variants");
  const isSame = form === laidVariants;
  // What is typed differs from what is laid.
  laidVariants = isTypedIn(table) ? "" : form;
  if (isSame || !laidVariants) return;
  const heads = ["variant", "lost", "than now", "what to do"].map(it => head(it));
  const own = ids.map(it => head(it, { title: `What ${it} loses more or less than now` }));
  table.tHead.replaceChildren(row(...heads, ...own));
  const rows = variants.map((it, nth) => variantRow(it, nth, now, session));
  keepingFocus(() => table.tBodies[0].replaceChildren(...rows));
  layPassesOf(variants, now, amountsOf(session), isInBlocks ? 1 : 2);
}

// What passes send, of which `column` is in the unit that is shown.
function layPassesOf(variants, now, { unit, shownSum }, column) {
  const table = at("variants-passes"), all = [now, ...variants].flatMap(it => it.sent.map(each => each[0]));
  write(at("variants-unit"), unit);
  const heads = variants.map(it => head(it.name)), labels = [...new Set(all)].slice(0, MOST_PASSES);
  table.tHead.replaceChildren(row(head("pass", { className: "text" }), head("now"), ...heads));
  table.tBodies[0].replaceChildren(...labels.map(label => {
    const of = it => {
      const found = it.sent.find(each => each[0] === label);
      // Older files have blocks alone.
      return found && (found[column] ?? octetsIn(it.session, [[LINK, found[1]]]));
    };
    const mine = of(now);
    const words = it => (of(it) === undefined ? "none"
      : `${shownSum(of(it))} (${signed(of(it) - (mine ?? 0), shownSum)})`);
    const own = make("td", mine === undefined ? "none" : shownSum(mine)), name = { scope: "row", className: "text" };
    return row(make("th", label, name), own, ...variants.map(it => make("td", words(it))));
  }));
}
