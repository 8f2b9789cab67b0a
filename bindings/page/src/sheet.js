// What is printed: the mission with its verdict and checksums, the chart over the time and that of the program, each on
// a page of its own, and each pass with what stores send in it, in the order of the dumps.
import { LINK, amountsOf } from "./amounts.js";
import { beginOf, hasClock } from "./clock.js";
import { at, head, make, row } from "./dom.js";
import { printedLanes } from "./lanes.js";
import { MINUTE, textOf } from "./moments.js";
import { sentBy } from "./passtable.js";
import { spanOf, stepSpan, stepsOf, sumOf } from "./passes.js";
import { lostIn } from "./view.js";
import { sentenceOf } from "./words.js";

async function checksum(octets) {
  if (!globalThis.crypto?.subtle) return "not known";
  const sum = new Uint8Array(await crypto.subtle.digest("SHA-256", octets));
  return [...sum].map(it => it.toString(16).padStart(2, "0")).join("");
}

function facts(rows) {
  const list = make("dl");
  for (const [name, text] of rows) list.append(make("dt", name), make("dd", text));
  return list;
}

const whenOf = (session, pass) => {
  const span = spanOf(session, pass);
  return span ? `${textOf(span[0])} to ${textOf(span[1])} UTC` : `steps ${stepsOf(pass)}`;
};

// What stores hold before the first of these steps and after the last, and what they lose until the next pass begins.
/** @param {Records} records */
function rowsOf(records, startOf, [first, last], until, of) {
  return [...records.stores.keys()].map(id => {
    const before = first > 1 ? records.steps[first - 2].of.get(id).held : startOf(id),
      after = records.steps[last - 1].of.get(id).held;
    const lost = records.steps.slice(first - 1, until - 1).reduce((sum, it) => sum + it.of.get(id).lost, 0);
    return { id, sent: of.get(id), before, after, lost };
  });
}

function passSection(session, records, startOf, nth, { of, dumps }) {
  const pass = session.passes[nth], next = session.passes.slice(nth + 1).find(it => it.windows.length);
  const count = records.steps.length, { unit, volume } = amountsOf(session), most = volume(LINK, sumOf(pass));
  const until = next ? stepSpan(session, next, count)[0] : count + 1;
  const made = make("section");
  const own = pass.name && pass.name !== pass.station ? ` (${pass.name})` : "";
  const name = `${pass.station || "Pass"}${own}`;
  made.append(make("h3", `${nth + 1}. ${name}: ${whenOf(session, pass)}, at most ${most} ${unit}`));
  if (!pass.windows.length) return made;
  const sums = rowsOf(records, startOf, stepSpan(session, pass, count), until, of);
  const rows = sums.map(({ id, sent, before, after, lost }) =>
    [id, ...[sent, before, after, lost].map(it => volume(id, it))]);
  const heads = ["<store", `sent, ${unit}`, "held before", "held after", "lost until the next"];
  made.append(tableOfRows(heads, rows));
  const listed = dumpsOf(session, pass, dumps);
  if (listed.length) made.append(tableOfRows(["<from", "<to", "<dump of", `sent, ${unit}`, ...listed[0].slice(4, 5)
    .map(() => "at")], listed));
  return made;
}

// The dumps of a pass in their order: in a step each store sends evenly, beside the others; at one rate after another
// they are one. Without a clock their steps stand in place of times.
function dumpsOf(session, pass, dumps) {
  const { volume, pace } = amountsOf(session), rows = [], last = new Map();
  for (const { step, id, blocks } of dumps) {
    const edges = [step, step + 1].map(it => beginOf(session, it)), hasTimes = !edges.includes(null);
    const [from, to] = !hasTimes ? [step, step + 1] : pass.from === null ? edges
      : [Math.max(edges[0], pass.from), Math.min(edges[1], pass.to)];
    const before = last.get(id), isOn = before?.hasTimes && before.to === from
      && before.blocks * (to - from) === blocks * (before.to - before.from);
    if (isOn) Object.assign(before, { to, blocks: before.blocks + blocks });
    else {
      const made = { from, to, id, blocks, hasTimes };
      last.set(id, made);
      rows.push(made);
    }
  }
  const time = it => textOf(it, "T").slice(11), when = it => (it.hasTimes ? [time(it.from), time(it.to)]
    : [`step ${it.from}`, `step ${it.to - 1}`]);
  return rows.map(it => [...when(it), it.id, volume(it.id, it.blocks), ...(it.hasTimes
    ? [pace(it.blocks, (it.to - it.from) / MINUTE, it.id)] : [])]);
}

// A table of these rows. A head that begins with < is of words.
function tableOfRows(heads, rows) {
  const table = make("table"), top = make("thead"), body = make("tbody"), isText = nth => heads[nth].startsWith("<");
  const cell = (text, nth) => {
    const className = isText(nth) ? "text" : heads[nth].startsWith("lost") && text !== "0" ? "lost" : "";
    return nth ? make("td", text, { className }) : make("th", text, { className, scope: "row" });
  };
  top.append(row(...heads.map((it, nth) => head(it.replace("<", ""), { className: isText(nth) ? "text" : "" }))));
  body.append(...rows.map(cells => row(...cells.map(cell))));
  table.append(top, body);
  return table;
}

// What each store has, gets, sends and loses, and what each pass sends, on the first page.
function overview(session, { records }, startOf, sent) {
  const { unit, volume, total } = amountsOf(session), made = make("div", "", { className: "overview" });
  const amounts = (id, it) => [startOf(id), it.arrived, it.dumped, it.lost, it.held].map(each => volume(id, each));
  const stores = [...records.stores].map(([id, it]) => [id, ...amounts(id, it)]);
  const sums = (pass, nth) => [volume(LINK, sumOf(pass)), total([...sent[nth].of])];
  const passes = session.passes.map((it, nth) => [`${nth + 1}`, it.station, whenOf(session, it), ...sums(it, nth)]);
  const part = (title, heads, rows) => {
    const box = make("div");
    box.append(make("h2", title), tableOfRows(heads, rows));
    return box;
  };
  made.append(part(`Stores, in ${unit}`, ["<store", "at the start", "arrives", "sent", "lost", "at the end"], stores));
  made.append(part(`Passes, in ${unit}`, ["<nr", "<station", "<when", "at most", "sent"], passes));
  return made;
}

const TITLE = document.title;
let picture = "";
// The chart, once it can be drawn.
async function pictureOf(octets) {
  URL.revokeObjectURL(picture);
  picture = URL.createObjectURL(new Blob([octets], { type: "image/svg+xml" }));
  const image = make("img", "", { alt: "", src: picture });
  await image.decode().catch(() => {});
  return image;
}

// Each page has the mission's name: in its margin where the browser has rules for that, and else in the browser's own
// head, which has the title.
function namePages(name) {
  const [style] = document.styleSheets, text = name.replace(/["\\\n]/g, it => `\\${it.charCodeAt(0).toString(16)} `);
  if (document.title === name) return;
  if (document.title !== TITLE) style.deleteRule(0);
  document.title = name;
  style.insertRule(`@page { @bottom-left { content: "${text}"; font: 11px system-ui, sans-serif; } }`, 0);
}

// The parts of the sheet of a session with its answer.
export async function sheetParts(session, answer, starts) {
  const sums = await Promise.all([session.setup, session.forecast, answer.plan].map(checksum)),
    startOf = id => starts.get(id) ?? 0, { records } = answer;
  const chart = make("div", "", { className: "chart-page" }), sent = sentBy(session.passes, records);
  const begin = records.steps.length ? whenOf(session, { from: null, windows: [[1, 0], [records.steps.length, 0]] })
    : "";
  const lanes = make("div", "", { className: "chart-page" }), legend = at("legend").cloneNode(true);
  legend.removeAttribute("id");
  lanes.append(make("h2", `Chart, over ${hasClock(session) ? "the time in UTC" : "the steps"}`),
    printedLanes(session, answer), legend);
  chart.append(make("h2", "The program's chart, over the steps"), await pictureOf(answer.chart));
  const top = make("div");
  top.append(make("h1", session.name || "Downlink plan"),
    make("p", `${sentenceOf(answer.verdict, lostIn(session, answer))}.`, { className: "verdict" }));
  top.append(
    facts([["Planned", begin], ["Printed", `${textOf(Date.now() * 1000).slice(0, 16)} UTC`],
    ["Verdict of the checker", answer.line],
    ["SHA-256 of the setup", sums[0]], ["SHA-256 of the forecast", sums[1]], ["SHA-256 of the plan", sums[2]]]));
  top.append(overview(session, answer, startOf, sent));
  const passes = make("div", "", { className: "passes-page" }), first = session.passes[0]?.windows[0]?.[0] ?? 1;
  const early = records.steps.slice(0, first - 1).flatMap(it => [...it.of].map(([id, each]) => [id, each.lost]));
  const { unit, total } = amountsOf(session), lost = total(early);
  passes.append(make("h2", `Passes${session.passes.length ? "" : ": none"}`),
    ...(lost === "0" ? [] : [make("p", `Before the first pass ${lost} ${unit} are lost.`)]),
    ...session.passes.map((_, nth) => passSection(session, records, startOf, nth, sent[nth])));
  namePages(session.name || "Downlink plan");
  return [top, lanes, chart, passes];
}

