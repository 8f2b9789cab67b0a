// The page: what is shown after a change, and how it begins. What a planner does is in changes.js.
import { openExample } from "./changes.js";
import { hasClock, lengthOf } from "./clock.js";
import { listenToAll } from "./events.js";
import { answersOf, workerOf } from "./desk.js";
import { at, endTyping, fill, make, mark, write } from "./dom.js";
import { keeperOf, stampOf } from "./kept.js";
import { showLanes } from "./lanes.js";
import { momentOf, textOf } from "./moments.js";
import { missionOf } from "./passes.js";
import { layPassLanes } from "./passlanes.js";
import { showPasses, showSent } from "./passtable.js";
import { question } from "./question.js";
import { EMPTY, fromJson, hasBoth, historyOf, toJson } from "./session.js";
import { setupOf } from "./setup.js";
import { sheetParts } from "./sheet.js";
import { layCards, showKept } from "./start.js";
import { showSteps } from "./steps.js";
import { forecastOf } from "./texts.js";
import { showVariants } from "./variants.js";
import { dim, lostIn, showChart, showSetup, showStores, showTexts, showVerdict } from "./view.js";
import { dateWorths, shadedChart } from "./worth.js";

const SHEET_AFTER = 800; // milliseconds
const MOST_LAID = 200; // passes, of which more are laid for the printer only once that is asked for
// The page as it came, before anything was shown in it: it is saved with a session inside.
const source = `<!doctype html>\n${document.documentElement.outerHTML}`;
const json = id => JSON.parse(at(id).textContent);
export const examples = json("examples");
export const note = words => { at("note").textContent = words; };

const given = json("session") === null ? null : fromJson(at("session").textContent),
  givenMark = given ? stampOf(at("session").textContent) : null;
export const history = historyOf(changed);
export const keeper = keeperOf(() => localStorage, words => {
  write(at("kept-note"), words);
  at("room").hidden = !words || !keeper.others().length;
});
// What answers: of what is shown, and of what takes longer.
export const desk = { front: null, side: null, answers: null };

let place = null, shownOf = { session: null, done: 0 }, isDue = false, sheetTimer = 0, startOf = 0;
let sheetOf = null;
const UNLAID = "The plan is not laid out for what was changed last. Press Print in the page.";

// ---- After a change

function changed() {
  const session = history.now, hasAll = hasBoth(session);
  // What was undone, opened or pressed takes the place of what is typed.
  if (history.kind === null) endTyping();
  if (sheetOf !== session) unlaySheet();
  at("undo").disabled = !history.canUndo;
  at("redo").disabled = !history.canRedo;
  at("all").hidden = at("close").hidden = !hasAll;
  at("start").hidden = hasAll;
  showClock(session);
  keepSoon();
  dateWorths(session);
  startOf = performance.now();
  if (!hasAll) showStart();
  // What is edited is shown before an answer that is known already; at once where nothing is typed, so that no key
  // meets the rows of before.
  if (history.kind === null) showInputs();
  else showInputsSoon();
  dim(true);
  desk.answers.want(session);
}

let hasCards = false;
function showStart() {
  showKept(keeper.list());
  if (!hasCards) layCards(desk.side, examples, openExample);
  hasCards = true;
}

const titleOf = ({ name, setup, forecast }) => name
  || `${setupOf(setup)?.store.length ?? "?"} stores, ${forecastOf(forecast)?.records.length ?? "?"} steps`;

export function keepSoon() {
  const session = history.now;
  if (!session.setup.length && !session.forecast.length) return;
  const answer = desk.answers.known(session), loss = answer?.loss ?? null;
  keeper.soon(session, { title: titleOf(session), lost: loss, inUnit: loss && answer.records ? lostIn(session, answer)
    : null, mark: givenMark, isChanged: !history.isSaved, isAsOpened: history.isAsOpened });
}

function showClock(session) {
  const isFixed = !!session.edges, begins = at("begins"), minutes = at("minutes"), start = momentOf(session.begins);
  for (const which of ["begins", "minutes", "name"]) fill(at(which), String(session[which]));
  fill(at("packet"), session.badPacket ?? String(session.packet));
  for (const it of [begins, minutes]) it.disabled = isFixed;
  at("packet").disabled = !!session.mission;
  at("minutes-label").hidden = isFixed;
  at("event-steps").hidden = !isFixed;
  if (isFixed) fill(begins, textOf(session.edges[0]));
  at("in-order").checked = session.isInOrder;
  at("in-order").disabled = session.given.length > 0;
  at("in-units").checked = !session.isInBlocks;
  const isBad = !isFixed && session.begins !== "" && start === null, isLong = !isFixed && lengthOf(session) === null;
  mark(begins, isBad);
  mark(minutes, isLong);
  mark(at("packet"), session.badPacket !== null, "packet-fault");
  write(at("packet-fault"), session.badPacket === null ? "" : "A packet has 1 to 1,024 octets.", "fault");
  at("clock-fault").textContent = isBad
    ? "A time is written as 2026-11-27 06:00, or with seconds, a zone, or the day of the year." : isLong
    ? "A step has at most 527,040 minutes, as a number." : "";
  document.body.classList.toggle("timeless", !hasClock(session));
}

export function showInputsSoon() {
  if (!isDue) setTimeout(showInputs);
  isDue = true;
}

// What is edited, at once; the rest comes with the answer.
function showInputs() {
  isDue = false;
  const session = history.now, answer = desk.answers.known(session);
  if (!hasBoth(session)) return;
  showSetup(session, place);
  showSteps(session, null, place);
  showPasses(session);
  layPassLanes(session);
  showTexts(session, answer?.plan ?? null);
  if (answer?.isWhole) showVariants(session, answer);
  at("stations").replaceChildren(...(missionOf(session)?.stations ?? [])
    .map(it => make("option", "", { value: it.name })));
}

// ---- With the answer

const SHOWS = [
  (session, answer) => {
    // In another unit than blocks it comes with the table.
    if (session.isInBlocks || answer.refused) place = showVerdict(session, answer);
    at("time").textContent = `Planned and checked in ${(performance.now() - startOf).toFixed(1)} ms.`;
  },
  (session, answer) => {
    const chart = shadedChart(session) ?? answer.chart;
    if (chart) showChart(chart);
  },
  (session, answer) => {
    if (!session.isInBlocks) place = showVerdict(session, answer);
    showStores(session, answer, answer.records, place);
    showSteps(session, answer.records, place);
    setTimeout(showLast, 0, session, answer);
  },
];

function showLast(session, answer) {
  if (session !== history.now) return;
  dim(!!answer.refused);
  showTexts(session, answer.plan ?? null);
  if (answer.records) {
    showLanes(session, answer);
    showSent(desk.side, session, answer);
    showVariants(session, answer);
    clearTimeout(sheetTimer);
    if (session.passes.length <= MOST_LAID) sheetTimer = setTimeout(layNow, SHEET_AFTER);
  }
  keepSoon();
  shownOf.done++;
}

// Shows what came of an answer, where it is of the session that is there.
function showAnswer(answer) {
  const { session, done } = answer;
  if (session !== history.now) return;
  if (shownOf.session !== session) shownOf = { session, done: 0 };
  while (shownOf.done < done) SHOWS[shownOf.done++](session, answer);
}

export const isBusy = () => isDue || (hasBoth(history.now)
  && !(shownOf.session === history.now && shownOf.done > SHOWS.length));

// Shows again what is shown of the answer that is there: all of it, or the chart.
export async function showAgain(isChartAlone) {
  const session = history.now, answer = await desk.answers.of(session);
  if (session !== history.now || answer.refused) return;
  if (isChartAlone) SHOWS[1](session, answer);
  else showSteps(session, answer.records, place);
}

// What is printed before the sheet of a session is laid.
function unlaySheet() {
  sheetOf = null;
  at("sheet").replaceChildren(make("p", UNLAID));
}

// Lays the sheet that is printed, where it is not of this session yet. Answers whether it is.
export async function layNow() {
  const session = history.now, answer = await desk.answers.of(session);
  if (sheetOf === session) return true;
  if (answer.refused || !answer.records || session !== history.now) return false;
  const starts = new Map((setupOf(session.setup)?.store ?? []).map(({ keys }) => [keys.id, Number(keys.start ?? 0)]));
  const parts = await sheetParts(session, { ...answer, chart: shadedChart(session) ?? answer.chart }, starts);
  if (session !== history.now) return layNow();
  at("sheet").replaceChildren(...parts);
  sheetOf = session;
  return true;
}

// The page with a session inside. No text ends the element that it stands in.
export function pageWith(session) {
  const text = toJson(session).replaceAll("<", "\\u003c");
  return source.replace(/(<script type="application\/json" id="session">)[^<]*(<\/script>)/,
    (_, from, to) => from + text + to);
}

// ---- Beginning

export function resume(name, words) {
  const record = keeper.take(name);
  if (!record) return false;
  history.open(record.session, !record.isChanged);
  note(words);
  return true;
}

const AGAIN = "What was here last is here again, out of this browser.";

async function beginWith() {
  const { last } = keeper;
  if (last && (last.mark ?? null) === givenMark && resume(last.name, AGAIN)) return;
  if (!given) return;
  const kept = last?.isChanged ? last : keeper.list().find(it => it.mark === givenMark && it.isChanged);
  history.open(given, true);
  if (!kept) return;
  const words =
    `This page comes with a mission. In this browser another one was worked on, which is in no file: ${kept.title}.`;
  const answer = await question(words, [["Open what the page comes with", "given"],
    ["Go on with what was worked on", "kept"], ["Not now", "given"]]);
  if (answer !== "kept") return;
  keeper.part();
  resume(kept.name, AGAIN);
}

// The module of the library, which is deflated in the page.
export async function moduleIn() {
  const deflated = Uint8Array.from(atob(at("module").textContent.trim()), it => it.charCodeAt(0));
  const octets = new Blob([deflated]).stream().pipeThrough(new DecompressionStream("deflate"));
  return WebAssembly.compile(await new Response(octets).arrayBuffer());
}

// The library in two workers. The module is compiled once.
async function startDesk() {
  const module = await moduleIn();
  const url = URL.createObjectURL(new Blob([at("worker").textContent], { type: "text/javascript" }));
  desk.front = workerOf(url, module);
  desk.side = workerOf(url, module);
  desk.answers = answersOf(desk.front, () => history.now, showAnswer);
  const { version, refused } = await desk.front("version", EMPTY);
  if (refused) throw new Error(refused.words);
  at("version").textContent = version;
}

const UNABLE = "This browser cannot run the planner: it needs WebAssembly with memories of 64 bits, as Chrome and Edge "
  + "have from 133 on and Firefox from 134. The other page of the release needs none.";

async function begin() {
  try {
    await startDesk();
  } catch (fault) {
    at("start-words").textContent = `${UNABLE} (${fault.message})`;
    return;
  }
  listenToAll();
  const begun = beginWith();
  if (!hasBoth(history.now)) showStart();
  document.documentElement.dataset.ready = "yes";
  await begun;
}

begin();
