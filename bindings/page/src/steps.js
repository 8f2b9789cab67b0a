// The table of the steps: windows and arrivals to edit, and what is sent, held and lost.
import { amountsOf } from "./amounts.js";
import { beginOf } from "./clock.js";
import { at, cellWith, fill, giveRoles, head, input, make, mark, number, row, write } from "./dom.js";
import { shown } from "./moments.js";
import { clamped } from "./passes.js";
import { forecastOf, isSize, storeOfSize } from "./texts.js";
import { worthSentence } from "./words.js";
import { worthOf } from "./worth.js";

// After the stores a forecast may have limits and sizes by step, which are edited whatever the stores' columns show.
const isLimit = name => name.startsWith("limit:");
const isEdited = name => shows === "arrived" || isLimit(name) || isSize(name);
// The rows as they stand in the table: the document is not asked for them again.
let laid = "", lines = [], names = [], heldCell = { row: 0, column: 1 };
export let shows = "arrived";

const fixed = ["f1", "f2", "f3"];
const headTitle = name => (isSize(name) ? `What ${storeOfSize(name)} has room for, in blocks or in MB` : name);

function layHead(header) {
  const worths = ["one more saves", "at most"].map(it =>
    head(it, { className: "asked", title: "What a larger window saves, in blocks" }));
  const first = [head("step", { className: fixed[0] }), head("begins UTC", { className: `clock ${fixed[1]}` }),
    head("window", { className: fixed[2] })];
  const others = ["sent", "lost", ...header.slice(2)].map(it => head(it, { title: headTitle(it) }));
  return row(...first, ...worths, ...others);
}

function layLine(stores, step) {
  const label = id => (isLimit(id) ? `Limit of channel ${id.slice(6)} in step ${step}`
    : isSize(id) ? `Size of ${storeOfSize(id)} in step ${step}` : `What arrives in ${id} in step ${step}`);
  const window = input(`${step} 1`, `Window of step ${step}`, { className: "window" }),
    [begins, next, most, sent, lost] = Array.from({ length: 5 }, () => make("td"));
  const own = stores.map((id, nth) => (isEdited(id) ? input(`${step} ${nth + 2}`, label(id)) : make("td"))),
    box = cellWith(window);
  box.className = fixed[2];
  const tr = row(make("th", String(step), { scope: "row", className: fixed[0] }), begins, box, next, most, sent, lost,
    ...own.map(it => (it.tagName === "TD" ? it : cellWith(it))));
  for (const it of [next, most]) it.className = "asked";
  return { tr, begins, window, next, most, sent, lost, own, isPass: false };
}

function laySteps(header, count) {
  const form = JSON.stringify([header, count, shows]);
  if (form === laid) return;
  laid = form;
  names = header;
  choose(null, null);
  const grid = at("grid"), stores = header.slice(2);
  grid.tHead.replaceChildren(layHead(header));
  lines = Array.from({ length: count }, (_, nth) => layLine(stores, nth + 1));
  grid.tBodies[0].replaceChildren(...lines.map(it => it.tr));
  for (const it of grid.querySelectorAll("input")) it.tabIndex = -1;
  giveRoles(grid);
  lines.forEach(({ tr }, nth) => tr.setAttribute("aria-label", `Step ${nth + 1}`));
  heldCell = { row: Math.min(heldCell.row, count - 1),
    column: shows === "arrived" ? Math.min(heldCell.column, header.length - 1) : 1 };
  inputAt(heldCell).tabIndex = 0;
}

function inputAt({ row: nth, column }) {
  const line = lines[nth], it = column === 1 ? line?.window : line?.own[column - 2];
  return it?.tagName === "INPUT" ? it : undefined;
}

// One cell of the table is reached by Tab; the arrow keys go from it to the others.
export function hold(it) {
  choose(null, null);
  const [step, column] = it.dataset.cell.split(" ").map(Number), last = inputAt(heldCell);
  if (last) last.tabIndex = -1;
  it.tabIndex = 0;
  heldCell = { row: step - 1, column };
  sayWorth(step, names[column], column === 1);
}

// What a window, or a limit or a size by step, is worth in words, where it is known.
function sayWorth(step, name, isWindow) {
  const worth = isWindow ? worthOf("window", "", step) : isLimit(name) ? worthOf("limit", name.slice(6), step)
    : isSize(name) ? worthOf("size", storeOfSize(name), step) : undefined;
  at("held-worth").textContent = worth ? `Step ${step}: ${worthSentence(worth)}` : "";
}

export function moveBy(key, it) {
  const isStart = it.selectionEnd === 0, isEnd = it.selectionStart === it.value.length;
  const moves = { ArrowUp: [-1, 0], ArrowDown: [1, 0], Enter: [1, 0], PageUp: [-12, 0], PageDown: [12, 0] };
  if (isStart || it.selectionStart !== it.selectionEnd) moves.ArrowLeft = [0, -1];
  if (isEnd || it.selectionStart !== it.selectionEnd) moves.ArrowRight = [0, 1];
  if (!moves[key]) return false;
  const [down, right] = moves[key];
  const next = inputAt({ row: Math.max(0, Math.min(lines.length - 1, heldCell.row + down)),
    column: Math.max(1, heldCell.column + right) });
  if (next && next !== it) {
    next.focus();
    next.select();
  }
  return true;
}

export function show(what) {
  shows = what;
  for (const it of /** @type {NodeListOf<HTMLElement>} */ (document.querySelectorAll("[data-shows]"))) it.setAttribute(
    "aria-pressed", String(it.dataset.shows === what));
}

function showLine(line, session, nth, record, told, { totalRate }) {
  const step = nth + 1, isPass = Number(record[1]) > 0, window = worthOf("window", "", step);
  if (isPass !== line.isPass) {
    line.isPass = isPass;
    line.tr.classList.toggle("pass", isPass);
  }
  write(line.begins, shown(beginOf(session, step)), `clock ${fixed[1]}`);
  for (const [cell, it] of [[line.next, window?.next], [line.most, window?.most]]) {
    const [text, name] = number(it, "");
    write(cell, text, `${name} asked`);
  }
  if (!told) return;
  const totalOf = what => totalRate([...told.of].map(([id, it]) => [id, it[what]]), step);
  write(line.sent, totalOf("dumped"), number(told.dumped, "")[1]);
  write(line.lost, totalOf("lost"), number(told.lost, "lost")[1]);
}

// What stands in a cell of a store's column that is not edited.
function showTold(it, told, name, step, { rate, volume }) {
  const value = told.of.get(name)?.[shows];
  const text = value === undefined ? "" : shows === "held" ? volume(name, value) : rate(name, value, step);
  write(it, text, number(value, shows === "lost" ? "lost" : "")[1]);
}

export function showSteps(session, records, place) {
  const read = forecastOf(session.forecast);
  at("grid-box").hidden = !read;
  at("grid-none").hidden = !!read;
  if (!read) return;
  const { header } = read, amounts = amountsOf(session), isPlain = session.isInBlocks;
  at("steps-unit").textContent = shows === "held" && !isPlain ? "MB" : amounts.flow;
  laySteps(header, read.records.length);
  at("grid").classList.toggle("exact", session.edges !== null);
  read.records.forEach((record, nth) => {
    const line = lines[nth], told = records?.steps[nth], step = nth + 1;
    showLine(line, session, nth, record, told, amounts);
    for (let column = 1; column < header.length; column++) {
      const it = column === 1 ? line.window : line.own[column - 2], name = header[column], text = record[column];
      if (column > 1 && !isEdited(name)) {
        if (told) showTold(it, told, name, step, amounts);
        continue;
      }
      const isNumber = !isPlain && /^\d+$/.test(text), amount = isSize(name)
        ? blocks => amounts.size(storeOfSize(name), blocks) : blocks => amounts.rate(name, blocks, step);
      fill(it, isNumber ? amount(Number(text)) : text);
      mark(it, place?.row === step && place.column === column + 1, "said expected");
    }
  });
}

// The first columns stay where the table is scrolled: those of the rows that are in sight, since a browser needs time
// for each of them.
const ROW = 26, MORE = 6;
let stuck = [];
export function stickColumns() {
  const box = at("grid-box"), first = Math.max(0, Math.floor(box.scrollTop / ROW) - MORE);
  const last = Math.ceil((box.scrollTop + box.clientHeight) / ROW) + MORE, rows = lines.slice(first, last);
  const wanted = box.scrollLeft > 0 ? [at("grid").tHead.rows[0], ...rows.map(it => it.tr)] : [];
  for (const it of stuck) if (!wanted.includes(it)) it.classList.remove("stuck");
  for (const it of wanted) it.classList.add("stuck");
  stuck = wanted;
}

// ---- Ranges

// A range of cells that is chosen: from the cell where it begins to another one; null where none is.
let range = null, chosen = [];
const elementAt = ({ row: nth, column }) => (column === 1 ? lines[nth]?.window : lines[nth]?.own[column - 2]);

// What stands in a cell, as a spreadsheet reads it: without commas between thousands.
const plainText = it => {
  const text = it.value ?? it.textContent;
  return /^\d[\d,]*(\.\d+)?$/.test(text) ? text.replaceAll(",", "") : text;
};

// Which cell of a forecast an element lies in; null where it is none.
export function placeInGrid(element) {
  const td = element.closest("#grid td"), nth = td ? lines.findIndex(it => it.tr === td.parentElement) : -1,
    column = !td ? 0 : td.cellIndex === 2 ? 1 : td.cellIndex - 5;
  return nth >= 0 && (column === 1 || column > 1) ? { row: nth, column } : null;
}

// Chooses the cells from one to another; none where there is no other. Answers how many rows and columns they are.
export function choose(from, to) {
  for (const it of chosen) it.classList.remove("chosen");
  range = from && to && (from.row !== to.row || from.column !== to.column) ? { from, to } : null;
  chosen = range ? rowsIn(range).flat().map(it => it.closest("td")) : [];
  for (const it of chosen) it.classList.add("chosen");
  return range && rowsIn(range).length ? [rowsIn(range).length, rowsIn(range)[0].length] : null;
}

function rowsIn({ from, to }) {
  const span = what => [Math.min(from[what], to[what]), Math.max(from[what], to[what])], [top, bottom] = span("row"),
    [left, right] = span("column"), count = (first, last) => Array.from({ length: last - first + 1 }, (_, nth) =>
      first + nth);
  return count(top, bottom).map(nth => count(left, right).map(column => elementAt({ row: nth, column })));
}

// Chooses one more row or column, or one fewer, from the cell that is held on.
export function stretchBy(key) {
  const moves = { ArrowUp: [-1, 0], ArrowDown: [1, 0], ArrowLeft: [0, -1], ArrowRight: [0, 1], PageUp: [-12, 0],
    PageDown: [12, 0], Home: [-Infinity, 0], End: [Infinity, 0] };
  const from = range?.from ?? heldCell, last = range?.to ?? heldCell, move = moves[key];
  return move ? choose(from, { row: clamped(last.row + move[0], 0, lines.length - 1),
    column: clamped(last.column + move[1], 1, names.length - 1) }) : null;
}

export const hasRange = () => range !== null;

// The range that is chosen as text, its columns with tabs between them; null where there is none.
export const copied = () => range && rowsIn(range).map(cells => cells.map(plainText).join("\t")).join("\n");

// The cells that a range of a spreadsheet fills, from a cell on: of each that is then another its step, its column and
// its text. Null where it is one cell alone; not `fits` where some of it would lie outside of what is edited.
export function pastedFrom(it, text) {
  const [step, column] = it.dataset.cell.split(" ").map(Number),
    rows = text.replace(/\r?\n$/, "").split(/\r?\n/).map(line => line.split("\t"));
  if (rows.length === 1 && rows[0].length === 1) return null;
  const found = rows.flatMap((cells, down) =>
    cells.map((cell, right) => ({ step: step + down, column: column + right, text: cell.trim() })));
  const inputOf = each => inputAt({ row: each.step - 1, column: each.column }), fits = found.every(inputOf);
  return { fits, cells: fits ? found.filter(each => each.text !== plainText(inputOf(each))) : [] };
}

// Goes to a step that is there, and answers whether it is.
export function goTo(step) {
  const found = Number.isInteger(step) ? lines[step - 1] : undefined;
  for (const other of document.querySelectorAll("#grid .at")) other.classList.remove("at");
  if (!found) return false;
  found.tr.classList.add("at");
  at("step").value = step;
  found.tr.scrollIntoView({ block: "nearest" });
  found.window.focus({ preventScroll: true });
  return true;
}
