// Which event does what.
import { addPass, ask, cancelPass, changeCell, changeClock, changePacket, changeText, closeSession, compareWith,
  dropVariant, forgetKept, goToStep, keepVariant, makeRoom, movePass, moveStore, openExample, openKept, openVariant,
  paste, planAnew, planRest, print, save, take, takeDropped, takesBack, toggleShade } from "./changes.js";
import { at, endTyping, notice } from "./dom.js";
import { listenToLanes } from "./lanes.js";
import { history, keeper, note, showAgain, showInputsSoon } from "./main.js";
import { layPassLanes } from "./passlanes.js";
import { passNth, sortPasses } from "./passtable.js";
import { TEXTS } from "./session.js";
import { choose, copied, hasRange, hold, moveBy, placeInGrid, show, stickColumns, stretchBy } from "./steps.js";
import { stepOnChart } from "./view.js";
import { forecastOf } from "./texts.js";

export let taken = 0;

function takeInput({ target: it }) {
  if (it.form) return;
  note("");
  choose(null, null);
  notice(it);
  if (TEXTS.includes(it.id)) changeText(it.id, it.value);
  else if (it.id === "in-order") history.change({ isInOrder: it.checked });
  else if (it.id === "in-units") history.change({ isInBlocks: !it.checked });
  else if (it.id === "begins" || it.id === "minutes") changeClock(it.id, it.value);
  else if (it.id === "name") history.change({ name: it.value }, "name");
  else if (it.id === "packet") changePacket(it.value);
  else if (it.dataset.cell) changeCell(it);
  typedRow = passNth(it);
}

// Passes are sorted once the row that was typed in is left, and after what is pressed was done.
let typedRow, isPressed = false;
function leaveRow() {
  if (isPressed || (typedRow !== undefined && passNth(document.activeElement) === typedRow)) return;
  typedRow = undefined;
  sortPasses(history, layPassLanes);
}

function takeFocusOut() {
  history.leave();
  if (endTyping()) showInputsSoon();
  setTimeout(leaveRow);
}

// What stands in `data-act`: which change it is, and of what.
const ACTS = {
  up: nth => moveStore(Number(nth), "up"), down: nth => moveStore(Number(nth), "down"),
  cancel: nth => cancelPass(Number(nth)), open: nth => openVariant(Number(nth)),
  compare: nth => compareWith(Number(nth)), drop: nth => dropVariant(Number(nth)),
  "kept-open": openKept, "kept-forget": forgetKept,
};

function takeClick({ target: it }) {
  const [act, of] = it.dataset?.act?.split(" ") ?? [];
  if (act) ACTS[act](of);
  else if (it.dataset?.saves) save(it.dataset.saves);
  else if (it.dataset?.shows) {
    show(it.dataset.shows);
    showAgain(false);
  }
}

const isOwnText = it => it.tagName === "TEXTAREA" || it.form || ["name", "step", "packet"].includes(it.id);

function takeKey(event) {
  const it = event.target, key = event.key.toLowerCase();
  const isUndo = (event.ctrlKey || event.metaKey) && !event.altKey && !isOwnText(it);
  if (isUndo && key === "z") event.shiftKey ? history.redo() : history.undo();
  else if (isUndo && key === "y") history.redo();
  else if (it.id === "step" && event.key === "Enter") goToStep(Number(it.value));
  // What stood in a cell before it was typed into.
  else if (event.key === "Escape" && (it.dataset?.cell ?? it.id) === history.kind) history.undo();
  else if (event.key === "Escape" && hasRange()) choose(null, null);
  else if (!(it.closest("#grid") && it.dataset.cell && !event.ctrlKey && !event.metaKey
    && (event.shiftKey ? stretches(event.key, it) : moveBy(event.key, it)))) return;
  event.preventDefault();
}

const tellRange = size => {
  at("chosen").textContent = size ? `${size[0]} × ${size[1]} cells are chosen: Ctrl+C copies them.` : "";
};

// Shift and an arrow choose cells; within what is typed they choose characters.
function stretches(key, it) {
  const isAlong = ["ArrowLeft", "ArrowRight", "Home", "End"].includes(key), isWhole = it.selectionStart === 0
    && it.selectionEnd === it.value.length;
  if (isAlong && !hasRange() && !isWhole) return false;
  const size = stretchBy(key);
  tellRange(size);
  return size !== null;
}

// Cells are chosen by the pointer from the one where it is pressed, or, with Shift, from the one that has the focus.
function listenToRanges() {
  let from = null;
  document.addEventListener("pointerdown", event => {
    const to = event.button ? null : placeInGrid(event.target), held = placeInGrid(document.activeElement);
    const isMore = event.shiftKey && to && held;
    if (isMore) event.preventDefault();
    choose(null, null);
    if (isMore) tellRange(choose(held, to));
    from = to && (isMore ? held : to);
  });
  at("grid").addEventListener("mousedown", event => { if (event.shiftKey) event.preventDefault(); });
  // Else what is selected in a cell would be dragged.
  at("grid").addEventListener("dragstart", event => event.preventDefault());
  document.addEventListener("pointermove", event => {
    const isHeld = from && event.buttons === 1 && event.pointerType === "mouse";
    // Firefox tells of the cell where it was pressed alone.
    const over = isHeld ? document.elementFromPoint(event.clientX, event.clientY) : null,
      to = over && placeInGrid(over);
    if (to) tellRange(choose(from, to));
  });
  document.addEventListener("pointerup", () => { from = null; });
  document.addEventListener("copy", event => {
    const text = copied();
    if (text === null) return;
    event.clipboardData.setData("text/plain", text);
    event.preventDefault();
  });
}

function listenToFiles() {
  const files = at("files"), example = at("example");
  files.addEventListener("change", async () => {
    await take(files.files);
    files.value = "";
  });
  for (const name of ["dragover", "dragleave", "drop"])
    document.addEventListener(name, (/** @type {DragEvent} */ event) => {
      event.preventDefault();
      document.body.classList.toggle("over", name === "dragover");
      if (name === "drop") takeDropped(event.dataTransfer).finally(() => taken++);
    });
  example.addEventListener("change", () => {
    const name = example.value;
    example.value = "";
    openExample(name);
  });
}

const CLICKS = {
  undo: history => history.undo(), redo: history => history.redo(), keep: keepVariant, print, ask, anew: planAnew,
    close: closeSession,
  room: makeRoom, back: history => history.now.reference !== null && openVariant(history.now.reference),
    go: () => goToStep(Number(at("step").value)), rest: () => planRest(Number(at("step").value)),
};

export function listenToAll() {
  document.addEventListener("input", takeInput);
  document.addEventListener("focusin", event => {
    const it = /** @type {Input} */ (event.target);
    if (it.closest("#grid") && it.dataset.cell) hold(it);
  });
  document.addEventListener("focusout", takeFocusOut);
  document.addEventListener("pointerdown", () => { isPressed = true; });
  for (const name of ["pointerup", "pointercancel"]) document.addEventListener(name, () => {
    isPressed = false;
    setTimeout(leaveRow);
  });
  document.addEventListener("click", takeClick);
  document.addEventListener("keydown", takeKey);
  document.addEventListener("paste", event => {
    const it = /** @type {Input} */ (event.target);
    if (it.closest?.("#grid") && it.dataset.cell && paste(
      it, event.clipboardData.getData("text/plain"))) event.preventDefault();
  });
  for (const [id, does] of Object.entries(CLICKS)) at(id).addEventListener("click", () => does(history));
  at("shade").addEventListener("change", toggleShade);
  at("pass").addEventListener("submit", event => {
    event.preventDefault();
    addPass(event.target);
  });
  for (const box of document.querySelectorAll("details")) box.addEventListener("toggle", () => {
    showInputsSoon();
    showAgain(true);
  });
  at("chart").addEventListener("click", event => {
    const step = stepOnChart(event, forecastOf(history.now.forecast)?.records.length ?? 0);
    if (step) goToStep(step);
  });
  // What is focused comes to lie below the verdict, however high that is.
  new ResizeObserver(() => document.documentElement.style.setProperty("--bar", `${at("verdict").offsetHeight}px`))
    .observe(at("verdict"));
  at("grid-box").addEventListener("scroll", stickColumns);
  for (const it of document.querySelectorAll(".wide"))
    it.addEventListener("scroll", () => it.classList.toggle("scrolled", it.scrollLeft > 0));
  listenToLanes(() => history.now, { goesTo: goToStep, moves: movePass, ends: () => history.leave(), takesBack });
  listenToRanges();
  listenToFiles();
  window.addEventListener("beforeunload", event => {
    keeper.now();
    if (!history.isSaved) event.preventDefault();
  });
}
