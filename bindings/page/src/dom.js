// The document: its elements, and writing to them only where something differs.
import { digits } from "./texts.js";

/** @type {{ <Id extends keyof ById>(id: Id): ById[Id]; (id: string): any }} */
export const at = (/** @type {string} */ id) => /** @type {any} */ (document.getElementById(id));

/** @returns {Input} what has the focus, which may be no input */
export const focused = () => /** @type {Input} */ (document.activeElement);

/** @type {(selector: string) => Input | null} */
export const find = selector => document.querySelector(selector);

/** @returns {any} an element, of which a tag says the kind */
export function make(tag, text = "", more = {}) {
  const made = document.createElement(tag);
  if (text !== "") made.textContent = text;
  for (const [name, value] of Object.entries(more)) {
    if (name in made) made[name] = value;
    else made.setAttribute(name, value);
  }
  return made;
}

export function row(...cells) {
  const made = make("tr");
  made.append(...cells);
  return made;
}

// What stands in the document is remembered, since reading it there takes much longer than comparing texts.
const lastWritten = new WeakMap(), lastMarked = new WeakSet();

export function write(element, text, name = "") {
  const is = `${name}\n${text}`;
  if (lastWritten.get(element) === is) return;
  lastWritten.set(element, is);
  element.textContent = text;
  element.className = name;
}

// What is typed stays as it is typed, until its input is left or it is taken back.
let typed = null;
export function notice(input) {
  typed = input;
  lastWritten.set(input, input.value);
}

export const isTypedIn = element => typed !== null && element.contains(typed);

// Answers whether anything was typed.
export function endTyping() {
  const was = typed;
  typed = null;
  return was !== null;
}

export function fill(input, text) {
  if (input === typed || lastWritten.get(input) === text) return;
  lastWritten.set(input, text);
  input.value = text;
}

// Marks an input whose text cannot be read, or no longer; `ids` are those of what says why.
export function mark(input, isBad, ids) {
  if (isBad === lastMarked.has(input)) return;
  lastMarked[isBad ? "add" : "delete"](input);
  const does = isBad ? "setAttribute" : "removeAttribute", names = { "aria-invalid": "true", "aria-describedby": ids };
  for (const [name, value] of Object.entries(names)) if (value) input[does](name, value);
}

export const number = (value, name) => [value === undefined ? "" : digits(value), `is ${value ? name : "none"}`.trim()];

// An input of a cell, which says by `data-cell` what it changes.
export function input(cell, label, more = {}) {
  const made = make("input", "", { inputMode: "numeric", autocomplete: "off", "aria-label": label, ...more });
  made.dataset.cell = cell;
  return made;
}

// A button that says by `data-act` what it does.
export function button(text, act, label) {
  const made = make("button", text, { "aria-label": label, title: label, className: "act" });
  made.dataset.act = act;
  return made;
}

// Lays something anew, with the focus where it was: on what is called the same.
export function keepingFocus(lays) {
  const it = focused(), { act, cell } = it?.dataset ?? {},
    name = act ? `[data-act="${act}"]` : cell ? `[data-cell="${cell}"]` : null;
  const [from, to] = cell && "selectionStart" in it ? [it.selectionStart, it.selectionEnd] : [null, null];
  lays();
  const found = name && find(name);
  found?.focus({ preventScroll: true });
  if (found && from !== null) found.setSelectionRange(from, to);
}

export function cellWith(...inside) {
  const made = make("td");
  made.append(...inside);
  return made;
}

export const head = (text, more = {}) => make("th", text, { scope: "col", ...more });

// Rows that are laid out by themselves stay rows of a table for a reader of the screen.
export function giveRoles(table) {
  for (const [what, role] of Object.entries({ tr: "row", "thead th": "columnheader", "tbody th": "rowheader",
    td: "cell" }))
    for (const it of table.querySelectorAll(what)) it.setAttribute("role", role);
}
