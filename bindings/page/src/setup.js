// The text of a setup, read for what is shown and edited; where a refusal says that a fault is; and the text with
// another number, or with its stores in another order. All else of the text stays as it is written.
import { MARK, MOST_READ, decode, encode, forecastOf, once, withColumnsSwapped } from "./texts.js";
import { placesOf, tomlIn } from "./toml.js";

const MOST_STORES = 16, HIGHEST = 1_000_000;

// The tables of a setup, of each its keys as texts; null where it is no TOML, has tables of other forms, or more stores
// than can be planned.
export const setupOf = once(octets => {
  if (octets.length > MOST_READ) return null;
  try {
    const document = tomlIn(plainOf(octets)), tables = Object.fromEntries(
      ["store", "route", "limit"].map(name => [name, document[name] ?? []]));
    const rows = Object.values(tables).flat(), isReadable = rows.every(it => placesOf(it))
      && tables.store.every(it => typeof it.id === "string" && "size" in it);
    if (!isReadable || !tables.store.length || tables.store.length > MOST_STORES) return null;
    return Object.fromEntries(Object.entries(tables).map(([name, list]) => [name, list.map(readRow)]));
  } catch {
    return null;
  }
});

const plainOf = octets => decode(octets).replace(MARK, "");
const markOf = octets => (decode(octets.slice(0, 3)) === MARK ? MARK : "");
const readRow = table =>
  ({ keys: Object.fromEntries(Object.entries(table).map(([key, value]) => [key, String(value?.date ?? value)])),
  places: placesOf(table) });

// A value as TOML: a number as it is typed, and anything else as a text, so that the library sees what was typed and
// says what is wrong with it.
function typedValue(typed) {
  try {
    if (["bigint", "number"].includes(typeof tomlIn(`a = ${typed}`).a)) return typed.trim();
  } catch {
    // It is no value.
  }
  return JSON.stringify(typed);
}

// The text of a setup with another number. A `start` that is not there comes after the size.
export function withNumber(octets, array, nth, key, typed) {
  const { keys, isInline } = setupOf(octets)[array][nth].places, text = plainOf(octets), value = typedValue(typed);
  const put = (from, to, words) => encode(markOf(octets) + text.slice(0, from) + words + text.slice(to));
  if (keys[key]) return put(keys[key].from, keys[key].to, value);
  const { to } = keys.size, end = text.indexOf("\n", to);
  if (isInline) return put(to, to, `, ${key} = ${value}`);
  return end < 0 ? put(text.length, text.length, `\n${key} = ${value}`)
    : put(end + 1, end + 1, `${key} = ${value}${text[end - 1] === "\r" ? "\r\n" : "\n"}`);
}

// The lines of a table: its own, and the comments right above it, but for those that the text begins with, which are of
// the whole text.
function linesOf(lines, starts, { from, keys }) {
  const lineAt = place => starts.findLastIndex(it => it <= place), head = lineAt(from);
  let first = head;
  while (first > 0 && lines[first - 1].trimStart().startsWith("#")) first--;
  return [first || head, lineAt(Math.max(from, ...Object.values(keys).map(it => it.to))) + 1];
}

// The text of a setup in which a store and the next one have changed places. The last line gets its end, since it may
// come before others.
function withStoresSwapped(octets, nth) {
  const plain = plainOf(octets), mark = markOf(octets),
    [one, next] = setupOf(octets).store.slice(nth, nth + 2).map(it => it.places);
  if (one.isInline) return encode(mark + plain.slice(0, one.from) + plain.slice(next.from, next.to)
    + plain.slice(one.to, next.from) + plain.slice(one.from, one.to) + plain.slice(next.to));
  const end = plain.endsWith("\n") ? "" : plain.includes("\r\n") ? "\r\n" : "\n", lines = (plain + end).split("\n"),
    starts = [0];
  for (const line of lines) starts.push(starts.at(-1) + line.length + 1);
  const [[first, ends], [begins, last]] = [one, next].map(it => linesOf(lines, starts, it));
  return encode(mark + [...lines.slice(0, first), ...lines.slice(begins, last), ...lines.slice(ends, begins),
    ...lines.slice(first, ends), ...lines.slice(last)].join("\n"));
}

// The texts in which a store has changed places with the next one.
export function withOrder({ setup, forecast }, nth) {
  const ids = setupOf(setup).store.slice(nth, nth + 2).map(({ keys }) => keys.id);
  return { setup: withStoresSwapped(setup, nth), forecast: withColumnsSwapped(forecast, ids) };
}

// Whether a store can be moved: the texts can be read here, and no plan is judged, which has the stores in the order
// that they had.
export const isMovable = ({ setup, forecast, given }) => given.length === 0 && setupOf(setup) !== null
  && forecastOf(forecast) !== null;

// Where a refusal says that the fault is: a cell of the forecast, or a key of a table of the setup; null where it is
// neither.
/** @param {Refusal} refusal */
export function placeOf({ number, row, column, words, hint }, setup, forecast) {
  const name = / name (\w+):/.exec(words)?.[1], table = /\btable (\d+) of (\w+)/.exec(hint),
    line = /\bline (\d+)\b/.exec(hint)?.[1];
  if (number === 31) return { row, column };
  if (number === 32) return { row, column: 1 };
  if ((number === 28 || number === 33) && table) return {
    array: table[2], nth: Number(table[1]) - 1, key: name ?? keyIn(hint) };
  if (number === 33 && ["window", "arrivals", "limit", "size"].includes(name)) return firstAbove(forecastOf(forecast));
  return number === 27 && line ? keyOn(setup, Number(line)) : null;
}

const keyIn = hint => /\bkey (\w+)/.exec(hint)?.[1] ?? /\b(\w+) =/.exec(hint)?.[1];

// The first number above 1,000,000, which the library refuses without saying where it is.
function firstAbove(read) {
  for (const [nth, record] of read?.records.entries() ?? []) {
    const at = record.findIndex((cell, column) => column > 0 && Number(cell) > HIGHEST);
    if (at > 0) return { row: nth + 1, column: at + 1 };
  }
  return null;
}

// The key whose value stands on a line.
function keyOn(setup, line) {
  const text = plainOf(setup), lineAt = place => text.slice(0, place).split("\n").length;
  for (const [array, rows] of Object.entries(setupOf(setup) ?? {}))
    for (const [nth, { places }] of rows.entries()) {
      const key = Object.keys(places.keys).find(it => lineAt(places.keys[it].from) === line);
      if (key) return { array, nth, key };
    }
  return null;
}
