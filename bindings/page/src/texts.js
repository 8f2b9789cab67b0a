// The texts of the library, read for what is shown and edited. What is planned is the texts alone: nothing here decides
// what they mean.
export const MARK = "\uFEFF";
// octets of a text that is read for what is shown; what a library takes is far shorter
export const MOST_READ = 1 << 20;
const MOST_ROWS = 256, MOST_COLUMNS = 42; // two, 16 stores, 8 limits and 16 sizes

// Octets that are no UTF-8 are shown as they can be, and stay as they are until their text is edited.
export const decode = octets => new TextDecoder("utf-8", { ignoreBOM: true }).decode(octets);
export const encode = text => new TextEncoder().encode(text);
export const NOTHING = new Uint8Array();

const GROUPED = new Intl.NumberFormat("en");
export const digits = number => (number >= 0 && number < 1000 ? `${number}` : GROUPED.format(number));

// The columns of a forecast with the size of a store in each step.
const SIZE = "size:";
export const isSize = name => name.startsWith(SIZE);
export const storeOfSize = name => name.slice(SIZE.length);
export const sizeName = id => SIZE + id;

const remembered = new WeakMap();

// What a function reads of a text, read once.
export function once(reads) {
  return octets => {
    const of = remembered.get(octets) ?? remembered.set(octets, new Map()).get(octets);
    if (!of.has(reads)) of.set(reads, reads(octets));
    return of.get(reads);
  };
}

// The cells of comma separated values (RFC 4180), without empty lines.
export function cellsIn(text) {
  if (!text.includes('"')) return text.split(/\r\n|\n|\r/).filter(line => line).map(line => line.split(","));
  const rows = [];
  let row = [], cell = "", isQuoted = false;
  const endRow = () => {
    if (row.length || cell) {
      row.push(cell);
      rows.push(row);
    }
    [row, cell] = [[], ""];
  };
  for (let at = 0; at < text.length; at++) {
    const it = text[at];
    if (isQuoted && it === '"' && text[at + 1] === '"') cell += text[++at];
    else if (it === '"' && (isQuoted || !cell)) isQuoted = !isQuoted;
    else if (!isQuoted && it === ",") {
      row.push(cell);
      cell = "";
    }
    else if (!isQuoted && (it === "\n" || it === "\r")) endRow();
    else cell += it;
  }
  endRow();
  return rows;
}

// The header and the records of a forecast; null where it is no table of at least a step, or larger than any that is
// planned.
export const forecastOf = once(octets => {
  if (octets.length > MOST_READ) return null;
  const [header = [], ...records] = cellsIn(decode(octets).replace(MARK, ""));
  const isSmall = records.length > 0 && records.length <= MOST_ROWS && header.length > 1
    && header.length <= MOST_COLUMNS;
  return isSmall && records.every(record => record.length === header.length) ? { header, records } : null;
});

// The text of a forecast with other cells: with the mark and the ends of lines that it had.
export function forecastText(before, { header, records }) {
  const text = decode(before), end = text.includes("\r\n") ? "\r\n" : "\n";
  const line = row => row.map(cell => (/[",\r\n]/.test(cell) ? `"${cell.replaceAll('"', '""')}"` : cell))
    .join(",") + end;
  return encode((text.startsWith(MARK) ? MARK : "") + [header, ...records].map(line).join(""));
}

export function withCells(octets, change) {
  const { header, records } = forecastOf(octets);
  return forecastText(octets, { header, records: records.map((record, nth) => change(record, nth + 1)) });
}

// The text of a forecast in which the columns of two stores have changed places, and those of their sizes.
export function withColumnsSwapped(octets, ids) {
  const { header, records } = forecastOf(octets), from = header.map((_, at) => at);
  for (const names of [ids, ids.map(sizeName)]) {
    const [one, other] = names.map(name => header.indexOf(name, 2));
    if (one >= 0 && other >= 0) [from[one], from[other]] = [other, one];
  }
  const swap = record => from.map(at => record[at]), isSame = from.every((place, at) => place === at);
  return isSame ? octets : forecastText(octets, { header: swap(header), records: records.map(swap) });
}

// The certificates of a plan: that of all stores, and of a plan in order then those of the first store, of the first
// two and so on. Of each how many blocks are lost, and the stretches of its cut.
export const certificatesOf = once(octets => {
  const found = [];
  for (const line of decode(octets).split("\n")) {
    const [kind, first, ...rest] = line.split(" ");
    if (kind === "loss") found.push({ loss: Number(first), stretches: [] });
    else if (kind === "stretch") found.at(-1)?.stretches.push({ id: first, steps: rest.map(Number) });
  }
  return found;
});

// What the table of a plan says: what each step does to each store, with the sums over stores and over steps.
/**
 * @param {Octets} octets
 * @returns {Records}
 */
export function recordsOf(octets) {
  const steps = [], stores = new Map();
  for (const line of decode(octets).split("\n").slice(1, -1)) {
    const [step, window, id, ...numbers] = line.split(",");
    const [arrived, lost, dumped, held] = numbers.map(Number);
    const row = (steps[Number(step) - 1] ??= { window: Number(window), arrived: 0, lost: 0, dumped: 0, held: 0,
      of: new Map() });
    const sums = stores.get(id) ?? stores.set(id, { arrived: 0, lost: 0, dumped: 0, held: 0, most: 0 }).get(id);
    for (const it of [row, sums]) {
      it.arrived += arrived;
      it.lost += lost;
      it.dumped += dumped;
    }
    row.held += held;
    sums.held = held;
    sums.most = Math.max(sums.most, held);
    row.of.set(id, { arrived, lost, dumped, held });
  }
  return { steps, stores };
}

// What each number is worth, of the library's table: the windows, sizes and limits, with the step of those that have
// one, or 0.
export function worthsIn(octets) {
  return cellsIn(decode(octets)).slice(1).map(([item, name, step, ...numbers]) => {
    const [now, next, most, without] = numbers.map(Number);
    return { item, name, step: Number(step), now, next, most, without };
  });
}

