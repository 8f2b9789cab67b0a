// Volumes, rates and moments as planners write them, each exact, by the rules of the Python package; and the faults of
// what cannot be one.
import { fraction, fractionOf, isLess, over, times } from "./fraction.js";
import { isShowable, momentIn, written } from "./moments.js";

const whole = it => fraction(BigInt(it));
const powers = (letters, form, base, by = 1n) => letters.map(
  (letter, nth) => [form(letter), fraction(BigInt(base) ** BigInt(nth + (letters[0] === "" ? 0 : 1)), by)]);
const OCTETS = new Map([
  ...["octet", "octets", "byte", "bytes", "B"].map(it => [it, whole(1)]),
    ...powers(["k", "M", "G", "T"], it => `${it}B`, 1000),
  ...powers(["K", "M", "G", "T"], it => `${it}iB`, 1024), ...powers(["", "k", "M", "G"], it => `${it}bit`, 1000, 8n),
]);
const BITS = new Map(["bit/s", "bps"].flatMap(name => powers(["", "k", "M", "G"], it => `${it}${name}`, 1000)));
const BLOCKS = ["block", "blocks"], SECONDS = { s: 1n, min: 60n, h: 3600n };
const PARTS = /^\s*([+-]?(?:\d+\/\d+|(?:\d+\.?\d*|\.\d+)(?:[eE][+-]?\d{1,3})?))\s*(\S*)\s*$/;
export const UNITS = [["kB", "MB", "GB", "TB"], ["KiB", "MiB", "GiB", "TiB"]];
const ZONE = "a moment in UTC with its zone, as 2027-03-01T12:00:00Z";
const VOLUME =
  'a volume: octets as a number, or a text with its unit, as "512 MB", "488 MiB", "96 Mbit" or "3000 blocks"';
const RATE = 'a rate: bits a second as a number, or a text with its unit, as "64 kbit/s", "2 Mbit/s" or "7.5 blocks/s"';

// What is wrong: the place where it is, what was found there, and what is meant.
export class Faults extends Error {
  constructor(list) {
    super(list.map(
      it => (it.place ? `${it.place}: found ${it.found}; expected ${it.meant}`
      : `found ${it.found}; expected ${it.meant}`)).join("\n"));
    this.list = list;
  }
}

/** @returns {never} */
export function refuse(place, found, meant) {
  throw new Faults([{ place, found, meant }]);
}

// The first fault of several is not the last: keeps those that are found, and tells them together.
export function gathering() {
  const list = [];
  return {
    list,
    of(make, ...given) {
      try {
        return make(...given);
      } catch (fault) {
        if (!(fault instanceof Faults)) throw fault;
        list.push(...fault.list);
        return null;
      }
    },
    end() { if (list.length) throw new Faults(list); },
  };
}

// A value as Python writes it.
export function shownValue(it) {
  if (typeof it === "string") {
    const plain = it.replaceAll("\\", "\\\\").replaceAll("\n", "\\n").replaceAll("\r", "\\r").replaceAll("\t", "\\t");
    return it.includes("'") && !it.includes('"') ? `"${plain}"` : `'${plain.replaceAll("'", "\\'")}'`;
  }
  if (typeof it === "boolean") return it ? "True" : "False";
  if (typeof it === "number") return Number.isInteger(it) && Math.abs(it) < 1e16 ? `${it}.0`
    : String(it).replace("Infinity", "inf").replace("NaN", "nan");
  if (Array.isArray(it)) return `[${it.map(shownValue).join(", ")}]`;
  if (it?.date) return it.date;
  const isTable = it && typeof it === "object";
  const pairs = isTable ? Object.entries(it).map(([key, value]) => `'${key}': ${shownValue(value)}`) : null;
  if (pairs) return `{${pairs.join(", ")}}`;
  return String(it);
}

// A number of 0 or more, as it is written: 2.048 is 2048/1000.
function numberOf(given, place, meant) {
  const value = ["string", "number", "bigint"].includes(typeof given) ? fractionOf(String(given)) : null;
  return value === null || value.n < 0n ? refuse(place, shownGiven(given), meant) : value;
}

export const shownGiven = given => (typeof given === "string" ? given : shownValue(given));

/** @returns {[Fraction, string]} */
function partsOf(given, place, meant) {
  if (typeof given !== "string") return [numberOf(given, place, meant), ""];
  const found = PARTS.exec(given);
  return found ? [numberOf(found[1], place, meant), found[2]] : refuse(place, given, meant);
}

// What may be meant by a unit that is none.
function unitMeant(unit, known) {
  const low = unit.toLowerCase(), short = low.endsWith("ib") ? low.replaceAll("i", "") : low;
  // Megabits may be meant by Mb, and by Mb/s.
  const bits = low.replace(/b(?=\/s$|$)/, "bit");
  const near = [...known.keys()].filter(it => [low, short, bits].includes(it.toLowerCase())
    || it.toLowerCase().replaceAll("ib", "b") === short);
  const inFull = it => (known === BITS ? `${Number(known.get(it).n).toLocaleString("en")} bits a second`
    : `${decimal(known.get(it))} octets`);
  return near.length ? near.map(it => `${it} (${inFull(it)})`).join(" or ") : null;
}

const decimal = ({ n, d }) => (d === 1n ? String(n) : String(Number(n) / Number(d)));

// What is meant by a rate in bytes: 8 times as many bits.
function bytesMeant(amount, unit) {
  const name = unit.replace(unit.endsWith("/s") ? /\/s$/ : /ps$/, ""), octets = OCTETS.get(name === "KB" ? "kB" : name);
  if (name === unit || !octets || name.includes("bit")) return null;
  const bits = times(times(amount, octets), whole(8)),
    power = [3, 2, 1].find(it => !isLess(bits, whole(1000 ** it))) ?? 0, { n, d } = over(bits, whole(1000 ** power)),
    shown = d === 1n ? String(n) : String(Number((Number(n) / Number(d)).toPrecision(10)));
  return `bits a second: ${shown} ${["", "k", "M", "G"][power]}bit/s, where a byte has 8`;
}

// A volume: its amount in octets, or in blocks, and the unit that it was written in.
export function volumeOf(given, place) {
  const [amount, unit] = partsOf(given, place, VOLUME);
  if (BLOCKS.includes(unit)) return { amount, isBlocks: true, unit };
  if (unit && !OCTETS.has(unit)) return refuse(place, shownGiven(given), unitMeant(unit, OCTETS) ?? VOLUME);
  return { amount: times(amount, OCTETS.get(unit) ?? whole(1)), isBlocks: false, unit };
}

// A rate: its amount in bits a second, or in blocks a second.
export function rateOf(given, place) {
  const [amount, unit] = partsOf(given, place, RATE), [name, second] = unit.split("/");
  if (BLOCKS.includes(name) && second in SECONDS && unit === `${name}/${second}`) return {
    amount: over(amount, fraction(SECONDS[second])), isBlocks: true };
  if (unit && !BITS.has(unit)) return refuse(place, shownGiven(given),
    bytesMeant(amount, unit) ?? unitMeant(unit, BITS) ?? RATE);
  return { amount: times(amount, BITS.get(unit) ?? whole(1)), isBlocks: false };
}

export const blocksOf = ({ amount, isBlocks }, octets) => (isBlocks ? amount : over(amount, whole(octets)));
export const blocksASecond = ({ amount, isBlocks }, octets) => (isBlocks ? amount : over(amount, whole(8 * octets)));

// A whole number: one as it is, one with a point that is whole, or the text of one.
export function wholeNumberOf(given, place) {
  if (typeof given === "bigint") return given;
  const value = ["string", "number"].includes(typeof given) ? fractionOf(String(given)) : null;
  return value?.d === 1n ? value.n : refuse(place, shownGiven(given), "a whole number");
}

// A time of a day as Python shows it.
function shownTime(text) {
  const [hour, minute, second, part = ""] = text.split(/[:.]/), micro = Number(part.slice(0, 6).padEnd(6, "0"));
  const more = micro ? [second, micro] : Number(second) ? [second] : [];
  return `datetime.time(${[hour, minute, ...more].map(Number).join(", ")})`;
}

function shownZone(offset) {
  const minutes = Math.floor(Math.abs(offset) / 60_000_000), two = it => String(it).padStart(2, "0");
  return `${offset < 0 ? "-" : "+"}${two(Math.floor(minutes / 60))}:${two(minutes % 60)}`;
}

const plainTime = time => written(time).slice(0, -1).replace("T", " ");
const LEAP = "; a leap second, 23:59:60, is no moment here: take the second before it or after it";

// A moment of a mission, which has a zone.
export function zonedOf(given, place) {
  const text = given?.date ?? given;
  if (typeof text !== "string") return refuse(place, shownGiven(given), `${ZONE}, and no such value`);
  const isPlain = given?.date !== undefined, found = momentIn(
    isPlain ? text.replace(/^(\S{10})[t ]/, "$1T").replace(/z$/, "Z") : text);
  if (isPlain && (!found || found.isDate)) return refuse(
    place, /^\d{4}-/.test(text) ? text : shownTime(text),
    `${ZONE}, and no ${/^\d{4}-/.test(text) ? "date" : "such value"}`);
  if (!found || /^\d{4}-\d{3}(?!T)/.test(text.trim().replace(/^\d{4}-\d\d-/, ""))) return refuse(
    place, shownValue(text.trim()), `${ZONE}${/T?\d\d:\d\d:60/.test(text) ? LEAP : ""}`);
  if (found.offset === null) return refuse(
    place, `the local time ${plainTime(found.time)}`, `${ZONE}; write Z after it if it is in UTC`);
  const moment = found.time - found.offset;
  return isShowable(moment) ? moment
    : refuse(place, `${plainTime(found.time)}${shownZone(found.offset)}`,
    "a moment from the year 1 to the year 9999 in UTC");
}
