// A mission as planners write it, `mission.toml` with its CSV files, by the rules of the Python package: stores,
// stations, passes and observations in UTC. Each fault has its file and line.
import { ceil, floor } from "./fraction.js";
import { written } from "./moments.js";
import { MARK } from "./texts.js";
import { TomlFault, tomlIn } from "./toml.js";
import { Faults, UNITS, blocksOf, gathering, rateOf, refuse, shownGiven, shownValue, volumeOf,
  wholeNumberOf, zonedOf } from "./units.js";

const PACKET = 1024, MOST_BLOCK = 2 ** 20, STORES_AT_MOST = 16, OVERLAPS = ["both", "better"];
const IDENTIFIER = /^[A-Z0-9_-]{1,8}$/, TYPES = ["bounded", "circular"];
const TOP_KEYS = ["name", "begin", "end", "packet", "block", "overlap", "unit"];
// What reads the keys at the top that are no names.
const READ = { begin: zonedOf, end: zonedOf, packet: wholeNumberOf, block: wholeNumberOf, unit: wholeNumberOf };
const CHANNELS = 'the rates of channels, as {1 = "20 kbit/s"}';

const counted = number => number.toLocaleString("en");

// The tables of a mission by their keys in a file: the plural, what a row is called, its columns and those that it
// needs.
const PARTS_OF = {
  store: { plural: "stores", name: "PacketStore", columns: ["id", "size", "type", "channel", "holds", "packet"],
    needed: ["id", "size"], make: storeOf },
  station: { plural: "stations", name: "Station", columns: ["name", "rate", "channels"], needed: ["name"],
    make: stationOf },
  pass: { plural: "passes", name: "Pass", columns: ["station", "begin", "end", "rate", "channels", "name"],
    needed: ["station", "begin", "end"], make: passOf },
  observation: { plural: "observations", name: "Observation",
    columns: ["store", "begin", "end", "rate", "volume", "name"], needed: ["store", "begin", "end"],
    make: observationOf },
};
const PLURALS = Object.values(PARTS_OF).map(it => it.plural);

// ---- Parts

function storeOf({ id, size, type = "bounded", channel = 0n, holds = 0n, packet }, place) {
  const faults = gathering(), made = { id, type, place };
  made.channel = faults.of(wholeNumberOf, channel, `${place}, channel`);
  made.packet = packet === undefined ? null : faults.of(wholeNumberOf, packet, `${place}, packet`);
  made.size = faults.of(volumeOf, size, `${place}, size`);
  made.holds = faults.of(volumeOf, holds, `${place}, holds`);
  faults.end();
  return made;
}

const maybeRate = (given, place) => (given === undefined ? null : rateOf(given, place));

const isMapping = it => typeof it === "object" && it !== null && !Array.isArray(it) && !it.date;
// What Python takes for nothing.
const isNothing = it => !it || (Array.isArray(it) && !it.length);

function numberIn(text) {
  try {
    return wholeNumberOf(text, "");
  } catch {
    return null;
  }
}

function channelRates(given = {}, place) {
  if (isNothing(given)) return {};
  if (!isMapping(given)) refuse(place, shownGiven(given), CHANNELS);
  /** @type {Record<string, object>} */
  const found = {};
  for (const [channel, rate] of Object.entries(given)) {
    const number = numberIn(channel);
    if (number === null || number < 0n || number > 7n || String(number) in found) refuse(
      place, `channel ${channel}`, "channels from 0 to 7, each once");
    found[String(number)] = rateOf(rate, `${place}, channel ${channel}`);
  }
  return found;
}

function stationOf({ name, rate, channels }, place) {
  const faults = gathering(), made = { name, place, rate: faults.of(maybeRate, rate, `${place}, rate`),
    channels: faults.of(channelRates, channels, `${place}, channels`) };
  faults.end();
  return made;
}

function spanIn(faults, { begin, end }, place, what) {
  const made = { begin: faults.of(zonedOf, begin, `${place}, begin`), end: faults.of(zonedOf, end, `${place}, end`) };
  if (made.begin !== null && made.end !== null && made.end <= made.begin)
    faults.of(refuse, place, `begin ${written(made.begin)} and end ${written(made.end)}`,
      `${what} that ends after it begins`);
  return made;
}

// A pass. What was given of its rates stays with it, since a pass is written again.
/** @param {{ station?: any, begin?: any, end?: any, rate?: any, channels?: any, name?: string }} given */
export function passOf({ station, begin, end, rate, channels, name = "" }, place) {
  const faults = gathering(), span = spanIn(faults, { begin, end }, place, "a pass");
  const made = { station, name, place, ...span, rate: faults.of(maybeRate, rate, `${place}, rate`),
    channels: faults.of(channelRates, channels, `${place}, channels`), given: { rate, channels } };
  faults.end();
  return made;
}

function observationOf({ store, begin, end, rate, volume, name = "" }, place) {
  const faults = gathering(), span = spanIn(faults, { begin, end }, place, "an observation");
  const made = { store, name, place, ...span, rate: faults.of(maybeRate, rate, `${place}, rate`),
    volume: volume === undefined ? null : faults.of(volumeOf, volume, `${place}, volume`) };
  if ((rate === undefined) === (volume === undefined)) faults.of(
    refuse, place, rate === undefined ? "no rate and no volume" : "a rate and a volume", "one of rate and volume");
  faults.end();
  return made;
}

const isMissing = it => it === undefined || it === null || Number.isNaN(it);

const CHANNEL = /^channel:([0-7])$/;

// The parts of rows that are right; the faults of the others are kept. A key that is none is named once.
function partsOfRows(kind, placed, inside, faults) {
  const { columns } = PARTS_OF[kind], named = new Set();
  return placed.map(([place, row]) => {
    const found = Object.fromEntries(Object.entries(row).filter(([, value]) => !isMissing(value)));
    const strange = Object.keys(found)
      .filter(key => !columns.includes(key) && !(CHANNEL.test(key) && columns.includes("channels")));
    for (const key of strange) {
      if (!named.has(key)) faults.of(
        refuse, inside(place, key), `the key ${key}`, `one of ${columns.join(", ")}`);
      named.add(key);
      delete found[key];
    }
    const part = faults.of(partOf, kind, found, place, inside);
    return strange.length ? null : part;
  }).filter(Boolean);
}

// A part of its fields.
function partOf(kind, found, place, inside) {
  const { columns, needed, make } = PARTS_OF[kind], rates = {};
  for (const key of Object.keys(found).filter(it => CHANNEL.test(it))) {
    rates[CHANNEL.exec(key)[1]] = found[key];
    delete found[key];
  }
  const lacking = needed.find(key => !(key in found));
  if (lacking) refuse(place, `no ${lacking}`, `${lacking}, beside ${columns.filter(it => it !== lacking).join(", ")}`);
  for (const key of ["id", "type", "name", "station", "store"]) if (
    key in found && typeof found[key] !== "string") refuse(
    inside(place, key), shownValue(found[key]), "a text in quotes");
  if (Object.keys(rates).length) {
    if ("channels" in found && !isMapping(found.channels)) refuse(
      inside(place, "channels"), shownValue(found.channels), CHANNELS);
    found.channels = { ...found.channels, ...rates };
  }
  try {
    return make(found, place);
  } catch (fault) {
    if (!(fault instanceof Faults)) throw fault;
    throw new Faults(
      fault.list.map(
      it => (it.place === place ? it : { ...it, place: inside(
      place, it.place.slice(place.length + 2).split(",")[0]) })));
  }
}

// ---- Files

// Where the tables and keys of a text stand.
function placesIn(file, text) {
  const keys = new Map(), rows = {};
  let table = "", number = 0;
  for (const [nth, words] of text.split(/\r\n|\n|\r/).entries()) {
    const head = /^\s*\[\[\s*([\w-]+)\s*\]\]/.exec(words), key = /^\s*"?([\w-]+)"?\s*(?:\.|=)/.exec(words);
    if (head) {
      table = head[1];
      number = (rows[table] ??= []).push(nth + 1);
    } else if (key && !keys.has(`${table} ${number} ${key[1]}`)) keys.set(`${table} ${number} ${key[1]}`, nth + 1);
  }
  const row = (kind, nth) => (nth <= (rows[kind]?.length ?? 0) ? `${file}, line ${rows[kind][nth - 1]}`
    : `${file}, ${kind} ${nth}`);
  const keyAt = name => {
    const line = keys.get(` 0 ${name}`) ?? rows[name]?.[0];
    return line ? `${file}, line ${line}, ${name}` : `${file}, ${name}`;
  };
  const inside = kind => (place, name) => {
    const nth = (rows[kind] ?? []).findIndex(line => place === `${file}, line ${line}`),
      line = nth < 0 ? null : keys.get(`${kind} ${nth + 1} ${name}`);
    return line ? `${file}, line ${line}, ${name}` : `${place}, ${name}`;
  };
  // The place of a key of the file, or of one of its tables, which is named after that of the file or of the table.
  const found = place => {
    const cut = place.lastIndexOf(", "), [whole, name] = [place.slice(0, cut), place.slice(cut + 2)];
    if (cut < 0) return place;
    if (whole === file && /^[A-Za-z_]\w*$/.test(name)) return keyAt(name);
    return Object.keys(rows).map(kind => inside(kind)(whole, name)).find(it => it !== place) ?? place;
  };
  return { row, key: keyAt, inside, found };
}

function strictText(octets, name, meant) {
  try {
    return new TextDecoder("utf-8", { fatal: true, ignoreBOM: true }).decode(octets).replace(MARK, "");
  } catch {
    return refuse(name, "octets that are no UTF-8", meant);
  }
}

// The records of comma separated values, each with the line on which it ends.
function csvIn(text) {
  const rows = [];
  let row = [], cell = "", isQuoted = false, line = 1, isBegun = false;
  const end = () => {
    if (isBegun) row.push(cell);
    rows.push({ cells: row, line });
    [row, cell, isBegun] = [[], "", false];
  };
  for (let at = 0; at < text.length; at++) {
    const it = text[at], isEnd = it === "\n" || it === "\r";
    if (isQuoted && it === '"' && text[at + 1] === '"') cell += text[++at];
    else if (it === '"' && (isQuoted || !cell)) [isQuoted, isBegun] = [!isQuoted, true];
    else if (!isQuoted && it === ",") {
      row.push(cell);
      [cell, isBegun] = ["", true];
    } else if (!isQuoted && isEnd) end();
    else [cell, isBegun] = [cell + it, true];
    if (it === "\r" && text[at + 1] === "\n") {
      at++;
      if (isQuoted) cell += "\n";
    }
    if (isEnd) line++;
  }
  // A record that is not ended ends with the last line.
  if (/[\r\n]$/.test(text)) line--;
  if (isBegun) end();
  return rows;
}

function csvParts(kind, name, octets, faults) {
  if (!octets) return faults.of(refuse, name, "No such file or directory", "a CSV file in UTF-8 that can be read")
    ?? [];
  const text = faults.of(strictText, octets, name, "a CSV file in UTF-8 that can be read"), placed = [];
  if (text === null) return [];
  const [first, ...rows] = csvIn(text), header = (first?.cells ?? []).map(it => it.trim());
  const double = [...new Set(header.filter((it, nth) => header.indexOf(it) !== nth))].sort();
  if (double.length) return faults.of(
    refuse, `${name}, line 1`, `the column ${double.join(", ")} twice`, "each column once") ?? [];
  for (const { cells, line } of rows) {
    const place = `${name}, line ${line}`;
    if (!cells.some(it => it.trim())) continue;
    if (cells.length !== header.length) faults.of(refuse, place, `${cells.length} cells`,
      `${header.length}, as in the header ${header.join(",")}`);
    else placed.push([place, Object.fromEntries(cells.map((it, nth) => [header[nth], it.trim()]).filter(it => it[1]))]);
  }
  if (!header.length) faults.of(refuse, name, "no header",
    `a header with the columns ${PARTS_OF[kind].columns.join(", ")}`);
  return partsOfRows(kind, placed, (at, key) => `${at}, column ${key}`, faults);
}

function partsIn(kind, given, files, places, faults) {
  const { plural } = PARTS_OF[kind], found = given[kind] ?? [],
    isRows = Array.isArray(found) && found.every(it => it && typeof it === "object" && !Array.isArray(it) && !it.date);
  if (!isRows) faults.of(refuse, places.key(kind), `${kind} = ${shownValue(found)}`, `tables, each below [[${kind}]]`);
  const placed = (isRows ? found : []).map((row, nth) => [places.row(kind, nth + 1), row]),
    parts = partsOfRows(kind, placed, places.inside(kind), faults);
  if (!(plural in given)) return parts;
  if (typeof given[plural] === "string") return [...parts,
    ...csvParts(kind, given[plural], files.get(given[plural].split("/").at(-1)), faults)];
  faults.of(refuse, places.key(plural), shownValue(given[plural]), "the name of a CSV file");
  return parts;
}

function routesIn(given, places, faults) {
  const keys = ["apid", "service", "subtype", "store"],
    isRoute = row => row && typeof row === "object" && Object.keys(row).length === 4 && keys.every(key => key in row);
  const rows = Array.isArray(given) ? given : [given];
  rows.forEach((row, nth) => isRoute(row) || faults.of(
    refuse, places.row("route", nth + 1), shownValue(row), "apid, service, subtype and store"));
  return rows.filter(isRoute).map(row => Object.fromEntries(keys.map(key => [key, row[key]])));
}

// Whether a TOML text is of a mission and not of a setup.
const MISSION = [
  /^\s*\[\[\s*(?:pass|station|observation)\s*\]\]/m, /^\s*(?:passes|stations|observations|stores)\s*=/m,
  /^\s*\[\[\s*store\s*\]\][^[]*^\s*(?:holds|packet)\s*=/m,
];
export const isMissionText = text => MISSION.some(it => it.test(text));

// The files that a mission names.
export function filesNamedBy(text) {
  try {
    const given = tomlIn(text);
    return PLURALS.map(it => given[it]).filter(it => typeof it === "string");
  } catch {
    return [];
  }
}

// The mission that a file says, with the files that it names. Throws all faults.
export function missionIn(file, files) {
  const text = strictText(files.get(file), file, "a TOML document in UTF-8"), places = placesIn(file, text),
    faults = gathering();
  let given;
  try {
    given = tomlIn(text);
  } catch (fault) {
    throw fault instanceof TomlFault
      ? new Faults([{ place: file, found: fault.message, meant: "a TOML document (toml.io)" }]) : fault;
  }
  const keys = [...TOP_KEYS, ...Object.keys(PARTS_OF), "route", ...PLURALS],
    told = [...TOP_KEYS, ...Object.keys(PARTS_OF)].join(", ");
  for (const key of Object.keys(given)) if (!keys.includes(key)) faults.of(
    refuse, places.key(key), `the key ${key}`, `one of ${told}, or the name of a CSV file as ${PLURALS.join(", ")}`);
  const plain = Object.fromEntries(TOP_KEYS.filter(key => key in given).map(key => [key, given[key]]));
  for (const [key, make] of Object.entries(READ)) if (key in plain) plain[key] = faults.of(
    make, plain[key], places.key(key)) ?? undefined;
  const parts = Object.fromEntries(Object.keys(PARTS_OF)
    .map(kind => [PARTS_OF[kind].plural, partsIn(kind, given, files, places, faults)]));
  const routes = "route" in given ? routesIn(given.route, places, faults) : [];
  faults.end();
  try {
    return made({ ...plain, ...parts, routes }, file);
  } catch (fault) {
    if (!(fault instanceof Faults)) throw fault;
    throw new Faults(fault.list.map(it => ({ ...it, place: places.found(it.place) })));
  }
}

// ---- The whole

function made({ stores, passes, observations, stations, routes, begin, end, packet = BigInt(PACKET),
  block = BigInt(PACKET), overlap = null, name = "", unit = 0n }, place) {
  const spans = [...passes, ...observations];
  if (!spans.length && (begin === undefined || end === undefined)) refuse(
    place, "no begin and end, no pass and no observation", "a mission with passes, or with begin and end");
  const from = begin ?? Math.min(...spans.map(it => it.begin)), to = end ?? Math.max(...spans.map(it => it.end));
  const it = { stores, stations, routes, begin: from, end: to, packet, block, overlap, name, unit,
    passes: named(passes, from, to), observations: within(observations, from, to) };
  const found = [...faultsOf(it, place)];
  if (found.length) throw new Faults(found);
  return { ...it, packet: Number(packet), block: Number(block), stores: stores.map(store =>
    ({ ...store, channel: Number(store.channel), packet: store.packet && Number(store.packet) })) };
}

// The passes that lie in this time, in its order, each with a name: its own, or that of its station and a number.
export function named(passes, begin, end) {
  const counts = new Map(), inOrder = passes.toSorted((a, b) => a.begin - b.begin || a.end - b.end);
  const all = inOrder.map(it => {
    counts.set(it.station, (counts.get(it.station) ?? 0) + 1);
    return it.name ? it : { ...it, name: `${it.station} ${counts.get(it.station)}` };
  });
  return within(all, begin, end);
}

// What lies in this time.
const within = (parts, begin, end) => parts.filter(it => it.begin < end && it.end > begin);

export const packetOf = ({ packet }, store) => store.packet || packet;

// The packets that a store has room for, and those that it holds as the mission begins: its size falls to whole blocks,
// each with room for one packet, and what it holds rises.
export const sizeOf = ({ block }, { size }) => floor(blocksOf(size, block));
export const heldIn = (mission, store) => ceil(blocksOf(store.holds, packetOf(mission, store)));

function* faultsOf(mission, place) {
  const { begin, end, overlap, name, unit } = mission;
  if (end <= begin) yield { place, found: `begin ${written(begin)} and end ${written(end)}`,
    meant: "a mission that ends after it begins" };
  if (overlap !== null && !OVERLAPS.includes(overlap)) yield { place: `${place}, overlap`, found: shownValue(overlap),
    meant: "'both' or 'better'" };
  if (typeof name !== "string") yield { place: `${place}, name`, found: shownValue(name), meant: "a text" };
  if (unit < 0n) yield { place: `${place}, unit`, found: shownValue(unit),
    meant: "packets from 1, or 0 where it is chosen" };
  const wrong = [["packet", PACKET], ["block", MOST_BLOCK]]
    .filter(([what, most]) => mission[what] < 1n || mission[what] > most)
    .map(([what, most]) => ({ place: `${place}, ${what}`, found: shownValue(mission[what]),
      meant: `octets from 1 to ${counted(most)}` }));
  yield* wrong;
  if (!wrong.length) yield* storeFaults(mission, place);
  yield* nameFaults(mission);
  yield* passFaults(mission);
  yield* rowFaults(mission);
  yield* unitFaults(mission);
}

// What the library refuses in stores.
function* storeFaults(mission, place) {
  const { stores, block } = mission;
  if (!stores.length || stores.length > STORES_AT_MOST) yield { place,
    found: stores.length ? `${stores.length} stores` : "no store", meant: `1 to ${STORES_AT_MOST} stores` };
  for (const { id, type, channel, packet, place: at } of stores) {
    const octets = packetOf(mission, { packet });
    if (!IDENTIFIER.test(id)) yield { place: `${at}, id`, found: shownValue(id),
      meant: "an identifier of 1 to 8 of the characters A-Z, 0-9, _ and -" };
    if (!TYPES.includes(type)) yield { place: `${at}, type`, found: shownValue(type),
      meant: "'bounded' or 'circular'" };
    if (channel < 0n || channel > 7n) yield { place: `${at}, channel`, found: shownValue(channel),
      meant: "a channel from 0 to 7" };
    if (packet !== null && (packet < 1n || packet > PACKET)) yield { place: `${at}, packet`, found: shownValue(packet),
      meant: `octets from 1 to ${counted(PACKET)}` };
    else if (octets > block) yield { place: `${at}, packet`, found: `${octets} octets`,
      meant: `at most the ${block} of a block` };
  }
  if (!stores.some(it => it.packet !== null && it.packet < 1n)) yield* sizeFaults(mission);
}

// Stores without room for a packet, and such as hold more than they have room for.
function* sizeFaults(mission) {
  for (const store of mission.stores) {
    const size = sizeOf(mission, store), held = heldIn(mission, store);
    if (size < 1n) yield { place: `${store.place}, size`, found: `${counted(size)} blocks of ${mission.block} octets`,
      meant: "at least one block" };
    else if (held > size) yield { place: `${store.place}, holds`,
      found: `${counted(held)} packets of ${packetOf(mission, store)} octets`,
      meant: `at most its size, ${counted(size)} blocks` };
  }
}

// Passes that overlap: of one station, or where nothing is said of them.
function* passFaults({ passes, overlap }) {
  for (const [nth, one] of passes.entries()) {
    const meets = passes.slice(0, nth).reverse().filter(it => one.begin < it.end),
      other = meets.find(it => it.station === one.station || overlap === null);
    if (!other) continue;
    const found = `${one.name} from ${written(one.begin)}, which overlaps ${other.name} (${other.place})`;
    if (other.station !== one.station) yield { place: one.place, found, meant: BOTH_MEANT };
    else if (one.begin !== other.begin || one.end !== other.end) yield { place: one.place, found,
      meant: `one pass over ${one.station} at a time` };
  }
}

const BOTH_MEANT = 'overlap = "both" of the mission, where each pass has a transmitter of its own, or "better", where '
  + "there is one for all";

// Rows that come twice.
function* rowFaults({ passes, observations }) {
  const amount = it => (it ? [`${it.amount.n}/${it.amount.d}`, it.isBlocks, it.unit ?? ""] : null), earlier = new Map();
  const rows = [...passes.map(it => [["pass", it.station, it.begin, it.end], it.place]),
    ...observations.map(it =>
      [["observation", it.store, it.begin, it.end, amount(it.rate), amount(it.volume), it.name], it.place])];
  for (const [fields, place] of rows) {
    const row = JSON.stringify(fields);
    if (earlier.has(row)) yield { place, found: `the same row as ${earlier.get(row)}`,
      meant: "each pass and each observation once" };
    else earlier.set(row, place);
  }
}

function* nameFaults({ stores, stations, passes, observations }) {
  const ids = stores.map(it => it.id), of = new Map(stations.map(it => [it.name, it]));
  for (const it of observations) if (!ids.includes(it.store)) yield {
    place: `${it.place}, store`, found: `the store ${shownValue(it.store)}`,
    meant: `one of the stores ${ids.join(", ")}` };
  for (const it of passes) {
    if (of.size && !of.has(it.station)) yield { place: `${it.place}, station`,
      found: `the station ${shownValue(it.station)}`, meant: `one of the stations ${[...of.keys()].join(", ")}` };
    else if (it.rate === null && !of.get(it.station)?.rate) yield {
      place: `${it.place}, rate`, found: "no rate", meant: `a rate of the pass, or of the station ${it.station}` };
  }
  yield* twice(stores.map(it => [it.id, it.place]));
  yield* twice(stations.map(it => [it.name, it.place]));
  yield* twice(passes.map(it => [it.name, it.place]));
}

function* twice(names) {
  const earlier = new Map();
  for (const [name, place] of names) {
    if (earlier.has(name)) yield { place, found: `the name ${shownValue(name)}, which ${earlier.get(name)} has too`,
      meant: "another name for each" };
    else earlier.set(name, place);
  }
}

// Units of 1000 beside those of 1024: one of them is a slip.
function* unitFaults({ stores, observations }) {
  const volumes = [...stores.map(it => [it.size, `${it.place}, size`]),
    ...stores.map(it => [it.holds, `${it.place}, holds`])];
  volumes.push(...observations.filter(it => it.volume).map(it => [it.volume, `${it.place}, volume`]));
  const [first, second] = UNITS.map(units => volumes.find(([volume]) => units.includes(volume.unit)));
  if (first && second)
    yield { place: second[1], found: `the unit ${second[0].unit}, beside ${first[0].unit} at ${first[1]}`,
      meant: "units of 1000 octets (kB, MB, GB) alone, or of 1024 (KiB, MiB, GiB) alone" };
}
