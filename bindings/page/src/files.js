// Files that are opened: what each of them is, and the session that they make together. A file of which nothing is
// known replaces nothing.
import { problemOf } from "./edges.js";
import { filesNamedBy, isMissionText, missionIn } from "./mission.js";
import { textOf } from "./moments.js";
import { missionPasses, withWindowsOf } from "./passes.js";
import { EMPTY, fromJson } from "./session.js";
import { MARK, NOTHING, decode, encode } from "./texts.js";
import { Faults } from "./units.js";

const SESSION = /<script type="application\/json" id="session">([^<]*)<\/script>/;
const MOST_FILES = 200, MOST_OCTETS = 1 << 26, WHOLE_KINDS = ["session", "page", "mission"];
const OPENED =
  "Opened are a setup or a mission (.toml), a forecast (.csv), a plan, and what this page saved (.json, .html).";

// The header of the table of a plan, which is nothing to be planned.
const TABLE = /^step,window,store,arrived,lost,dumped,held\b/;

// What a file is, by its first words and its name; null where it is nothing that the page opens.
function kindOf(name, octets) {
  const text = decode(octets.slice(0, 65536)).replace(MARK, ""), ends = end => name.toLowerCase().endsWith(end);
  if (!text.trim() || TABLE.test(text)) return null;
  if (ends(".json")) return "session";
  if (ends(".html") || ends(".htm")) return "page";
  if (/^mmplan /.test(text)) return "given";
  if (text.includes("\0") && !ends(".toml") && !ends(".csv")) return null;
  if (/^"?step"?,/.test(text)) return "forecast";
  if (ends(".csv")) return "csv";
  if (ends("mission.toml") || (ends(".toml") && isMissionText(text))) return "mission";
  return ends("setup.toml") || /^\s*(\[\[\s*store\s*\]\]|store\s*=)/m.test(text) ? "setup" : null;
}

// The files with their kinds; a folder, or a file that cannot be read, has none.
export async function readFiles(files) {
  return Promise.all(Array.from(files, async file => {
    try {
      if (file.size > MOST_OCTETS) return { name: file.name, kind: null };
      const octets = new Uint8Array(await file.arrayBuffer());
      return { name: file.name, octets, kind: kindOf(file.name, octets) };
    } catch {
      return { name: file.name, kind: null };
    }
  }));
}

// The session of a mission with its CSV files.
export function missionSession(file, files) {
  const mission = missionIn(file, files), problem = problemOf(mission),
    { setup, forecast, edges, unit } = problem;
  const session = { ...EMPTY, setup: encode(setup), forecast: encode(forecast), name: mission.name,
    edges: edges.map(it => it + mission.begin), begins: textOf(mission.begin),
    mission: { file, files: Object.fromEntries(files) }, unit: Number(unit.count),
    packet: mission.packet, isInBlocks: false,
      passes: missionPasses(mission, problem) };
  return { session: withWindowsOf(session), unit };
}

// A mission's fault in a sentence: its first faults, and how many there are.
function faultsSentence(fault) {
  if (!(fault instanceof Faults)) throw fault;
  const [first, ...others] = fault.list;
  const more = others.length ? ` ${others.length} more: ${others.slice(0, 3).map(it => it.place).join("; ")}.` : "";
  return `${first.place ? `${first.place}: ` : ""}found ${first.found}; expected ${first.meant}.${more}`;
}

// Which files cannot be opened together, in words: two of a kind, or one beside another that is whole by itself.
function beside(read) {
  const names = kinds => read.filter(it => kinds.includes(it.kind)).map(it => it.name), whole = names(WHOLE_KINDS);
  const isMission = names(["mission"]).length > 0, others = [...isMission ? [] : ["forecast"], "setup", "given"];
  const strange = whole.length > 1 ? whole : whole.length ? [...whole, ...names(others)]
    : others.map(it => names([it])).find(it => it.length > 1) ?? [];
  return strange.length > 1 ? `Nothing is opened: ${strange.join(" and ")} do not go together. Open one of them.`
    : null;
}

// Of the files of a folder those that belong together: a mission with the lists that it may name, or what is known.
export function ofFolder(read) {
  const isMission = read.some(it => it.kind === "mission");
  return read.filter(it => (isMission ? ["mission", "csv", "forecast"] : ["setup", "forecast", "given"])
    .includes(it.kind));
}

// The files that are dropped, and whether folders with their files are among them.
export async function dropped({ items, files }) {
  const entries = Array.from(items, it => it.webkitGetAsEntry?.()).filter(Boolean);
  if (!entries.some(it => it.isDirectory)) return { files: [...files], isFolder: false };
  return { files: (await Promise.all(entries.map(filesOf))).flat(), isFolder: true };
}

const asked = does => new Promise(does);
// The files of an entry, with those in its folders.
async function filesOf(entry) {
  if (entry.isFile) return [await asked((tell, fail) => entry.file(tell, fail))];
  const reader = entry.createReader(), found = [];
  for (let some; (some = await asked((tell, fail) => reader.readEntries(tell, fail))).length; ) found.push(...some);
  return found.length > MOST_FILES ? [] : (await Promise.all(found.map(filesOf))).flat();
}

// What read files make: a `session` where they are whole by themselves, the `texts` that they replace, or neither; and
// `words` to be said.
export function openedFrom(read) {
  const unknown = read.filter(it => it.kind === null).map(it => it.name),
    of = kind => read.find(it => it.kind === kind);
  const said = unknown.length ? `${unknown.join(", ")}: nothing that this page opens. ${OPENED}` : "";
  const whole = of("session") ?? of("page"), mission = of("mission"), strange = beside(read);
  if (strange) return { words: strange };
  if (whole) {
    const text = decode(whole.octets), session = fromJson(whole.kind === "page" ? SESSION.exec(text)?.[1] ?? "" : text);
    return session ? { session, words: `${whole.name} is open.` }
      : { words: `${whole.name} is no file that this page saved.` };
  }
  if (mission) return missionFrom(mission, read);
  const texts = Object.fromEntries(read.filter(it => ["setup", "forecast", "given"].includes(it.kind))
    .map(it => [it.kind, it.octets]));
  const loose = read.filter(it => it.kind === "csv").map(it => it.name);
  // A table with another header is a forecast that the library refuses, where it stands alone.
  if (loose.length === 1 && !texts.forecast && read.length <= 2 && texts.setup) texts.forecast = of("csv").octets;
  else if (loose.length) {
    const said = "the header does not begin with step. A mission's lists are opened together with its mission.toml.";
    return { words: `${loose.join(", ")}: ${said}` };
  }
  if (!Object.keys(texts).length) return { words: said };
  // A plan is judged for the texts that it comes with; new texts are planned anew.
  return { texts: { ...(texts.setup || texts.forecast ? { given: NOTHING, before: null } : {}), ...texts },
    words: said };
}

function missionFrom({ name, octets }, read) {
  const all = new Map(read.map(it => [it.name, it.octets])), named = filesNamedBy(decode(octets).replace(MARK, "")),
    plain = named.map(it => it.split("/").at(-1)), lacking = named.filter((_, nth) => !all.has(plain[nth]));
  if (lacking.length) return { words: `${name} names ${lacking.join(" and ")}: open the files together with it.` };
  try {
    const { session, unit } = missionSession(name, new Map([name, ...plain].map(it => [it, all.get(it)])));
    const isPacket = [...unit.packets.values()].every(it => it === 1n), link = unit.link.toLocaleString("en");
    const more = isPacket ? "" : ` A block of it is some packets, which take ${link} octets on a link.`;
    return { session, words: `${name} is open.${more}` };
  } catch (fault) {
    return { words: faultsSentence(fault) };
  }
}
