// Windows, limits and arrivals of a mission in its steps, by the rules of the Python package: exact fractions of time,
// rounded to whole units of packets. Windows and limits fall, and arrivals rise. Times are microseconds from the
// mission's begin.
import { ceilOf, floorOf, fraction, isLess, less, over, plus, times } from "./fraction.js";
import { heldIn, named, packetOf, sizeOf } from "./mission.js";
import { blocksASecond, blocksOf, refuse } from "./units.js";

export const MOST_STEPS = 256;
const MOST_NUMBER = 1_000_000, MICRO = 1_000_000n, MOST_TRIED = 128n;
// No unit has more packets: numbers that are out of range with it are so with each.
const MOST_COUNT = 2n ** 200n;
const wholeOf = it => fraction(BigInt(it)), most = list => list.reduce((a, b) => (b > a ? b : a));

// How many of these times in order are not after a time, and how many are before it.
export const countUntil = (edges, time) => countBefore(edges, time + 1);
export function countBefore(edges, time) {
  let [from, to] = [0, edges.length];
  while (from < to) {
    const middle = (from + to) >> 1;
    if (edges[middle] < time) from = middle + 1;
    else to = middle;
  }
  return from;
}

const stepsOfFlow = ({ begin, end }, edges) =>
  [Math.max(countUntil(edges, begin) - 1, 0), Math.min(countBefore(edges, end), edges.length - 1)];

// What flows evenly from `begin` to `end`: `above` by `below` in each microsecond.
export const flowAt = (begin, end, { n, d }) => ({ begin, end, above: n, below: d * MICRO });

// What flows in each step, where a whole one counts in the step in which it becomes whole.
export function falls(flow, edges) {
  const column = new Array(edges.length - 1).fill(0), [first, last] = stepsOfFlow(flow, edges);
  const flowed = time => floorOf(flow.above * BigInt(time - flow.begin), flow.below);
  let before = flowed(Math.max(edges[first], flow.begin));
  for (let step = first; step < last; step++) {
    const now = flowed(Math.min(edges[step + 1], flow.end));
    column[step] = Number(now - before);
    before = now;
  }
  return column;
}

/** @type {(a: bigint, b: bigint) => bigint} */
const gcdOf = (a, b) => (b ? gcdOf(b, a % b) : a);

// What has come of some flows until each edge, as numerators of fractions with one denominator.
function cameOf(flows, edges) {
  const below = /** @type {bigint} */ (flows.reduce((all, it) => (all / gcdOf(all, it.below)) * it.below, 1n)),
    above = /** @type {bigint[]} */ (new Array(edges.length).fill(0n));
  for (const it of flows) {
    const share = it.above * (below / it.below), [first, last] = stepsOfFlow(it, edges);
    for (let step = first; step < last; step++) above[step + 1] += share
      * BigInt(Math.min(edges[step + 1], it.end) - Math.max(edges[step], it.begin));
  }
  for (let step = 1; step < edges.length; step++) above[step] += above[step - 1];
  return { above, below };
}

// What comes in each step, in units of some packets. A unit that has begun is whole.
/**
 * @param {{ above: bigint[], below: bigint }} came
 * @param {bigint} packets
 */
function columnIn({ above, below }, packets) {
  const counts = above.map(it => ceilOf(it, below * packets));
  return counts.slice(1).map((it, nth) => Number(it - counts[nth]));
}

// What arrives in each store while the mission lasts, in packets.
function arrivalsOf(mission) {
  const found = new Map(mission.stores.map(it => [it.id, []]));
  for (const one of mission.observations) {
    const begin = one.begin - mission.begin, end = one.end - mission.begin,
      octets = packetOf(mission, mission.stores.find(it => it.id === one.store));
    if (one.rate) found.get(one.store).push(flowAt(begin, end, blocksASecond(one.rate, octets)));
    else {
      const { n, d } = blocksOf(one.volume, octets);
      found.get(one.store).push({ begin, end, above: n, below: d * BigInt(end - begin) });
    }
  }
  return found;
}

// ---- The unit

// What a plan counts: of each store some packets that have about the same octets, which are `count` of the longest
// packets; `octets` is what a unit of each store has, and `link` what it takes on a link.
export function unitWith(mission, count) {
  const lengths = mission.stores.map(it => BigInt(packetOf(mission, it))), whole = BigInt(count) * most(lengths);
  const packets = new Map(mission.stores.map((it, nth) => {
    const about = (2n * whole + lengths[nth]) / (2n * lengths[nth]), size = sizeOf(mission, it);
    return [it.id, most([about < size ? about : size, 1n])];
  }));
  const octets = new Map(mission.stores.map((it, nth) => [it.id, packets.get(it.id) * lengths[nth]]));
  return { count: BigInt(count), packets, octets, link: most([...octets.values()]) };
}

function onChannel(mission, unit, channel) {
  const own = mission.stores.filter(it => it.channel === channel).map(it => unit.octets.get(it.id));
  return own.length ? most(own) : unit.link;
}

// The unit of a mission with these steps: the least one with which all numbers are in range; where packets differ in
// length it is, of some units from that one on, the one whose rounding costs least.
export function unitFor(mission, edges) {
  const came = new Map([...arrivalsOf(mission)].map(([id, flows]) => [id, cameOf(flows, edges)])),
    uses = usesOf(mission), isInRange = rangeOf(mission, edges, came, uses), given = BigInt(mission.unit);
  if (given && isInRange(unitWith(mission, given))) return unitWith(mission, given);
  let count = given || 1n, least;
  while (!isInRange(unitWith(mission, count))) {
    if (count > MOST_COUNT) refuse("", "data that fill a store more than 1,000,000 times in one step",
      "a store with more room, or fewer data");
    count *= 2n;
  }
  least = count / 2n;
  while (count - least > 1n) {
    const middle = (count + least) / 2n;
    if (isInRange(unitWith(mission, middle))) count = middle;
    else least = middle;
  }
  if (new Set(mission.stores.map(it => packetOf(mission, it))).size === 1) return unitWith(mission, count);
  const cost = costOf(mission, came, uses);
  let best = null;
  for (let tried = count; tried < count + MOST_TRIED; tried++) {
    const unit = unitWith(mission, tried), its = cost(unit);
    if ((!best || its < best.cost) && isInRange(unit)) best = { unit, cost: its };
  }
  return best.unit;
}

// Whether sizes, arrivals and windows are in range in a unit.
function rangeOf(mission, edges, came, uses) {
  const limited = limitedIn(mission), sizes = mission.stores.map(it => [it.id, sizeOf(mission, it)]);
  return unit => {
    if (sizes.some(([id, size]) => size / unit.packets.get(id) > MOST_NUMBER)) return false;
    if ([...came].some(([id, it]) => Math.max(...columnIn(it, unit.packets.get(id))) > MOST_NUMBER)) return false;
    const { windows, limits } = windowsOf(contactsOf(mission, unit, uses), edges, limited);
    return [windows, ...limits.values()].every(column => Math.max(...column) <= MOST_NUMBER);
  };
}

const leftOver = (a, by) => ((a % by) + by) % by;

// What rounding to a unit costs, in octets: what sizes, arrivals and passes have over whole units, and what a unit of
// some store takes less on a link than that of another.
function costOf(mission, came, uses) {
  const whole = mission.stores.map(it => {
    const { above, below } = came.get(it.id);
    return [it.id, sizeOf(mission, it), heldIn(mission, it), ceilOf(above.at(-1), below)];
  });
  const passes = uses.map(({ octets: { n, d }, begin, end }) => (n * BigInt(end - begin)) / (d * MICRO));
  return unit => {
    const least = [...unit.octets.values()].reduce((a, b) => (b < a ? b : a));
    const ofStores = whole.reduce((sum, [id, size, held, arrives]) => {
      const packets = unit.packets.get(id), left = leftOver(size, packets) + leftOver(-held, packets)
        + leftOver(-arrives, packets);
      return sum + left * (unit.octets.get(id) / packets);
    }, 0n);
    return passes.reduce((sum, octets) => sum + octets - (octets / unit.link) * least, ofStores);
  };
}

// ---- Passes

function ratesOf({ stations }, { station, rate, channels }) {
  const at = stations.find(it => it.name === station);
  return { rate: rate ?? at?.rate, channels: { ...at?.channels, ...channels } };
}

// The channels that have a rate in some pass.
const limitedIn = mission =>
  [...new Set(mission.passes.flatMap(it => Object.keys(ratesOf(mission, it).channels)))].map(Number).sort();

// A pass while the mission lasts: the octets that it sends in a second, and those of its channels that have a rate.
function useOf(mission, one) {
  const { rate, channels } = ratesOf(mission, one), lengthOfAll = most(mission.stores.map(it => packetOf(mission, it)));
  const octetsIn = (given, longest) => times(blocksASecond(given, longest), wholeOf(longest));
  /** @type {(entry: [string, any]) => [number, Fraction]} */
  const rateIn = ([channel, given]) => {
    const lengths = mission.stores.filter(it => it.channel === Number(channel)).map(it => packetOf(mission, it));
    return [Number(channel), octetsIn(given, lengths.length ? most(lengths) : lengthOfAll)];
  };
  return { one, begin: Math.max(one.begin - mission.begin, 0), end: Math.min(one.end, mission.end) - mission.begin,
    octets: octetsIn(rate, lengthOfAll), channels: new Map(Object.entries(channels).map(rateIn)) };
}

// The passes while they are used.
export function usesOf(mission) {
  const used = mission.passes.map(it => useOf(mission, it));
  return mission.overlap === "better" ? better(mission, used) : used;
}

// What a pass can send in a second of what the stores have: each of their channels has its own limit, or the link's.
function usefulOf({ stores }, { octets, channels }) {
  const sum = [...new Set(stores.map(it => it.channel))]
    .reduce((all, channel) => plus(all, channels.get(channel) ?? octets), fraction(0n));
  return less(octets, sum);
}

// The parts of passes in which none that overlaps can send more. Of equal ones that which is in use stays.
function better(mission, used) {
  const bounds = [...new Set(used.flatMap(it => [it.begin, it.end]))].sort((a, b) => a - b), found = [],
    useful = new Map(used.map(it => [it, usefulOf(mission, it)]));
  bounds.slice(1).forEach((end, nth) => {
    const begin = bounds[nth], there = used.filter(it => it.begin <= begin && end <= it.end),
      before = found.at(-1)?.end === begin ? found.at(-1) : null;
    if (!there.length) return;
    const stays = it => Number(before !== null && it.one === before.one);
    const isMore = (a, b) => isLess(useful.get(b), useful.get(a))
      || (!isLess(useful.get(a), useful.get(b)) && (stays(a) - stays(b) || b.begin - a.begin) > 0);
    const best = there.reduce((a, b) => (isMore(b, a) ? b : a));
    if (before && best.one === before.one) found[found.length - 1] = { ...before, end };
    else found.push({ ...best, begin, end });
  });
  return found;
}

// What passes can send in units, and on each channel.
function contactsOf(mission, unit, uses) {
  return uses.map(({ one, begin, end, octets, channels }) => {
    const sends = over(octets, wholeOf(unit.link));
    const own = new Map();
    for (const [channel, its] of channels) own.set(channel,
      flowAt(begin, end, less(sends, over(its, wholeOf(onChannel(mission, unit, channel))))));
    return { one, sends: flowAt(begin, end, sends), channels: own };
  });
}

// The passes in the order of their begins, those together that overlap one another.
function groupsOf(contacts) {
  const groups = [];
  let end = 0;
  for (const it of contacts) {
    if (!groups.length || it.sends.begin >= end) groups.push([]);
    groups.at(-1).push(it);
    end = groups.at(-1).length > 1 ? Math.max(end, it.sends.end) : it.sends.end;
  }
  return groups;
}

// The windows of the steps, and the limits of the channels that have any.
function windowsOf(contacts, edges, limited) {
  const windows = new Array(edges.length - 1).fill(0), limits = new Map(limited.map(it => [it, [...windows]]));
  for (const group of groupsOf(contacts)) addRooms(group, edges, limited, windows, limits);
  return { windows, limits };
}

// The links that are there between two times. Rounding may count a unit more of a channel there than of its link, which
// sends no more than its window.
const linksIn = (group, begin, end, linkAt) => group.map((_, nth) => nth)
  .filter(nth => group[nth].sends.begin < end && begin < group[nth].sends.end).map(linkAt)
  .map(([sends, each]) => [sends, each.map(units => Math.min(units, sends))]);

// Adds what passes that overlap can send in their steps.
function addRooms(group, edges, limited, windows, limits) {
  const first = Math.max(countUntil(edges, Math.min(...group.map(it => it.sends.begin))) - 1, 0),
    last = Math.min(countBefore(edges, Math.max(...group.map(it => it.sends.end))), edges.length - 1);
  if (first >= last) return;
  const own = edges.slice(first, last + 1), sends = group.map(it => falls(it.sends, own)),
    rows = limited.map(channel => group.map(it => falls(it.channels.get(channel) ?? it.sends, own)));
  const sumIn = (columns, step) => columns.reduce((sum, column) => sum + column[step], 0);
  for (let step = 0; step < last - first; step++) {
    const window = sumIn(sends, step), links = linksIn(group, own[step], own[step + 1], nth =>
      [sends[nth][step], rows.map(columns => columns[nth][step])]);
    const isShared = limited.length > 0 && links.length > 1, sums = isShared
      ? rows.map((_, nth) => links.reduce((all, [, each]) => all + each[nth], 0))
      : rows.map(columns => sumIn(columns, step));
    windows[first + step] += isShared ? sentByAll(links, window, sums) : window;
    limited.forEach((channel, nth) => { limits.get(channel)[first + step] += sums[nth]; });
  }
}

// A window of several links at once such that whatever keeps it and the limits can be shared out among them: each set
// of channels finds room.
function sentByAll(links, window, sums) {
  let found = window;
  for (let set = 0; set < 1 << sums.length; set++) {
    const chosen = sums.map((_, nth) => nth).filter(nth => set & (1 << nth)),
      sumOver = each => chosen.reduce((all, nth) => all + each[nth], 0);
    if (chosen.length < 2) continue;
    const room = links.reduce((all, [sends, each]) => all + Math.min(sends, sumOver(each)), 0);
    if (room < Math.min(window, sumOver(sums))) found = Math.min(found, room);
  }
  return found;
}

// ---- The texts

const quoted = text => JSON.stringify(text).replaceAll("\x7f", "\\u007F");
const valueText = it => (typeof it === "string" ? quoted(it) : String(it));
const tableText = (name, row) =>
  `[[${name}]]\n${Object.entries(row).map(([key, value]) => `${key} = ${valueText(value)}\n`).join("")}`;
const cellText = cell => (/[",\r\n]/.test(cell) ? `"${cell.replaceAll('"', '""')}"` : cell);

// A store as the library has it: its size falls to whole units, and what it holds rises, but not above its size.
function setupStore(mission, unit, store) {
  const { id, type, channel } = store, packets = unit.packets.get(id), size = sizeOf(mission, store) / packets,
    held = ceilOf(heldIn(mission, store), packets);
  return { id, size, type, channel, start: held < size ? held : size };
}

// What arrives in a step may be sent in it.
const DURING = 'arrivals = "during"\n';
const missionSetup = (mission, unit) => DURING + [
  ...mission.stores.map(it => tableText("store", setupStore(mission, unit, it))),
  ...mission.routes.map(it => tableText("route", it))].join("\n");

function missionForecast(columns) {
  const names = [...columns.keys()], steps = columns.get("window")
    .map((_, nth) => [nth + 1, ...[...columns.values()].map(it => it[nth])].join(","));
  return [["step", ...names].map(cellText).join(","), ...steps, ""].join("\n");
}

// What the passes of a mission can send in these steps: in all, on each channel, and each of them.
function roomsWith(mission, edges, unit) {
  const contacts = contactsOf(mission, unit, usesOf(mission)), { windows, limits } = windowsOf(
    contacts, edges, limitedIn(mission));
  const shares = new Map(mission.passes.map(it => [it.name, new Array(edges.length - 1).fill(0)]));
  for (const { one, sends } of contacts) falls(sends, edges).forEach((blocks, step) => {
    shares.get(one.name)[step] += blocks;
  });
  return { windows, limits, shares };
}

// What is planned for a mission in these steps and this unit: the texts, and what each pass can send in which step.
export function problemWith(mission, edges, unit) {
  const rooms = roomsWith(mission, edges, unit), { windows, limits } = rooms, columns = new Map([["window", windows]]);
  for (const [id, flows] of arrivalsOf(mission)) columns.set(
    id, columnIn(cameOf(flows, edges), unit.packets.get(id)));
  for (const [channel, column] of limits) columns.set(`limit:${channel}`, column);
  return { ...rooms, setup: missionSetup(mission, unit), forecast: missionForecast(columns), edges, unit, columns };
}

// The mission with other passes.
export const withPasses = (mission, passes) => ({ ...mission, passes: named(passes, mission.begin, mission.end) });
