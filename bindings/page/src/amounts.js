// Amounts as they are shown and typed: in blocks, or in MB and kbit/s where that is wanted. The texts have blocks
// alone.
import { minutesOf } from "./clock.js";
import { missionOf, unitOf } from "./passes.js";
import { digits } from "./texts.js";

// A number with commas between its thousands alone, as it is shown.
const MEGA = 1_000_000, BLOCK = 1024, DECIMALS = /^(\d+|\d{1,3}(,\d{3})+)(\.\d+)?$/;
// Numbers with at most one, two or three decimals; a browser takes long to make what writes them.
const [TENTHS, HUNDREDTHS, THOUSANDTHS] = [1, 2, 3].map(maximumFractionDigits =>
  new Intl.NumberFormat("en", { maximumFractionDigits }));
const short = value => (value < 10 ? THOUSANDTHS : value < 1000 ? HUNDREDTHS : TENTHS).format(value);

// The octets of a block of a store, or of one on a link.
function octetsOf(session, id) {
  const unit = unitOf(session);
  return unit ? Number(unit.octets.get(id) ?? unit.link) : session.packet;
}

// The octets of memory that a block of a store takes.
const roomOf = (session, id) =>
  (missionOf(session)?.block ?? BLOCK) * Number(unitOf(session)?.packets.get(id) ?? 1);

const sumIn = pairs => pairs.reduce((sum, [, blocks]) => sum + blocks, 0);
const IN_BLOCKS = {
  unit: "blocks", flow: "blocks", volume: (_, blocks) => digits(blocks), size: (_, blocks) => digits(blocks),
  rate: (_, blocks) => digits(blocks), total: pairs => digits(sumIn(pairs)), totalRate: pairs => digits(sumIn(pairs)),
  sum: sumIn, shownSum: digits, pace: (blocks, minutes) => `${digits(Math.round((60 * blocks) / minutes))} blocks/h`,
};

// What a link sends, in place of the identifier of a store.
export const LINK = "";
// The octets of what stores have.
export const octetsIn = (session, pairs) =>
  pairs.reduce((sum, [id, blocks]) => sum + blocks * octetsOf(session, id), 0);

// Of a session: how a volume in a store, its size, and what flows in a step are shown, and the totals of stores, which
// are given as pairs of an identifier and blocks; sums as numbers, with how they are shown; and the rate at which so
// much is sent in some minutes, on a link or of a store.
/**
 * @param {Session} session
 * @returns {Amounts}
 */
export function amountsOf(session) {
  if (session.isInBlocks) return IN_BLOCKS;
  const octets = pairs => octetsIn(session, pairs);
  const flow = (count, step) => short((8 * count) / (minutesOf(session, step) * 60_000));
  return {
    unit: "MB",
    flow: "kbit/s",
    sum: octets,
    shownSum: it => short(it / MEGA),
    volume: (id, blocks) => short((blocks * octetsOf(session, id)) / MEGA),
    size: (id, blocks) => short((blocks * roomOf(session, id)) / MEGA),
    rate: (id, blocks, step) => flow(blocks * octetsOf(session, id), step),
    total: pairs => short(octets(pairs) / MEGA),
    totalRate: (pairs, step) => flow(octets(pairs), step),
    pace: (blocks, minutes, id = LINK) => `${short((8 * blocks * octetsOf(session, id)) / (minutes * 60_000))} kbit/s`,
  };
}

// What is typed as the size of a store, what it holds, or what flows in a step, in blocks: as text, which stays as it
// is where it is no number. Sizes and windows fall to whole blocks, and what is held or arrives rises.
/**
 * @param {Session} session
 * @param {string} typed
 * @param {{ id: string, key: string, step?: number }} what
 */
export function blocksTyped(session, typed, { id, key, step }) {
  if (session.isInBlocks || !DECIMALS.test(typed.trim())) return typed;
  const value = Number(typed.replaceAll(",", "")),
    octets = key === "size" ? roomOf(session, id) : octetsOf(session, id);
  const blocks = step ? (value * minutesOf(session, step) * 60_000) / (8 * octets) : (value * MEGA) / octets;
  return String(["size", "window", "limit"].includes(key) ? Math.floor(blocks + 1e-9) : Math.ceil(blocks - 1e-9));
}

// Whether a limit for all steps is a rate: it is one where all of them are of one length.
export const isLimitRate = ({ isInBlocks, edges }) => !isInBlocks && edges === null;
