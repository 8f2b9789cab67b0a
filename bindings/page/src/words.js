// What the library answers, in sentences.
import { placeOf } from "./setup.js";
import { digits } from "./texts.js";

const LARGEST = 1_000_000; // MAX_BLOCKS of mm_base, which no window, size or limit is above

// The verdict in a sentence; what is lost as `lost` in another unit than blocks, where that is shown.
export function sentenceOf({ kind, place, loss, bound }, lost) {
  const blocks = lost ? `${lost} are lost` : `${digits(loss)} ${loss === 1 ? "block is" : "blocks are"} lost`,
    fewer = lost ? "less" : "fewer";
  switch (kind) {
    case "least": return loss ? `${blocks}, and no plan that fits loses ${fewer}` : "Nothing is lost";
    case "least in order": return loss
      ? `${blocks}, and no plan that fits loses ${fewer}, nor does any lose ${fewer} of the first stores, however many`
      : "Nothing is lost";
    case "does not fit": return `The plan does not fit: step ${place} sends more than its window or a channel's limit`;
    case "loss is": return `The loss that the plan says is wrong: ${blocks}`;
    case "bad stretch": return `The cut of the plan is none: stretch ${place} can be in no cut`;
    case "bad count": return `The cut of the plan is none: counted step ${place} can be in no cut`;
    case "bound is": return `The bound that the plan says is wrong: it is ${digits(bound)}`;
    case "not shown":
      return `The plan fits, and ${blocks}; its cut shows only that no plan loses fewer than ${digits(bound)}`;
    case "first not shown": {
      const [first, them] = place === 1 ? ["store", "it"] : [`${place} stores`, "them"];
      return `No plan that fits loses ${lost ? "less" : "fewer blocks"}; but what the plan says of its first ${first} `
        + `does not show that none loses ${fewer} of ${them}`;
    }
  }
}

// Words of refusals that name a document, which is not in the page: what stands in their place.
const INSTEAD = [
  ["the keys that docs/FORMATS.md lists for this table", "the keys of this table"],
  ["docs/FORMATS.md has the ranges", "look at its range"],
  [
    "compare it with the table 'Plan text' of docs/FORMATS.md, or plan again",
    "take the plan out, so that the page plans again",
  ],
];
const standingAlone = words => INSTEAD.reduce((text, [named, said]) => text.replaceAll(named, said), words)
  .replace(/: docs\/\w+\.md, '[^']*'/g, "");

// Where in a file it is, which nobody sees who types in a cell.
const IN_FILE = /[,;] (it is )?line \d+ of the file(, whose header is line \d+)?/;

// A refusal in the library's words: what was found where, or else what to do; what was expected; and its short form.
/**
 * @param {Refusal} refused
 * @param {Session} session
 */
export function refusalOf({ words, hint, ...at }, session) {
  const [, short, expected, advice] = /^(.*?): expected (.*?); (.*)$/s.exec(standingAlone(words))
    ?? ["", words, "", ""];
  const whose = at.number >= 34 && at.number <= 35 ? "plan" : at.number >= 29 && at.number <= 32 ? "forecast"
    : at.number === 27 || at.number === 28 ? "setup" : "";
  // What is typed as a number and is none is quoted in the text, which whoever typed it did not do.
  const found = standingAlone(hint).replace("; write it without quotes", "");
  const place = placeOf({ ...at, words, hint }, session.setup, session.forecast);
  const placed = place?.row ? "forecast" : place?.array ? "setup" : "";
  return { short, expected, advice: found.replace(IN_FILE, "") || advice, hint: found, place, whose: whose || placed };
}

// The name of a size or a limit.
export function nameOf({ item, name, step }) {
  return `${item === "size" ? "size of" : "limit of channel"} ${name}${step ? ` in step ${step}` : ""}`;
}

// What more of a window, size or limit saves.
function largerSaves(worth) {
  const { item, now, next, most } = worth, isWindow = item === "window";
  if (now === LARGEST) return "It can be no larger";
  const one = `One block more in ${isWindow ? "this window" : `the ${nameOf(worth)}`} saves`;
  if (!most) return `${one} nothing`;
  const saved = next ? `${digits(next)} ${next === 1 ? "block" : "blocks"}` : "nothing";
  if (most === next) return `${one} ${saved}, and more of them save no more`;
  const whole = isWindow ? `up to ${digits(most)} in all` : `a ${item} of ${digits(LARGEST)} saves ${digits(most)}`;
  return `${one} ${saved}, and ${whole}`;
}

// What a window, size or limit is worth, in a sentence.
export function worthSentence(worth) {
  const { item, step, now, without } = worth, least = item === "size" && !step ? 1 : 0, larger = largerSaves(worth);
  const otherwise = item === "window" ? "without this window" : `with a ${item} of ${least},`,
    lost = without ? digits(without) : "no";
  return now === least ? `${larger}.` : `${larger}; ${otherwise} ${lost} more ${without === 1 ? "is" : "are"} lost.`;
}

// How a loss differs from that of the reference, as numbers that are shown so, of blocks or of another unit.
export function difference(loss, reference, shownSum, isInBlocks) {
  const more = loss - reference, [fewer, many] = isInBlocks ? ["fewer", "many"] : ["less", "much"];
  const how = more > 0 ? `${shownSum(more)} more than` : more < 0 ? `${shownSum(-more)} ${fewer} than`
    : `as ${many} as`;
  return { words: `${how} the reference, ${shownSum(reference)}`, sign: Math.sign(more) };
}
