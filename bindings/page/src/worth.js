// What each number is worth, and the chart whose windows are shaded by it: asked for, since it is planned anew for each
// number, and shown until something is changed.
import { at, head, make, number, row, write } from "./dom.js";
import { nameOf, refusalOf, worthSentence } from "./words.js";

// What was asked for last, and of which session; and whether that is the one that is worked on, but for its clock and
// the like.
let knownWorths = null, shaded = null, isCurrent = false;

const keyOf = ({ item, name, step }) => `${item} ${name} ${step}`;
const isOf = (it, session, parts) => it !== null && parts.every(part => it.session[part] === session[part]);
const isWanted = () => at("shade").checked;
const secondsSince = start => ((performance.now() - start) / 1000).toFixed(1);

// What a number is worth; undefined where it is not known.
export const worthOf = (item, name, step) => (isCurrent ? knownWorths.of.get(keyOf({ item, name, step })) : undefined);

export const worthsText = () => (isCurrent ? knownWorths.octets : null);

// The shaded chart of a session, where that is wanted and known.
export const shadedChart = session => (isWanted() && isOf(shaded, session, ["setup", "forecast", "given", "isInOrder"])
  ? shaded.octets : null);

const say = words => write(at("asked"), words, "hint");

// Shows what is known where it is of this session. After a change it is not, until that is undone.
export function dateWorths(session) {
  isCurrent = isOf(knownWorths, session, ["setup", "forecast"]);
  document.body.classList.toggle("unasked", !isCurrent);
  if (!knownWorths) return;
  const chart = !isWanted() ? "" : shadedChart(session) ? ` The shaded chart took ${shaded.seconds} s.`
    : " The chart is not shaded: ask again.";
  say(isCurrent ? `This took ${knownWorths.seconds} s.${chart}`
    : "Out of date, since something was changed: ask again.");
}

function sayRefused(refused, session) {
  const { short, advice } = refusalOf(refused, session);
  say(`It is not known: ${advice || short}.`);
}

// Sizes and limits; of those by step, those that are worth anything. What windows are worth stands in the steps.
function layWorths(worths) {
  const rows = worths.filter(it => it.item !== "window" && (!it.step || it.next || it.most || it.without)),
    table = at("worths");
  const heads = ["number", "now", "one more saves", "the largest saves", "lost without it"].map(it => head(it));
  table.tHead.replaceChildren(row(...heads, head("in words", { className: "text" })));
  table.tBodies[0].replaceChildren(...rows.map(worth => {
    const numbers = ["now", "next", "most", "without"].map(it => number(worth[it], it === "without" ? "lost" : ""));
    const cells = numbers.map(([text, className]) => make("td", text, { className }));
    return row(make("th", nameOf(worth), { scope: "row" }), ...cells,
      make("td", worthSentence(worth), { className: "text words" }));
  }));
}

// Asks for what each number of a session is worth, and answers whether it is known of the one that is there by then.
export async function askWorths(ask, session, now) {
  if (isCurrent) return true;
  say("It is planned anew for each number.");
  const start = performance.now(), { octets, worths, refused } = await ask("worths", session);
  if (refused) sayRefused(refused, session);
  else {
    knownWorths = { session, octets, seconds: secondsSince(start), of: new Map(worths.map(it => [keyOf(it), it])) };
    layWorths(worths);
    dateWorths(now());
  }
  return isCurrent;
}

// Draws the shaded chart of a session's plan, and answers whether it is of the session that is there by then.
export async function shadeChart(ask, session, plan, now) {
  if (shadedChart(session)) return true;
  say("The windows of the chart are shaded.");
  const start = performance.now(), { octets, refused } = await ask("shaded", session, plan);
  if (refused) sayRefused(refused, session);
  else {
    shaded = { session, octets, seconds: secondsSince(start) };
    dateWorths(now());
  }
  return !!shadedChart(now());
}
