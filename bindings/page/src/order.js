// What the text of a plan in order shows of the first stores.
import { certificatesOf, digits } from "./texts.js";

const RANGES = 6; // of a cut, that are listed

// The certificates of the first store, of the first two and so on to all stores, where the plan is one in order; null
// in place of one of which the verdict does not say that it shows its loss.
export function firstsOf({ refused, plan, verdict }) {
  if (refused || !["least in order", "first not shown"].includes(verdict.kind)) return null;
  const [all, ...firsts] = certificatesOf(plan);
  return [...firsts.map((it, nth) => (verdict.kind === "least in order" || nth < verdict.place - 1 ? it : null)), all];
}

// The stretches of a cut in words, store by store.
function stretchesIn({ stretches }) {
  const listed = stretches.slice(0, RANGES), left = stretches.length - listed.length;
  const of = new Map();
  for (const { id, steps: [from, to] } of listed) of.set(
    id, [...(of.get(id) ?? []), from === to ? `${from}` : `${from} to ${to}`]);
  const words = [...of].map(
    ([id, ranges]) =>
    `${id} in ${ranges.length === 1 && !ranges[0].includes("to") ? "step" : "steps"} ${listOf(ranges)}`);
  return listOf(left ? [...words, `${digits(left)} more stretches`] : words);
}

const listOf = words => (words.length > 1 ? `${words.slice(0, -1).join(", ")} and ${words.at(-1)}`
  : words.join());

// What a store loses, what it loses together with those above it where there are any, and where more comes than stays
// and leaves.
export function lossSentence(id, lost, sum, certificate) {
  return `${id} loses ${lost}${sum ? `, ${sum} with those above it` : ""}: ${stretchesIn(certificate)}`;
}
