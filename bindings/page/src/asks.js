// What the library is asked in a worker: each answer is of the texts that come with the question.
import { NOTHING, certificatesOf, decode, worthsIn } from "./texts.js";

function planOf(library, { setup, forecast, given, isInOrder }) {
  if (given.length) return { octets: given, refused: null };
  return isInOrder ? library.planInOrder(setup, forecast) : library.plan(setup, forecast);
}

// How many blocks a plan loses, where the verdict on it lets that be known; null where it does not.
function lossOf({ kind, loss }, plan) {
  // This verdict does not name the loss; it is the one that the plan says.
  if (kind === "first not shown") return certificatesOf(plan)[0].loss;
  return ["least", "least in order", "loss is", "not shown"].includes(kind) ? loss : null;
}

// The plan, which is made or was given, the verdict on it, and what it loses.
function judge(library, texts) {
  const { setup, forecast } = texts, planned = planOf(library, texts);
  if (planned.refused) return { refused: planned.refused };
  const checked = library.check(setup, forecast, planned.octets);
  if (checked.refused) return { refused: checked.refused };
  const { verdict } = checked, plan = planned.octets;
  return { plan, verdict, loss: lossOf(verdict, plan), line: decode(checked.octets).trim(), refused: null };
}

// An answer, also where a fault of the module ends the call. No call is made again over what it left: each has an
// instance of its own.
function safely(answers) {
  try {
    return answers();
  } catch (fault) {
    // The browser's own stack ended: only a setup whose tables are nested some hundred times takes so much.
    const words = fault instanceof RangeError
      ? "the stack of this browser ended: expected a setup whose tables are not nested so deeply; write them flat"
      : `the planner stopped (${fault.message}): expected an answer; save the texts, and tell whoever gave you this `
        + "page";
    return { refused: { number: null, words, hint: "" } };
  }
}

// The least loss for a setup and a forecast, in whatever order stores are served; null where it is not known.
function leastLoss(library, { setup, forecast }) {
  const { refused, verdict, loss } = judge(library, { setup, forecast, given: NOTHING, isInOrder: false });
  return !refused && verdict.kind === "least" ? loss : null;
}

function worthsOf(library, { setup, forecast }) {
  const { octets, refused } = library.sensitivity(setup, forecast);
  return refused ? { refused } : { octets, worths: worthsIn(octets), refused: null };
}

const asked = {
  judge,
  chart: (library, { setup, forecast }, plan) => library.chart(setup, forecast, plan),
  table: (library, { setup, forecast }, plan) => library.table(setup, forecast, plan),
  shaded: (library, { setup, forecast }, plan) => library.chartWorth(setup, forecast, plan),
  worths: worthsOf,
  least: (library, texts) => ({ loss: leastLoss(library, texts) }),
  version: library => ({ version: library.version() }),
};
export const ASKS = Object.fromEntries(Object.entries(asked)
  .map(([name, does]) => [name, (...given) => safely(() => does(...given))]));
