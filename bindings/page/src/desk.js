// The desk: what is asked of the library is answered by workers, so that no key waits for it; and each answer is kept
// with the session it is of.
import { hasBoth } from "./session.js";
import { recordsOf } from "./texts.js";

const STOPPED =
  { number: null,
  words: "the planner stopped: expected an answer; save the texts, and tell whoever gave you this page", hint: "" };

// A worker, which starts with the first question and answers in turn. One that ends by itself is replaced, and what it
// was asked is refused.
export function workerOf(url, module) {
  let worker = null, count = 0;
  const waiting = new Map();

  function start() {
    worker = new Worker(url);
    worker.postMessage({ module });
    worker.onmessage = ({ data: { nth, answer } }) => {
      waiting.get(nth)?.(answer);
      waiting.delete(nth);
    };
    worker.onerror = event => {
      event.preventDefault();
      worker.terminate();
      for (const tell of waiting.values()) tell({ refused: STOPPED });
      waiting.clear();
      worker = null;
    };
  }

  return (ask, { setup, forecast, given, isInOrder }, plan) => new Promise(tell => {
    if (!worker) start();
    waiting.set(++count, tell);
    worker.postMessage({ nth: count, ask, texts: { setup, forecast, given, isInOrder }, plan });
  });
}

const hasSameTexts = (a, b) => ["setup", "forecast", "given", "isInOrder"].every(part => a[part] === b[part]);

// The answers to sessions. `shows` is called with the answer to the session that is there now, once for each of its
// parts: first the verdict, then the chart, and then the table, with which it is whole.
export function answersOf(ask, now, shows) {
  const known = new WeakMap();
  let last = null, next = null, isRunning = false;

  // An answer is started once; a part that nobody needs any more is not asked for.
  function answerTo(session) {
    if (known.has(session)) return known.get(session);
    const same = last && hasSameTexts(last.session, session) ? last : null,
      made = same ? { ...same, session } : { session, refused: null, isWhole: false, done: 0 };
    known.set(session, made);
    return made;
  }

  const PARTS = [
    async it => Object.assign(it, await ask("judge", it.session)),
    async it => { it.chart = it.refused ? null : (await ask("chart", it.session, it.plan)).octets ?? null; },
    async it => {
      it.table = it.refused ? null : (await ask("table", it.session, it.plan)).octets ?? null;
      it.records = it.table ? recordsOf(it.table) : null;
      it.isWhole = true;
    },
  ];

  // One part after another; two who want the same answer wait for the same parts.
  function nextPart(it) {
    it.coming ??= PARTS[it.done](it).then(() => {
      it.done++;
      it.coming = null;
    });
    return it.coming;
  }

  // What is wanted last is answered next. A fault of the page in showing it ends this answer, and not those after it.
  async function run() {
    if (isRunning) return;
    isRunning = true;
    while (next) {
      const session = next, it = answerTo(session);
      try {
        if (it.done > 0) shows(it);
        while (it.done < PARTS.length && next === session) {
          await nextPart(it);
          if (now() === session) shows(it);
        }
      } catch (fault) {
        console.error(fault);
      }
      if (it.isWhole) last = it;
      if (next === session) next = null;
    }
    isRunning = false;
  }

  return {
    // Shows the answer to a session, unless another one is wanted first.
    want(session) {
      next = hasBoth(session) ? session : null;
      run();
    },
    // The whole answer to a session, whatever is shown meanwhile.
    async of(session) {
      const it = answerTo(session);
      while (it.done < PARTS.length) await nextPart(it);
      return it;
    },
    // What is known of a session so far.
    known: session => known.get(session) ?? null,
  };
}
