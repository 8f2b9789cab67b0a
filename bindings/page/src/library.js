// The calls of the library, as bindings/c/rudlayog.h says them, on texts as octets. Nothing outside this file knows of
// memory.
//
// The module takes its heap from here: blocks lie one after another, and one that was given back serves the next of its
// size. An instance whose call returned serves the next one, with each octet of its memory as it was at first. So no
// call sees what another one left, and what a fault left is never called again.
const WRITTEN = 0, TOO_SMALL = 1, REFUSED = 2; // RUDLAYOG_WRITTEN and so on
const PLAN_ROOM = 204800, LINE_ROOM = 64, PICTURE_ROOM = 1 << 18, WORDS_ROOM = 512, HINT_ROOM = 1024, VERSION_ROOM = 16;
const REFUSED_SIZE = 32, VERDICT_SIZE = 24, ANSWER_SIZE = 48, LENGTH_AT = 40;
const PAGE = 65536n, ALIGN = 16n;
const MOST_KEPT_MEMORY = 1 << 24; // octets, above which the memory of a call goes with it
// RUDLAYOG_LEAST and so on
const KINDS = ["no verdict", "least", "does not fit", "loss is", "bad stretch", "bad count", "bound is", "not shown",
  "least in order", "first not shown"];

export class NoMemory extends Error {}

// The blocks of a heap: one that was given back serves the next of its size.
function blocksOver(takeNew) {
  const sizes = new Map(), spare = new Map();
  return {
    // The place of a block, or 0. No two blocks have one place, so none is empty.
    take(size) {
      const whole = ((size || 1n) + ALIGN - 1n) & ~(ALIGN - 1n), at = spare.get(whole)?.pop() ?? takeNew(whole);
      if (at) sizes.set(at, whole);
      return at;
    },
    // A pointer that owns nothing is at no block.
    giveBack(at) {
      const size = sizes.get(at);
      if (size === undefined) return;
      if (!spare.has(size)) spare.set(size, []);
      spare.get(size).push(at);
    },
    forget() {
      sizes.clear();
      spare.clear();
    },
  };
}

// An instance of the module with its heap: its calls, and what takes and reads blocks of its memory.
function instantiate(module) {
  let memory, top = 0n, isWide = true;
  const { take, giveBack, forget } = blocksOver(takeNew);

  const view = () => new DataView(memory.buffer);

  function grows(size) {
    const pages = (size + PAGE - 1n) / PAGE;
    try {
      memory.grow(isWide ? pages : Number(pages));
      return true;
    } catch {
      return false;
    }
  }

  // The place of a new block, or 0 where there is no memory. The memory doubles, since some browsers move it where it
  // grows.
  function takeNew(size) {
    const at = top, end = at + size, has = BigInt(memory.buffer.byteLength);
    if (end > has && !(end - has < has && grows(has)) && !grows(end - has)) return 0n;
    top = end;
    return at;
  }

  // Answers whether there is a block, and where. Without one the pointer is not null, and owns nothing.
  function tell(out, at, otherwise) {
    view().setBigUint64(Number(out), at ? 1n : 0n, true);
    view().setBigUint64(Number(out) + 8, at || otherwise, true);
  }

  const heap = {
    rattle_alloc: (out, size) => tell(out, take(size), ALIGN),
    rattle_realloc(out, old, kept, size) {
      const at = take(size);
      if (at) {
        new Uint8Array(memory.buffer).copyWithin(Number(at), Number(old), Number(old + kept));
        giveBack(old);
      }
      tell(out, at, old);
    },
    rattle_dealloc: giveBack,
  };
  const exports = /** @type {any} */ (new WebAssembly.Instance(module, { heap }).exports);
  memory = exports.memory;
  // A memory of 32 bits takes no big numbers.
  try {
    memory.grow(0n);
  } catch {
    isWide = false;
  }
  const base = (BigInt(exports.__heap_base.value) + ALIGN - 1n) & ~(ALIGN - 1n),
    atFirst = new Uint8Array(memory.buffer, 0, Number(base)).slice();
  top = base;
  return {
    exports, take, view,
    octets: (at, length) => new Uint8Array(memory.buffer, Number(at), length),
    isSmall: () => memory.buffer.byteLength <= MOST_KEPT_MEMORY,
    // After a call that returned: what is below the heap is as it was at first, and the heap is empty.
    clear() {
      const all = new Uint8Array(memory.buffer);
      all.set(atFirst);
      all.fill(0, Number(base), Number(top));
      top = base;
      forget();
    },
  };
}

// The calls of a module. One instance is kept between them.
function callsOf(module) {
  let spare = null;
  return function call(name, given) {
    const it = spare ?? instantiate(module);
    // What throws leaves no instance.
    spare = null;
    const answer = callOn(it, name, given);
    if (it.isSmall()) {
      it.clear();
      spare = it;
    }
    return answer.status === TOO_SMALL ? call(name, { ...given, room: answer.length }) : answer;
  };
}

// Makes a call: with texts, structs that are given, a buffer with this room, structs that are told, and the answer.
function callOn(it, name, { texts = [], given = [], room, told = [] }) {
  function block(size) {
    const at = it.take(BigInt(size));
    if (!at) throw new NoMemory("there is no memory for the texts");
    return at;
  }

  function put(octets) {
    const at = block(octets.length);
    it.octets(at, octets.length).set(octets);
    return at;
  }

  const words = texts.flatMap(octets => [put(octets), BigInt(octets.length)]);
  const [structs, out, results, answer] = [given.map(put), block(room), told.map(block), block(ANSWER_SIZE)];
  it.exports[`rudlayog_${name}`](...words, ...structs, out, BigInt(room), ...results, answer);
  const view = it.view(), at = Number(answer), status = view.getUint32(at, true),
    length = Number(view.getBigUint64(at + LENGTH_AT, true));
  return {
    status,
    length,
    octets: status === WRITTEN ? it.octets(out, length).slice() : null,
    refused: status === REFUSED ? it.octets(answer + 8n, REFUSED_SIZE).slice() : null,
    told: results.map((place, nth) => new DataView(it.octets(place, told[nth]).slice().buffer)),
  };
}

// The library over a compiled module. Each call answers `octets`, or `refused`: the refusal's words, its number and its
// place.
export function libraryOf(module) {
  const call = callsOf(module), ascii = octets => String.fromCharCode(...octets);

  function refusalOf(refused, texts) {
    const fields = new DataView(refused.buffer), number = fields.getUint32(0, true);
    const of = { number, row: fields.getUint32(8, true), column: fields.getUint32(12, true),
      line: Number(fields.getBigUint64(16, true)) };
    const words = call("words", { given: [refused], room: WORDS_ROOM }).octets;
    const hint = number
      && call("hint", { texts: [...texts, new Uint8Array(), new Uint8Array()].slice(0, 3), given: [refused],
      room: HINT_ROOM }).octets;
    return { ...of, words: words ? ascii(words) : "0 NoMemory: expected memory for the task; free some memory",
      hint: hint ? ascii(hint) : "" };
  }

  function answerTo(name, texts, room, told) {
    const answer = call(name, { texts, room, told });
    return { octets: answer.octets, refused: answer.refused && refusalOf(answer.refused, texts), told: answer.told };
  }

  return {
    plan: (setup, forecast) => answerTo("plan", [setup, forecast], PLAN_ROOM),
    planInOrder: (setup, forecast) => answerTo("plan_in_order", [setup, forecast], PLAN_ROOM),
    check(setup, forecast, plan) {
      const { told: [it], ...answer } = answerTo("check", [setup, forecast, plan], LINE_ROOM, [VERDICT_SIZE]);
      const [kind, place] = [KINDS[it.getUint32(0, true)], it.getUint32(4, true)];
      return { ...answer, verdict: { kind, place, loss: Number(it.getBigUint64(8, true)),
        bound: Number(it.getBigInt64(16, true)) } };
    },
    chart: (setup, forecast, plan) => answerTo("chart", [setup, forecast, plan], PICTURE_ROOM),
    chartWorth: (setup, forecast, plan) => answerTo("chart_worth", [setup, forecast, plan], PICTURE_ROOM),
    table: (setup, forecast, plan) => answerTo("table", [setup, forecast, plan], PICTURE_ROOM),
    sensitivity: (setup, forecast) => answerTo("sensitivity", [setup, forecast], PICTURE_ROOM),
    version: () => ascii(call("version", { room: VERSION_ROOM }).octets),
  };
}
