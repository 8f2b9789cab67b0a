// TOML 1.0 (toml.io), read with the place of each value, so that one can be replaced and all else stays as it is
// written. Whole numbers are BigInts, and other numbers Numbers; a date is its text in `{ date }`.
import { momentIn } from "./moments.js";

const BARE = /[\w-]+/y, SPACE = /[ \t]*/y, HEX = /^[0-9A-Fa-f]+$/;
const TIME = "(?:[01]\\d|2[0-3]):[0-5]\\d:[0-5]\\d(?:\\.\\d+)?";
const DAY_OF = "\\d{4}-(?:0[1-9]|1[0-2])-(?:0[1-9]|[12]\\d|3[01])", ZONED = "(?:[Zz]|[+-](?:[01]\\d|2[0-3]):[0-5]\\d)?";
const DATE = new RegExp(`${DAY_OF}(?:[Tt ]${TIME}${ZONED})?|${TIME}`, "y");
const CODED = "0(?:x[0-9A-Fa-f](?:_?[0-9A-Fa-f])*|b[01](?:_?[01])*|o[0-7](?:_?[0-7])*)";
const PART = "((?:\\.\\d(?:_?\\d)*)?(?:[eE][+-]?\\d(?:_?\\d)*)?)";
const NUMBER = new RegExp(`${CODED}|[+-]?(?:0|[1-9](?:_?\\d)*)${PART}`, "y");
const WORD = /(true|false)|[+-]?(?:inf|nan)/y;
const ESCAPES = { b: "\b", t: "\t", n: "\n", f: "\f", r: "\r", '"': '"', "\\": "\\" };
const MOST_DEEP = 200;

export class TomlFault extends Error {}

// Of a table: where its keys have their values; where it stands; whether it was written as a head, within a line, or by
// dots, and in which part.
const known = new WeakMap();
export const placesOf = table => known.get(table);

function newTable(more) {
  const made = Object.create(null);
  known.set(made, { keys: {}, from: 0, isHead: false, isInline: false, dottedIn: null, ...more });
  return made;
}

const isTable = it => known.has(it);
const isOpen = it => isTable(it) && !known.get(it).isInline;

const shownCharacter = ([it, next]) => (it === "\n" || (it === "\r" && next === "\n") ? "'\\n'" : it === "\r" ? "'\\r'"
  : `'\\x${it.charCodeAt(0).toString(16).padStart(2, "0")}'`);

class Reader {
  constructor(text) {
    this.text = text;
    this.at = this.deep = this.part = 0;
    this.root = newTable({});
    this.here = this.root;
    this.arrays = new WeakSet();
  }

  fail(words) {
    const before = this.text.slice(0, this.at).split("\n");
    throw new TomlFault(`${words} (at line ${before.length}, column ${before.at(-1).length + 1})`);
  }

  match(form) {
    form.lastIndex = this.at;
    const found = form.exec(this.text);
    if (found) this.at = form.lastIndex;
    return found;
  }

  take(word) {
    const has = this.text.startsWith(word, this.at);
    if (has) this.at += word.length;
    return has;
  }

  space() { this.match(SPACE); }

  // A comment, if there is one, and the end of the line.
  endLine() {
    this.space();
    this.comment();
    if (this.at < this.text.length && !this.take("\n") && !this.take("\r\n")) this.fail(
      "Expected newline or end of document after a statement");
  }

  comment() {
    if (this.match(/#[^\r\n]*/y) && /[\0-\x08\x0B-\x1F\x7F]/.test(
      this.text.slice(this.text.lastIndexOf("#", this.at), this.at))) this.fail("Illegal character");
  }

  blanks() {
    for (let from = -1; from !== this.at; ) {
      from = this.at;
      this.match(/(?:[ \t\n]|\r\n)+/y);
      this.comment();
    }
  }

  document() {
    while (this.at < this.text.length) {
      this.space();
      if (this.at === this.text.length) break;
      if (this.text[this.at] === "[") this.head();
      else if (!/[\n\r#]/.test(this.text[this.at])) this.pair(this.here, this.part);
      this.endLine();
    }
    return this.root;
  }

  head() {
    const from = this.at, isArray = this.take("[["), close = isArray ? "]]" : "]";
    if (!isArray) this.take("[");
    const keys = this.key(), last = keys.pop();
    if (!this.take(close)) this.fail("Expected ']' at the end of a table declaration");
    let table = this.root;
    for (const key of keys) table = this.below(table, key);
    this.part++;
    this.here = isArray ? this.pushed(table, last, from) : this.declared(table, last, from);
  }

  below(table, key) {
    const next = (table[key] ??= newTable({})), found = this.arrays.has(next) ? next.at(-1) : next;
    return isOpen(found) ? found : this.fail("Cannot overwrite a value");
  }

  declared(table, key, from) {
    const is = (table[key] ??= newTable({}));
    if (!isOpen(is) || known.get(is).isHead || known.get(is).dottedIn !== null) this.fail(
      "Cannot declare a table twice");
    Object.assign(known.get(is), { isHead: true, from });
    return is;
  }

  pushed(table, key, from) {
    if (!(key in table)) this.arrays.add((table[key] = []));
    if (!this.arrays.has(table[key])) this.fail("Cannot overwrite a value");
    const made = newTable({ isHead: true, from });
    table[key].push(made);
    return made;
  }

  pair(into, part) {
    const keys = this.key(), last = keys.pop();
    if (!this.take("=")) this.fail("Expected '=' after a key in a key/value pair");
    this.space();
    const from = this.at, value = this.value(), to = this.at;
    let table = into;
    for (const key of keys) {
      const next = (table[key] ??= newTable({ dottedIn: part }));
      const { isHead, dottedIn } = known.get(next) ?? {};
      if (!isOpen(next) || isHead || (dottedIn !== null && dottedIn !== part)) this.fail("Cannot redefine a namespace");
      table = next;
    }
    if (last in table) this.fail("Cannot overwrite a value");
    table[last] = value;
    known.get(table).keys[last] = { from, to };
  }

  // A key with its parts.
  key() {
    const keys = [];
    do {
      this.space();
      const quote = this.text[this.at];
      const key = quote === '"' || quote === "'" ? this.string(quote, false) : this.match(BARE)?.[0];
      if (key === undefined) this.fail("Invalid initial character for a key part");
      keys.push(key);
      this.space();
    } while (this.take("."));
    return keys;
  }

  value() {
    const first = this.text[this.at];
    if (first === '"' || first === "'") return this.string(first, true);
    if (first === "[" || first === "{") {
      if (++this.deep > MOST_DEEP) this.fail("Too deep");
      const made = first === "[" ? this.array() : this.inline();
      this.deep--;
      return made;
    }
    const from = this.at, date = this.match(DATE)?.[0];
    if (date?.[4] === "-" && !momentIn(date.slice(0, 10))) {
      this.at = from;
      this.fail("Invalid date or datetime");
    }
    if (date) return { date };
    const number = this.match(NUMBER);
    if (number) return this.number(number[0].replaceAll("_", ""), number[1]);
    const word = this.match(WORD);
    if (!word) this.fail("Invalid value");
    return word[1] ? word[1] === "true" : Number(word[0].replace("inf", "Infinity"));
  }

  number(text, isFloat) {
    if (isFloat) return Number(text);
    return text.startsWith("-") ? -BigInt(text.slice(1)) : BigInt(text.replace(/^\+/, ""));
  }

  array() {
    const made = [];
    this.take("[");
    for (this.blanks(); !this.take("]"); this.blanks()) {
      made.push(this.value());
      this.blanks();
      if (!this.take(",") && this.text[this.at] !== "]") this.fail("Unclosed array");
    }
    return made;
  }

  inline() {
    const made = newTable({ from: this.at });
    this.take("{");
    this.space();
    if (!this.take("}")) {
      do {
        this.pair(made, made);
        this.space();
      } while (this.take(","));
      if (!this.take("}")) this.fail("Unclosed inline table");
    }
    this.close(made);
    known.get(made).to = this.at;
    return made;
  }

  // Nothing is added to a table within a line, nor to those in it.
  close(table) {
    known.get(table).isInline = true;
    for (const it of Object.values(table)) if (isTable(it) && !known.get(it).isInline) this.close(it);
  }

  string(quote, mayBeLong) {
    const long = quote.repeat(3), isLong = mayBeLong && this.text.startsWith(long, this.at),
      end = isLong ? long : quote;
    this.at += end.length;
    if (isLong && !this.take("\n")) this.take("\r\n");
    let made = "";
    for (;;) {
      if (this.at >= this.text.length) this.fail("Unterminated string");
      if (this.take(end)) {
        // Quotes right before the end are of the text.
        for (let more = 0; isLong && more < 2 && this.take(quote); more++) made += quote;
        return made;
      }
      made += this.character(quote, isLong);
    }
  }

  character(quote, isLong) {
    const it = this.text[this.at];
    if (it === "\\" && quote === '"') return this.escape(isLong);
    if (isLong && (this.take("\n") || this.take("\r\n"))) return "\n";
    if (/[\0-\x08\x0A-\x1F\x7F]/.test(it)) this.fail(`Illegal character ${shownCharacter(this.text.slice(this.at))}`);
    this.at++;
    return it;
  }

  escape(isLong) {
    this.at++;
    if (isLong && this.match(/[ \t]*\r?\n(?:[ \t\n]|\r\n)*/y)) return "";
    const kind = this.text[this.at++], size = { u: 4, U: 8 }[kind];
    if (kind in ESCAPES) return ESCAPES[kind];
    const digits = size ? this.text.slice(this.at, this.at + size) : "", code = parseInt(digits, 16);
    if (digits.length !== size || !HEX.test(digits) || code > 0x10ffff || (code >= 0xd800 && code <= 0xdfff)) this.fail(
      "Unescaped '\\' in a string");
    this.at += size;
    return String.fromCodePoint(code);
  }
}

// What a document says. Throws a TomlFault where it is none.
export const tomlIn = text => new Reader(text).document();
