// Sessions stay in the browser, on this machine alone: each under a key of its own, with its time, its name and what
// was lost. A page writes its own alone; where another one took it over, the page goes on under a new key. None makes
// way for another one: where there is no room, the planner says which are forgotten.
import { fromJson, toJson } from "./session.js";

const PREFIX = "rudlayog session ";
const SOON = 300; // milliseconds, after which a change is written
const newName = () => `${Date.now().toString(36)}${Math.random().toString(36).slice(2, 10)}`;

// A stamp of a text, which differs where the text does.
export function stampOf(text) {
  let hash = 5381;
  for (let at = 0; at < text.length; at++) hash = (Math.imul(hash, 33) ^ text.charCodeAt(at)) >>> 0;
  return `${text.length} ${hash}`;
}

// `told` is called with what a planner must know of the storage, or with nothing.
export function keeperOf(storage, told) {
  const tab = newName();
  let key = null, timer = 0, due = null, isPlain = false, wasWorkedOn = false;

  const read = name => {
    try {
      const it = JSON.parse(storage().getItem(PREFIX + name));
      return it && typeof it.session === "string" ? it : null;
    } catch {
      return null;
    }
  };

  function names() {
    try {
      return Object.keys(storage()).filter(it => it.startsWith(PREFIX)).map(it => it.slice(PREFIX.length));
    } catch {
      return [];
    }
  }

  const list = () => names().map(name => ({ name, ...read(name) })).filter(it => it.session)
    .sort((a, b) => b.time - a.time);

  function write() {
    clearTimeout(timer);
    if (!due) return true;
    const { session, about } = due;
    try {
      const there = key && read(key);
      // Another page has it now, or the other page was told that it is no longer there.
      if (!key || (there && there.tab !== tab)) key = newName();
      storage().setItem(PREFIX + key,
        JSON.stringify({ ...about, tab, time: Date.now(), session: toJson(session) }));
      sessionStorage.setItem("rudlayog", key);
      told("");
      due = null;
      return true;
    } catch {
      const what = read(key) ? "what was changed last" : "this session";
      told(`This browser has no room for ${what}, and does not keep it: save all in one file.`);
      return false;
    }
  }

  return {
    // A little later, so that no key press waits for it.
    soon(session, about) {
      due = { session, about };
      wasWorkedOn ||= !about.isAsOpened;
      isPlain = !wasWorkedOn && !about.isChanged;
      clearTimeout(timer);
      timer = setTimeout(write, SOON);
    },
    now: write,
    // What is opened next is kept under a name of its own. An example or a file that was only looked at does not stay.
    part() {
      write();
      if (key && isPlain && read(key)?.tab === tab) storage().removeItem(PREFIX + key);
      [key, due, wasWorkedOn] = [null, null, false];
      sessionStorage.removeItem("rudlayog");
    },
    // Takes over what is kept under a name, so that a page which has it open goes on under another.
    take(name) {
      const record = read(name), session = record && fromJson(record.session);
      if (!session) return null;
      [key, wasWorkedOn] = [name, true];
      try {
        storage().setItem(PREFIX + name, JSON.stringify({ ...record, tab }));
        sessionStorage.setItem("rudlayog", name);
      } catch {
        // It is written anew with the next change.
      }
      return { ...record, session };
    },
    forget(name) {
      storage().removeItem(PREFIX + name);
      write();
    },
    list,
    // What else is kept than the session that is worked on.
    others: () => list().filter(it => it.name !== key),
    // What this tab worked on, before the page was loaded again.
    get last() {
      try {
        const name = sessionStorage.getItem("rudlayog");
        return name && read(name) ? { name, ...read(name) } : null;
      } catch {
        return null;
      }
    },
  };
}
