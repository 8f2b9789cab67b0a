// When the steps of a session begin: by the time of step 1 and the length of a step, or, of a mission, from event to
// event. Microseconds in UTC.
import { MINUTE, isShowable, momentOf } from "./moments.js";

const LEAST = 1 / 60, MOST = 366 * 24 * 60; // minutes of a step

// The length of a step; null where what is typed is none.
export function lengthOf({ minutes }) {
  const found = /^\d+(\.\d+)?$/.test(String(minutes).trim()) ? Number(minutes) : NaN;
  return found >= LEAST && found <= MOST ? Math.round(found * MINUTE) : null;
}

// The begin of step 1 and the length of a step, of each session read once.
const clocks = new WeakMap();
function clockOf(session) {
  if (!clocks.has(session)) clocks.set(session, { start: momentOf(session.begins), length: lengthOf(session),
    edges: new Map() });
  return clocks.get(session);
}

// When a step begins, or the last one ends; null where no time is said.
/**
 * @param {Session} session
 * @param {number} step
 * @returns {Moment | null}
 */
export function beginOf(session, step) {
  if (session.edges) return session.edges[step - 1] ?? null;
  const { start, length } = clockOf(session),
    begin = start === null || length === null ? null : start + (step - 1) * length;
  return begin !== null && isShowable(begin) ? begin : null;
}

// The begins of all steps and the end of the last one; null where no times are said.
/**
 * @param {Session} session
 * @param {number} count
 * @returns {Moment[] | null}
 */
export function edgesOf(session, count) {
  const { edges } = clockOf(session);
  if (!edges.has(count)) {
    const all = Array.from({ length: count + 1 }, (_, nth) => beginOf(session, nth + 1));
    edges.set(count, all.includes(null) ? null : all);
  }
  return edges.get(count);
}

export const hasClock = session => beginOf(session, 1) !== null;

// The minutes of a step, also where no time is said.
export function minutesOf(session, step) {
  if (session.edges) return (session.edges[step] - session.edges[step - 1]) / MINUTE;
  return (lengthOf(session) ?? 60 * MINUTE) / MINUTE;
}
