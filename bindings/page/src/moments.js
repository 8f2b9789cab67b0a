// Moments in UTC, as microseconds since 1970, and how they are written: ISO 8601, and CCSDS 301.0-B with the day of the
// year.
export const SECOND = 1_000_000, MINUTE = 60 * SECOND, HOUR = 60 * MINUTE, DAY = 24 * HOUR;

const FULL = /^(\d{4})-(\d\d)-(\d\d)$/, PLAIN = /^(\d{4})(\d\d)(\d\d)$/, WEEK = /^(\d{4})-?W(\d\d)(?:-?(\d))?$/,
  COUNTED = /^(\d{4})-(\d{3})$/;
const CLOCK = /^(\d\d)(?::?(\d\d)(?::?(\d\d)(?:[.,](\d+))?)?)?$/;
const MOST_OFFSET = 24 * HOUR;

const isLeap = year => (year % 4 === 0 && year % 100 !== 0) || year % 400 === 0;
const daysIn = (year, month) => [31, isLeap(year) ? 29 : 28, 31, 30, 31, 30, 31, 31, 30, 31, 30, 31][month - 1];

// The begin of a day; null where the calendar has none of this number.
function dayOf(year, month, day) {
  if (year < 1 || month < 1 || month > 12 || day < 1 || day > daysIn(year, month)) return null;
  return new Date(0).setUTCFullYear(year, month - 1, day) * 1000;
}

function weekDay(year, week, day) {
  const fourth = new Date(0).setUTCFullYear(year, 0, 4),
    first = fourth - ((new Date(fourth).getUTCDay() + 6) % 7) * 86_400_000;
  const found = (first + ((week - 1) * 7 + day - 1) * 86_400_000) * 1000,
    weeks = (weekStart(year + 1) - weekStart(year)) / 7;
  return week < 1 || week > weeks || day < 1 || day > 7 ? null : found;
}

function weekStart(year) {
  const fourth = new Date(0).setUTCFullYear(year, 0, 4);
  return Math.round(fourth / 86_400_000) - ((new Date(fourth).getUTCDay() + 6) % 7);
}

// The day that a text writes.
function dateIn(text) {
  const plain = FULL.exec(text) ?? PLAIN.exec(text), week = WEEK.exec(text), counted = COUNTED.exec(text);
  if (plain) return dayOf(...plain.slice(1).map(Number));
  if (week) return weekDay(Number(week[1]), Number(week[2]), Number(week[3] ?? 1));
  if (!counted) return null;
  const [year, day] = counted.slice(1).map(Number);
  return day >= 1 && day <= (isLeap(year) ? 366 : 365) ? dayOf(year, 1, 1) + (day - 1) * DAY : null;
}

// The time of a day that a text writes, or an offset from UTC. Colons stand between all of its parts or between none.
function clockIn(text) {
  const found = CLOCK.exec(text);
  if (!found || (text.includes(":") && !/^\d\d(:\d\d){0,2}([.,]|$)/.test(text))) return null;
  const [hour, minute, second] = found.slice(1, 4).map(it => Number(it ?? 0)),
    part = Number((found[4] ?? "").slice(0, 6).padEnd(6, "0"));
  return hour > 23 || minute > 59 || second > 59 ? null : hour * HOUR + minute * MINUTE + second * SECOND + part;
}

// What a text says: its `time` without regard to a zone, and the `offset` of its zone from UTC, or null where it has
// none. Null where the text is no moment.
export function momentIn(text) {
  const found = /^(\S{7,10})(?:[T ](\S*?)(Z|[+-]\d[\d:.]*)?)?$/.exec(text.trim());
  if (!found) return null;
  const [, date, clock, zone] = found, day = dateIn(date), time = clock === undefined ? 0 : clockIn(clock);
  const offset = !zone ? null : zone === "Z" ? 0 : clockIn(zone.slice(1));
  if (day === null || time === null || (zone && offset === null) || offset >= MOST_OFFSET) return null;
  return { time: day + time, offset: zone?.startsWith("-") ? -offset : offset, isDate: clock === undefined };
}

// The moment of a clock that is typed: in UTC where no zone is said, and never a day alone. Null where it is none.
export function momentOf(text) {
  const found = momentIn(text);
  return found && !found.isDate && isShowable(found.time) ? found.time - (found.offset ?? 0) : null;
}

const FIRST = dayOf(1, 1, 1), LAST = dayOf(9999, 12, 31) + DAY;
export const isShowable = moment => moment >= FIRST && moment < LAST;

// A moment as ISO 8601 with the given sign between day and time: to the minute, or as exact as it is.
export function textOf(moment, between = " ") {
  if (!isShowable(moment)) return "";
  const part = ((moment % SECOND) + SECOND) % SECOND, text = new Date(Math.floor(moment / 1000)).toISOString()
    .slice(0, 19).replace("T", between);
  if (part) return `${text}.${String(part).padStart(6, "0")}`;
  return text.endsWith(":00") && between === " " ? text.slice(0, 16) : text;
}

// A moment as the Python package writes it.
export const written = moment => `${textOf(moment, "T")}Z`;

// A moment for people, as 27 Nov 13:10.
export function shown(moment) {
  if (moment === null || !isShowable(moment)) return "";
  const [, day, month, , time] = new Date(Math.floor(moment / 1000)).toUTCString().split(" ");
  return `${day} ${month} ${time.slice(0, time.endsWith(":00") ? 5 : 8)}`;
}

// A time span for people, with its day once where it is one.
export function shownSpan(from, to) {
  const [begin, end] = [from, to].map(shown);
  return `${begin} to ${begin.slice(0, 6) === end.slice(0, 6) ? end.slice(7) : end}`;
}
