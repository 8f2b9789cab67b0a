// The rest of a plan from a step on, as a session of its own: its stores begin with what they hold then, and its first
// step is that one.
import { octetsIn } from "./amounts.js";
import { beginOf } from "./clock.js";
import { textOf } from "./moments.js";
import { setupOf, withNumber } from "./setup.js";
import { NOTHING, forecastOf, forecastText } from "./texts.js";

export function restOf(session, records, step) {
  const { header, records: rows } = forecastOf(session.forecast), done = records.steps.slice(0, step - 1),
    last = done.at(-1);
  let { setup } = session;
  setupOf(setup).store.forEach(({ keys }, nth) => {
    setup = withNumber(setup, "store", nth, "start", String(last.of.get(keys.id).held));
  });
  const rest = rows.slice(step - 1).map((record, nth) => [String(nth + 1), ...record.slice(1)]);
  const sum = what => done.reduce((all, row) => all + row[what], 0),
    before = session.before ?? { steps: 0, lost: 0, sent: 0, octets: 0 }, begin = beginOf(session, step);
  const moved = it =>
    ({ ...it, windows: it.windows.filter(([at]) => at >= step).map(([at, blocks]) => [at - step + 1, blocks]) });
  return {
    ...session,
    setup,
    forecast: forecastText(session.forecast, { header, records: rest }),
    given: NOTHING,
    begins: session.edges || begin === null ? session.begins : textOf(begin),
    edges: session.edges?.slice(step - 1) ?? null,
    passes: session.passes.map(moved).filter(it => it.windows.length),
    before: { steps: before.steps + step - 1, lost: before.lost + sum("lost"), sent: before.sent + sum("dumped"),
      octets: before.octets + octetsIn(session, done.flatMap(row => [...row.of].map(([id, it]) => [id, it.lost]))) },
  };
}
