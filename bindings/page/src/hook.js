// For tests alone, and not in the page that is released: what the page holds, and the library called by itself.
import { desk, history, isBusy, moduleIn } from "./main.js";
import { taken } from "./events.js";
import { missionSession } from "./files.js";
import { libraryOf } from "./library.js";
import { Faults } from "./units.js";
import { shadedChart, worthsText } from "./worth.js";

// What is saved, in place of a folder.
const saved = [], url = URL.createObjectURL;
URL.createObjectURL = blob => {
  saved.push(blob);
  return url.call(URL, blob);
};
// How long the page was busy at a time, in milliseconds.
let longest = 0, ticked = performance.now();
setInterval(() => {
  longest = Math.max(longest, performance.now() - ticked);
  ticked = performance.now();
}, 5);

// What a mission's files make: the setup, the forecast and the edges of the steps from its begin on, or its faults.
function missionMade(files) {
  try {
    const read = new Map(Object.entries(files).map(([name, text]) =>
      [name, Uint8Array.from(atob(text), it => it.charCodeAt(0))]));
    const { session: { setup, forecast, edges } } = missionSession("mission.toml", read),
      text = it => new TextDecoder().decode(it);
    return { setup: text(setup), forecast: text(forecast), edges: edges.map(it => it - edges[0]) };
  } catch (fault) {
    if (fault instanceof Faults) return { fault: fault.message };
    throw fault;
  }
}

async function hook() {
  const module = await moduleIn();
  // What is asked as the page begins may wait for an answer.
  while (!document.documentElement.dataset.ready) await new Promise(done => setTimeout(done, 5));
  window.rudlayog = {
    library: libraryOf(module), libraryOf, module, desk, saved, missionMade,
    get longest() { return longest; },
    set longest(value) { longest = value; },
    get state() {
      const { now } = history, answer = desk.answers.known(now) ?? {};
      return { ...answer, ...now, isBusy: isBusy(), isSaved: history.isSaved, taken, worths: worthsText(),
        shaded: shadedChart(now), drawn: shadedChart(now) ?? answer.chart };
    },
  };
  document.documentElement.dataset.hook = "yes";
}

hook();
