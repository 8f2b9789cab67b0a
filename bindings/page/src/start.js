// The start screen: some examples with their charts, and the sessions that this browser keeps.
import { at, button, cellWith, make, row } from "./dom.js";
import { missionSession } from "./files.js";
import { shown } from "./moments.js";
import { withWindowsOf } from "./passes.js";
import { EMPTY } from "./session.js";
import { digits, encode } from "./texts.js";

const CARDS = [
  ["mars_week", "A week at Mars", "a mission in files: stores in MB, passes in UTC"],
  ["two_passes", "A day with two passes", "three stores, 24 steps of an hour"],
  ["mission", "An orbiter's eleven days", "ten stores, a limited channel, 256 steps"],
  ["in_order", "Stores in their order", "three stores, of which the first matters most"],
];

export function exampleSession(examples, name) {
  /** @type {[string, Octets][]} */
  const files = Object.entries(examples[name]).map(([file, text]) => [file, encode(text)]);
  const { "mission.toml": mission, "setup.toml": setup, "forecast.csv": forecast } = Object.fromEntries(files);
  return mission ? missionSession("mission.toml", new Map(files)).session
    : withWindowsOf({ ...EMPTY, setup, forecast, name: name.replaceAll("_", " ") });
}

// Lays the cards of the examples; their charts come when the library has drawn them.
export function layCards(ask, examples, opens) {
  at("cards").replaceChildren(...CARDS.map(([name, title, words]) => {
    const card = make("button", "", { className: "card", type: "button" }), image = make("img", "", { alt: "" });
    card.dataset.example = name;
    card.append(image, make("b", title), make("span", words));
    card.onclick = () => opens(name);
    drawCard(ask, exampleSession(examples, name), image);
    return card;
  }));
}

async function drawCard(ask, session, image) {
  const { plan } = await ask("judge", session), { octets } = plan ? await ask("chart", session, plan)
    : { octets: null };
  if (!octets) return;
  image.src = URL.createObjectURL(new Blob([octets], { type: "image/svg+xml" }));
  image.onload = () => URL.revokeObjectURL(image.src);
}

// Lists what is kept.
export function showKept(list) {
  at("kept").hidden = !list.length;
  at("kept-list").tBodies[0].replaceChildren(...list.map(({ name, time, title, lost, inUnit }) => {
    const acts = cellWith(button("Open", `kept-open ${name}`, `Open ${title}`),
      button("Forget", `kept-forget ${name}`, `Forget ${title}`));
    acts.className = "text";
    const said = inUnit ?? (typeof lost === "number" ? digits(lost) : "not known");
    return row(make("td", shown(time * 1000), { className: "text" }),
      make("th", title, { scope: "row", className: "text" }), make("td", said, { className: lost ? "lost" : "is" }),
      acts);
  }));
}
