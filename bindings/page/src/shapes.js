// Shapes of the chart over a part of the time, which is shown from a place to another one; `edges` has the places
// where steps begin and the last one ends.
import { make } from "./dom.js";

const SVG = "http://www.w3.org/2000/svg", WIDE = 1000, HIGH = 100;

// A picture of paths, each with the name of its kind.
/** @param {string[][]} shapes */
export function drawingOf(shapes) {
  const picture = document.createElementNS(SVG, "svg");
  picture.setAttribute("preserveAspectRatio", "none");
  picture.setAttribute("viewBox", `0 0 ${WIDE} ${HIGH}`);
  for (const [name, d] of shapes) {
    if (!d) continue;
    const path = document.createElementNS(SVG, "path");
    path.setAttribute("class", name);
    path.setAttribute("d", d);
    picture.append(path);
  }
  return picture;
}

/**
 * @param {{ from: number, to: number }} view
 * @param {number[]} edges
 * @returns {Scale}
 */
export function scaleOf({ from, to }, edges) {
  const fractionAt = place => (place - from) / (to - from),
    xOf = place => (WIDE * Math.max(-1, Math.min(2, fractionAt(place)))).toFixed(2),
    yOf = part => ((1 - Math.min(1, part)) * HIGH).toFixed(2);
  const box = (left, right, low, high) => (high > low
    ? `M${xOf(left)} ${yOf(low)}H${xOf(right)}V${yOf(high)}H${xOf(left)}Z` : "");
  return {
    fractionAt, box, view: { from, to },
    isShown: (left, right) => right >= from && left <= to,
    // Bars from `low` to `high` of each step, as parts of the lane's height.
    bars: (steps, low, high) => steps.map((row, nth) => (edges[nth + 1] < from || edges[nth] > to ? ""
      : box(edges[nth], edges[nth + 1], low(row, nth), high(row, nth)))).join(""),
    spans: list => list.map(([left, right]) => box(left, right, 0, 1)).join(""),
  };
}

// A lane with its name, what is said of it, and its box.
/**
 * @param {string} name
 * @param {Node | string} said
 */
export function laneOf(name, said, more = "") {
  const lane = make("div", "", { className: "lane" }), label = make("span", "", { className: "lane-name" }),
    box = make("span", "", { className: "lane-box" });
  label.append(make("b", name));
  if (more) label.append(make("span", more, { className: "lane-more" }));
  label.append(said);
  lane.append(label, box);
  return [lane, box];
}
