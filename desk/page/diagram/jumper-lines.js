// The lines of jumpers, drawn over a network that lies as it did without them: dashed, and past every box and symbol.

import { BOX, partsOf, pointBox } from "./boxes.js";

const ABOVE = -20, BELOW = 26;  // from the middle of a section to a line beside its row: below there is the sign of a ground
const BESIDE = 4, APART = 3;    // from a box to a line that rises beside it; from one jumper to the next
const NEAR = 3, CLEAR = 8;      // what is free beside a line, and around its point
const HIT = 1e5;                // what it costs to run through something, in lengths
const PLACES = [0.5, 0.35, 0.65, 0.2, 0.8];

const grown = ([left, top, right, bottom], by) => [left - by, top - by, right + by, bottom + by];
const overlap = (one, other) => one[0] < other[2] && other[0] < one[2] && one[1] < other[3] && other[1] < one[3];
const longOf = ([left, top, right, bottom]) => right - left + bottom - top;

// From one box up or down to its row's side, along it, along a line that rises at x, and so to the other. Its parts are
// what lies between the two boxes.
function lineAt(a, b, x, [fromY, toY]) {
  const edge = (end, out) => end.y + (Math.sign(out) * BOX) / 2, dot = [a.x, edge(a, fromY)], other = [b.x, edge(b, toY)];
  const path = `M${dot}V${a.y + fromY}H${x}V${b.y + toY}H${b.x}V${other[1]}`;
  return { path, parts: partsOf(path).slice(1, -1), dot, other };
}

// The line that runs through nothing, as far as there is one, and is the shortest.
function bestLine(a, b, sides, boxes) {
  const cost = ({ parts }) => parts.reduce((sum, part) => sum + longOf(part)
    + HIT * boxes.filter((box) => overlap(grown(part, NEAR), box)).length, 0);
  const ways = [ABOVE, BELOW].flatMap((from) => [ABOVE, BELOW].map((to) => [from, to]));
  const lines = sides.flatMap((x) => ways.map((way) => lineAt(a, b, x, way))).map((line) => ({ ...line, cost: cost(line) }));
  return lines.reduce((best, next) => (next.cost < best.cost ? next : best));
}

// Where its point lies: in the middle of its longest part, or where nothing is near.
function placeOn({ parts }, boxes) {
  const places = [...parts].sort((one, other) => longOf(other) - longOf(one)).flatMap(([left, top, right, bottom]) =>
    PLACES.map((at) => ({ x: left + (right - left) * at, y: top + (bottom - top) * at, kind: left === right ? "upright" : "lane" })));
  return places.find((place) => boxes.every((box) => !overlap(grown(pointBox(place), CLEAR), box))) ?? places[0];
}

// The edges of these jumpers; `boxes` are those of sections, signs and points.
export function jumperEdges(jumpers, spots, boxes) {
  const points = [], lines = [];
  return jumpers.filter(({ from, to }) => spots.has(from) && spots.has(to)).map((point, place) => {
    const turn = (place % 3) * APART, end = ({ x, y, width }) => ({ x: x + width / 2 + 2 * turn - 2 * APART, y });
    const sides = [...new Set([...spots.values()].flatMap(({ x, width }) => [x - BESIDE - turn, x + width + BESIDE + turn]))];
    const line = bestLine(end(spots.get(point.from)), end(spots.get(point.to)), sides, [...boxes, ...points]);
    const spot = placeOn(line, [...boxes, ...points, ...lines]);
    points.push(pointBox(spot));
    lines.push(...line.parts);
    return { point, ...line, ...spot };
  });
}
