// Where each section and point of the one-line diagram lies: sections in columns from the sources outward, a feeder
// along its row and its branches below it; points that close a loop run in lanes of their own between columns and rows.
// What only a jumper joins lies in rows of its own below, and moves nothing.

import { BOX, FEED, pointBox, sectionBox, signBoxes } from "./boxes.js";
import { jumperEdges } from "./jumper-lines.js";
import { placings, treeOf } from "./tree.js";

const ROW = 56, LANE = 24;    // from row to row; what each lane between them adds
const BELOW = 18;             // where a point lies under a row on an upright line
const LETTER = 9.8, SMALL = 9.2; // widths of a letter of a section's name and of a point's
const MARGIN = 44, TRACK = 16, MOST_WIDE = 8;
const WIDEST = 150;           // of the names of points beside a line that rises
const BESIDE = 28, AROUND = 46, ZONE = 110; // what lies at a point beside its name; how wide its zone is at least
const ASIDE = 90;             // beside the last column, where its texts may be longer than its sections
const SHAPE = 16 / 9, MORE_ROW = 90; // the shape of the area; how much farther apart rows are at most, to fill it
const LONE = 190;             // from one to the next of the sections that only jumpers join

// The points that are not in the tree, with their left (or upper) end first.
function tiesOf(network, spots, parent) {
  const inTree = new Set([...parent.values()].filter(Boolean).map((up) => up.point.name));
  return [...network.points.values()].filter((point) => !point.jumper && !inTree.has(point.name)).map((point) => {
    const ends = [spots.get(point.from), spots.get(point.to)]
      .sort((a, b) => a.column - b.column || a.row - b.row);
    return { point, a: ends[0], b: ends[1] };
  });
}

// Gives intervals that overlap different tracks; those that stay in their channel and the short ones first, so that
// they lie inside.
function tracks(items, key, low, high, name) {
  const lists = new Map();
  const inner = (item) => (item.lane === null ? 0 : 1);
  for (const item of [...items].sort((x, y) => inner(x) - inner(y) || (high(x) - low(x)) - (high(y) - low(y)))) {
    const list = lists.get(key(item)) ?? lists.set(key(item), []).get(key(item));
    let track = 0;
    while ((list[track] ?? []).some((other) => low(item) < high(other) && low(other) < high(item))) track++;
    (list[track] ??= []).push(item);
    item[name] = track;
  }
  return lists;
}

// A lane of its own for each tie between two columns, a track for each: lists of both.
function tracked(ties) {
  for (const tie of ties) {
    const level = tie.a.column === tie.b.column;
    tie.lane = level ? null : tie.a.row <= tie.b.row ? tie.b.row - 0.5 : tie.b.row + 0.5;
  }
  const end = (tie) => tie.lane ?? tie.b.row;
  const low = (tie) => Math.min(tie.a.row, end(tie)) - 0.1, high = (tie) => Math.max(tie.a.row, end(tie)) + 0.1;
  const channels = tracks(ties, (tie) => tie.a.column, low, high, "track");
  const lanes = tracks(ties.filter((tie) => tie.lane !== null), (tie) => tie.lane, (tie) => tie.a.column, (tie) => tie.b.column + 1, "sub");
  return { channels, lanes };
}

// The height of each row, and of the lanes between two; `more` is what each row gets beside that.
function levels(rows, lanes, more = 0) {
  const count = (gap) => lanes.get(gap)?.length ?? 0;
  const heights = [ROW + count(-0.5) * LANE];
  for (let row = 1; row <= rows; row++) heights.push(heights[row - 1] + ROW + more + count(row - 0.5) * LANE);
  const lane = (tie) => {
    const row = tie.lane + 0.5, above = row === 0 ? 0 : heights[row - 1];
    return (above + heights[row]) / 2 + (tie.sub - (count(tie.lane) - 1) / 2) * LANE;
  };
  return { heights, lane };
}

const boxWidth = (name) => Math.max(48, name.length * LETTER + 22); // with room for the flash of a live one
const widest = (names, letter) => Math.max(0, ...names.map((name) => name.length * letter));

// The left side of each column, and in the channel after it the place of its tracks, its trunk and its points.
function measure(spots, parent, channels) {
  const columns = [];
  for (const spot of spots.values()) (columns[spot.column] ??= []).push(spot);
  const measures = [];
  let left = MARGIN;
  columns.forEach((list, column) => {
    const width = Math.max(...list.map((spot) => spot.width + (spot.feed > 0 ? FEED : 0)));
    const lists = channels.get(column) ?? [];
    const names = lists.flat().map((tie) => tie.point.name);
    const step = TRACK + (lists.length && lists.length <= MOST_WIDE ? Math.min(widest(names, SMALL) + BESIDE, WIDEST) : 6);
    const labels = (columns[column + 1] ?? []).map((spot) => parent.get(spot.name)?.point.name ?? "");
    const zone = column + 1 < columns.length ? Math.max(ZONE, widest(labels, SMALL) + AROUND) : 0;
    const first = left + width + 14, trunk = first + lists.length * step;
    measures.push({ left, width, first, step, trunk, next: trunk + zone, zone });
    left = trunk + zone;
  });
  return measures;
}

// The line from a section to one that follows it. What branches off goes on from the branch above, so that no line is
// drawn twice.
function treeEdge(spot, up, from, ends, measures) {
  const { trunk, zone, next } = measures[from.column];
  const y = spot.y, begin = ends.get(from.name) ?? from.y;
  const path = from.row === spot.row ? `M${from.x + from.width},${y}H${spot.x}` : `M${trunk},${begin}V${y}H${spot.x}`;
  if (from.row !== spot.row) ends.set(from.name, y);
  return { point: up.point, path, x: next - zone / 2, y, kind: "row", dot: from.row === spot.row ? null : [trunk, begin] };
}

// Where on its line a tie's point is drawn: on the upright part, where that passes below a row, otherwise on its lane.
function tiePlace(tie, x, end, zone, { heights, lane }) {
  const top = Math.ceil(Math.min(end, tie.a.row)), last = Math.max(end, tie.a.row) - 1;
  if (last < top) return { x: zone - (tie.sub ?? 0) * 22, y: lane(tie), kind: "lane" };
  const gaps = Math.floor(last - top) + 1;
  const gap = Math.min(gaps - 1, Math.floor(gaps / 2) + (tie.track % 2));
  return { x, y: heights[top + gap] + BELOW, kind: "upright" };
}

// The line of a tie. From a section that others follow it branches off the line to them.
function tieEdge(tie, entries, leads, measures, level) {
  const channel = measures[tie.a.column];
  const x = channel.first + tie.track * channel.step;
  const right = (spot) => (leads.has(spot.name) ? x : spot.x + spot.width);
  const start = right(tie.a);
  if (tie.lane === null) {
    const path = `M${start},${tie.a.y}H${x}V${tie.b.y}H${right(tie.b)}`;
    return { point: tie.point, path, ...tiePlace(tie, x, tie.b.row, x, level), dot: [x, tie.a.y], other: [x, tie.b.y] };
  }
  const count = entries.get(tie.b.name) ?? 0;
  entries.set(tie.b.name, count + 1);
  const into = tie.b.x + tie.b.width - 12 - (count * 9) % Math.max(9, tie.b.width - 20);
  const side = tie.lane < tie.b.row ? tie.b.y - BOX / 2 : tie.b.y + BOX / 2;
  const spot = tiePlace(tie, x, tie.lane, channel.next - channel.zone / 2, level);
  return { point: tie.point, path: `M${start},${tie.a.y}H${x}V${level.lane(tie)}H${into}V${side}`, ...spot, dot: [x, tie.a.y] };
}

// A placing with its ties and the room that they take, and how large it is. A source at which the drawing begins has its
// sign at the left, another at the right.
function planOf(network, { parent }, { spots, rows }) {
  for (const spot of spots.values()) {
    spot.width = boxWidth(spot.name);
    spot.feed = network.sections.get(spot.name).source ? (parent.get(spot.name) ? 1 : -1) : 0;
  }
  const ties = tiesOf(network, spots, parent), { channels, lanes } = tracked(ties);
  const measures = measure(spots, parent, channels), width = (measures.at(-1)?.next ?? MARGIN) + ASIDE;
  const fill = (width / SHAPE - levels(rows, lanes).heights[rows]) / Math.max(1, rows - 1);
  const more = Math.min(MORE_ROW, Math.max(0, fill)), level = levels(rows, lanes, more);
  for (const spot of spots.values()) Object.assign(spot, { x: measures[spot.column].left, y: level.heights[spot.row] });
  return { spots, ties, measures, level, width, height: level.heights[rows] - more };
}

// The plan that is shown largest in an area of the usual shape.
function bestPlan(network, tree) {
  const size = ({ width, height }) => Math.max(width / SHAPE, height);
  return placings(tree).map((placing) => planOf(network, tree, placing)).reduce((best, next) => (size(next) < size(best) ? next : best));
}

function edgesOf({ parent }, { spots, ties, measures, level }) {
  const entries = new Map(), ends = new Map(), leads = new Set();
  const rows = [...spots.values()].filter((spot) => parent.get(spot.name)).sort((a, b) => a.row - b.row).map((spot) => {
    const up = parent.get(spot.name);
    leads.add(up.from);
    return treeEdge(spot, up, spots.get(up.from), ends, measures);
  });
  return [...rows, ...ties.map((tie) => tieEdge(tie, entries, leads, measures, level))];
}

// The sections that no point of the file joins, in rows below the others, each below what its first jumper joins, if that
// is free: how high the drawing is with them.
function placeLone(network, spots, { width, height }) {
  const across = Math.max(1, Math.floor((width - MARGIN) / LONE)), taken = new Set();
  const lone = [...network.sections.keys()].filter((name) => !spots.has(name));
  for (const name of lone) {
    const ends = network.ways.get(name).flatMap(({ from, to }) => [from, to]), near = spots.get(ends.find((end) => spots.has(end)));
    let slot = near ? Math.min(across - 1, Math.round((near.x - MARGIN) / LONE)) : 0;
    while (taken.has(slot)) slot += 1;
    taken.add(slot);
    const place = { x: MARGIN + (slot % across) * LONE, y: height + Math.floor(slot / across) * ROW };
    spots.set(name, { name, width: boxWidth(name), feed: network.sections.get(name).source ? -1 : 0, ...place });
  }
  return height + Math.ceil((Math.max(-1, ...taken) + 1) / across) * ROW;
}

export function layOut(network) {
  const tree = treeOf(network), plan = bestPlan(network, tree), { spots, width } = plan;
  const edges = edgesOf(tree, plan), height = placeLone(network, spots, plan);
  const jumpers = [...network.points.values()].filter(({ jumper }) => jumper);
  const boxes = [...[...spots.values()].flatMap((spot) => [sectionBox(spot), ...signBoxes(spot)]), ...edges.map(pointBox)];
  edges.push(...jumperEdges(jumpers, spots, boxes));
  return { spots, edges, width, height };
}
