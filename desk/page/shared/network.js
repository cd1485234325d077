// The network and the staff as the register has them: sections, points with their positions, hands and holds, and who
// works here. It is asked for at the start and whenever the board has changed, and kept in the same maps all the time,
// since a jumper may come.

import { forgetNormal, normalPositions } from "./served-files.js";

export const network = {
  sections: new Map(), // name: { name, source, live, holds }
  points: new Map(),   // name: { name, from, to, lockable, remote, jumper, position, hand, holds, normal }
  staff: new Map(),    // name: { name, role, supervisor }
  ways: new Map(),     // section: the points with an end there
  shape: "",           // what the diagram is drawn from: it is drawn again where this has changed
};

function refill(map, rows) {
  map.clear();
  for (const row of rows) map.set(row.name, row);
}

const KINDS = ["HeldOpen", "Block", "Control", "Tag"]; // of holds at a point, as they are put there

const inOrder = (holds) => [...holds].sort((a, b) => KINDS.indexOf(a.kind) - KINDS.indexOf(b.kind));
const sectionOf = ({ section: name, source, live, holds }) => ({ name, source, live, holds });

// Normal positions come from the points file that the register was made from, where that is served. A jumper has none.
function pointOf({ point: name, from, to, lockable, remote, jumper, position, hand, holds }, normal) {
  return { name, from, to, lockable, remote, jumper, position, hand, holds: inOrder(holds), normal: jumper ? null : normal.of(name, from, to) };
}

function fillWays() {
  network.ways.clear();
  for (const name of network.sections.keys()) network.ways.set(name, []);
  for (const point of network.points.values()) for (const end of [point.from, point.to]) network.ways.get(end)?.push(point);
}

// All that the diagram and a fence are worked out from: an update may give a point of the same name other ends.
function shapeOf(known) {
  const sections = [...network.sections.values()].map(({ name, source }) => (source ? `${name} source` : name));
  const points = [...network.points.values()].map(({ name, from, to, jumper }) => `${name} ${from} ${to}${jumper ? " jumper" : ""}`);
  return [known, ...sections, "|", ...points].join(" ");
}

let ends = ""; // the points as they were last answered, with their ends

// Takes what the register has answered.
export async function takeNetwork({ sections, points, staff }) {
  const now = JSON.stringify(points.map(({ point, from, to }) => [point, from, to]));
  if (now !== ends) forgetNormal();
  ends = now;
  const normal = await normalPositions();
  refill(network.sections, sections.map(sectionOf));
  refill(network.points, points.map((row) => pointOf(row, normal)));
  refill(network.staff, staff.map(({ employee: name, role, supervisor }) => ({ name, role, supervisor })));
  fillWays();
  network.shape = shapeOf(normal.known);
}

export function marksOf(point) {
  return [point.lockable ? "lockable" : null, point.remote ? "remote" : null, point.jumper ? "jumper" : null].filter(Boolean).join(", ") || "none";
}

export function namesOfRole(staff, role) {
  return [...staff.values()].filter((row) => row.role === role).map((row) => row.name);
}

// A step as it is said, at a point that this network does not have: what is read here is not taken for what was heard.
export function exampleStep(network) {
  let number = 1;
  while (network.points.has(`EXAMPLE-${number}`)) number++;
  return `OPEN EXAMPLE-${number}`;
}
