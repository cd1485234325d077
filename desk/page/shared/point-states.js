// What is known of each point: its position, hand and holds, as the register has them; and the steps that are not done
// there, of the records on the board.

import { isUnderWay } from "../clearances/offers.js";
import { network } from "./network.js";

function addSteps(known, id, view) {
  view.steps.forEach(({ text, state, reader }, place) => {
    known.get(text.split(" ")[1])?.steps.push({ id, number: place + 1, text, state, reader });
  });
}

// By name: { point, position, hand, holds, steps }.
export function pointStates(room) {
  const known = new Map([...network.points.values()].map((point) => [point.name, { point, position: point.position, hand: point.hand, holds: point.holds, steps: [] }]));
  for (const [id, view] of room.views) if (isUnderWay(view)) addSteps(known, id, view);
  return known;
}

// Whether the normal position of any point is known.
export const knowsNormal = () => [...network.points.values()].some(({ normal }) => normal !== null);

// Where the normal position is known, and is not the present one.
export const isOffNormal = ({ position, point }) => point.normal !== null && position !== point.normal;
