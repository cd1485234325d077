// The position of a point before an isolating order opened it. The page keeps what the register showed while the order's
// OPEN was still waiting; without that it looks into the log.

import { movedBefore } from "../log/log-words.js";
import { keepIn, readKept } from "../shared/storage.js";
import { room } from "../shared/watch.js";

const KEPT = "gridclear-before", MOST_KEPT = 200;

const before = new Map(readKept("localStorage", KEPT) ?? []); // "clearance point" to its position

function waitingOpens({ card, steps }) {
  if (card.phase !== "Ordered") return [];
  return steps.filter((step) => step.state !== "Done" && step.text.startsWith("OPEN ")).map((step) => step.text.split(" ")[1]);
}

// A clearance that is over has no order to come, and in a new register its name comes again.
function dropOver() {
  if (room.read === null) return false;
  const present = new Set(room.board.map((row) => row.id));
  const over = [...before.keys()].filter((key) => !present.has(key.split(" ")[0]));
  for (const key of over) before.delete(key);
  return over.length > 0;
}

// Keeps the positions at which the points are whose OPEN is not done.
export function noteBefore() {
  let any = dropOver();
  for (const view of room.views.values()) {
    for (const name of waitingOpens(view)) {
      const row = view.points.find(({ point }) => point === name), key = `${view.card.clearance} ${name}`;
      if (!row || before.get(key) === row.position) continue;
      before.set(key, row.position);
      any = true;
    }
  }
  if (any) keepIn("localStorage", KEPT, [...before].slice(-MOST_KEPT));
}

// { position, from }: the position before the order of this clearance; null where neither this browser saw it, nor the part
// of the log that was read has it.
export function positionBefore(state, clearance) {
  const { name } = state.point, seen = before.get(`${clearance} ${name}`);
  if (seen) return { position: seen, from: "seen here when it was ordered" };
  const moved = movedBefore(clearance, name);
  if (moved) return { position: moved.position, from: `by the log: ${moved.text} under ${moved.id}` };
  return { position: null, from: "this browser did not see it" };
}
