// Which steps this desk has given out. A step is read out where its instruct was accepted, and nowhere before that; the
// tab keeps it through a reload, until somebody has repeated the step.

import { now } from "../shared/moments.js";
import { keepIn, readKept } from "../shared/storage.js";
import { boardLine, room } from "../shared/watch.js";
import { presentStep } from "./offers.js";

const KEPT = "gridclear-given";
const GAP = 30; // seconds without a look at the register, in which another desk may have done it all again

// Clearance to { round, step, at, sure, seen, looked }. `at` is the instruct's moment; `sure`: its reply came, at a moment
// near the clock, and no gap since; `seen`: a view had the step as given out since then; `looked`: the last look.
const given = new Map(readKept("sessionStorage", KEPT) ?? []);

const keep = () => { keepIn("sessionStorage", KEPT, [...given]); };

// An instruct of this desk was accepted. It is not sure that no other desk gave the same where the reply was lost, or
// where the moment is far off the clock: then all commands of the record have that moment.
export function noteGiven({ clearance, round, step, at }, sure = true) {
  given.set(clearance, { round, step, at, sure, seen: false, looked: now() });
  keep();
}

// After a gap between two looks it is no longer sure.
function noteGap(own) {
  if (room.read === null || room.read === own.looked) return;
  if (room.read - own.looked > GAP) own.sure = false;
  own.looked = room.read;
  keep();
}

// Whether this desk has given out the step that the view shows as given out: "yes", "no", or "perhaps", where it is not
// sure or the record has a later moment, so that another desk may have given it out again.
export function gaveHere(view) {
  const { clearance, round } = view.card;
  const own = given.get(clearance), present = presentStep(view);
  if (!own) return "no";
  noteGap(own);
  const same = own.round === round && own.step === present?.number;
  if (same && present.state === "Instructed") {
    own.seen = true;
    keep();
    return own.sure && (boardLine(clearance)?.last ?? 0) <= own.at ? "yes" : "perhaps";
  }
  if (!same || present.state !== "Waiting" || own.seen) {
    given.delete(clearance);
    keep();
  }
  return "no";
}

// What was repeated since, or is over, is no longer this desk's, whatever page is shown.
export function watchGiven() {
  for (const clearance of [...given.keys()]) {
    const view = room.views.get(clearance);
    if (view) gaveHere(view);
    else if (room.closed.has(clearance)) given.delete(clearance);
  }
}
