// The last moment of a record: by the board while it is there; of one that is over by its order as the register prints
// it, or by the log.

import { logRows } from "../log/log-words.js";
import { secondsOfPrinted } from "../shared/moments.js";
import { getOrder } from "../shared/register.js";
import { boardLine } from "../shared/watch.js";

const printed = new Map(); // clearance: what its printed order says, in seconds; null where there is none

export const momentInOrder = (text) => secondsOfPrinted(/^LAST (.*)$/m.exec(text)?.[1] ?? "");

const momentInLog = (id) => logRows().findLast((row) => row.id === id && row.done)?.at ?? null;

// In seconds; null where it is not known.
export const lastMoment = (id) => boardLine(id)?.last ?? printed.get(id) ?? momentInLog(id);

// Asks for the order of a record that is over, once; `changed` is called where it has come.
export async function askLastMoment({ card: { clearance, round, phase } }, changed) {
  if (phase !== "Closed" || !round || printed.has(clearance)) return;
  printed.set(clearance, null);
  const answer = await getOrder(clearance, round);
  if (typeof answer.body !== "string") return;
  printed.set(clearance, momentInOrder(answer.body));
  changed();
}
