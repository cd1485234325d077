// Why a clearance was transferred in an emergency. The register keeps no reason; this browser does.

import { el } from "../shared/elements.js";
import { now, wholeTime } from "../shared/moments.js";
import { keepIn, readKept } from "../shared/storage.js";

const KEPT = "gridclear-reasons", MOST = 50;

export const NOT_KEPT = "The register keeps no reason: it is shown at this desk alone, and printed with the order.";

const reasons = readKept("localStorage", KEPT) ?? []; // { clearance, by, to, text, at }

export function noteReason(reason) {
  reasons.push({ ...reason, at: now() });
  keepIn("localStorage", KEPT, reasons.slice(-MOST));
}

export const reasonsOf = (clearance) => reasons.filter((one) => one.clearance === clearance);

export function reasonLines(clearance) {
  return reasonsOf(clearance).map(({ by, to, text, at }) =>
    el("p", { class: "reason" }, `${by} transferred it to ${to} in an emergency, ${wholeTime(at)}: ${text}`));
}
