// Who may do what next with a clearance, by its phase, its present step, its holder and the staff's roles. It is what
// the page offers; whether a command is accepted, the register alone says.

import { WORK } from "../replies/command-words.js";
import { namesOfRole } from "../shared/network.js";

// Whether its steps are being done. What a cancel has left is not done any more.
export const isUnderWay = ({ card: { phase } }) => ["Ordered", "Restoring", "Switching"].includes(phase);

// The first step that is not done, with its number; null where none is left to be done.
export function presentStep(view) {
  if (!isUnderWay(view)) return null;
  const place = view.steps.findIndex((step) => step.state !== "Done");
  return place < 0 ? null : { number: place + 1, ...view.steps[place] };
}

function stepOffers(view, staff) {
  const step = presentStep(view);
  if (!step) return [];
  const fields = namesOfRole(staff, "field");
  const name = `step ${step.number}, ${step.text}`;
  if (step.state === "Waiting") return [{ does: "instruct", says: `instruct ${name}`, names: namesOfRole(staff, "operator") }];
  if (step.state === "Instructed") return [{ does: "repeat", says: `repeat ${name}`, names: fields }];
  return [
    { does: "report", says: `report ${name}`, names: [step.reader] },
    { does: "repeat", says: `repeat ${name}, and so take it over`, names: fields.filter((one) => one !== step.reader) },
  ];
}

// Whether a step is given out, and not reported yet.
export const isStepOut = (view) => ["Instructed", "Repeated"].includes(presentStep(view)?.state);

// While a step is out a cancel would be refused.
const cancelOffers = (view, says) => isStepOut(view) ? [] : [{ does: "cancel", says, names: [view.card.holder] }];

function handing(view, staff) {
  const { holder } = view.card, supervisor = staff.get(holder)?.supervisor;
  return [{ does: "transfer", says: "transfer the clearance", names: [holder] },
    ...(supervisor ? [{ does: "emergency", says: "transfer it in an emergency", names: [supervisor] }] : [])];
}

const OFFERS = {
  Requested: (view, staff, operators) => [
    { does: "order", says: "write the isolating order", names: operators }, ...cancelOffers(view, "cancel the request"), ...handing(view, staff)],
  Ordered: (view, staff, operators) => [
    ...stepOffers(view, staff), ...(presentStep(view) ? [] : [{ does: "grant", says: "grant the clearance", names: operators }]),
    ...cancelOffers(view, "cancel the order"), ...handing(view, staff)],
  Granted: (view, staff) => [
    { does: "work", says: WORK, names: [view.card.holder] },
    { does: "release", says: "release the clearance", names: [view.card.holder] }, ...handing(view, staff)],
  Released: (view, staff, operators) => [{ does: "restore", says: "write the restoring order", names: operators }],
  Restoring: (view, staff, operators) => [
    ...stepOffers(view, staff),
    ...(waitingCloses(view).length ? [{ does: "amend", says: "amend a CLOSE to a LEAVE", names: operators }] : [])],
  Switching: (view, staff) => [...stepOffers(view, staff), ...cancelOffers(view, "cancel the switch order")],
  Closed: () => [],
};

export function offersOf(view, staff) {
  const offers = OFFERS[view.card.phase] ?? (() => []);
  return offers(view, staff, namesOfRole(staff, "operator"));
}

export function waitingCloses(view) {
  return view.steps.map((step, place) => ({ number: place + 1, ...step }))
    .filter((step) => step.state === "Waiting" && step.text.startsWith("CLOSE "));
}
