// How long ago the last moment of a record was; by the log, since when its step is out, a crew is on and a hold is there; and
// from when on a step is out too long: a time that the desk sets.

import { presentStep } from "../clearances/offers.js";
import { byEntries } from "../log/journal.js";
import { logRows } from "../log/log-words.js";
import { serverNow } from "../shared/clocks.js";
import { keepIn, readKept } from "../shared/storage.js";

const KEPT = "gridclear-too-long", USUAL = 10; // minutes
const PUT_BY = { HeldOpen: "OPEN", Block: "BLOCK", Control: "CONTROL", Tag: "TAG" }; // the step that puts a hold there

// What a command began, of a record: a step that is out, a crew that is on, a hold.
const BEGUN = {
  instruct: ({ step }, { round }) => `${round}.${step}`,
  sign_on: ({ crew }) => `Crew ${crew}`,
  test: ({ section }) => `Tested ${section}`,
  ground: ({ section }) => `Ground ${section}`,
  report: ({ done }, { text }) => done && text,
};

// When each of them last began, by the machine's moment: "JONES/1 1.3", "JONES/1 Crew C1", "JONES/1 TAG S2".
const begun = byEntries(() => new Map(logRows().filter(({ done, entry }) => done && BEGUN[entry.command.do])
  .map((row) => [`${row.id} ${BEGUN[row.entry.command.do](row.entry.command, row)}`, row.entry.received])));

// The seconds that the present step is out; null where none is. Without a log they count from the record's last moment.
export function outFor(view, line) {
  const step = view && presentStep(view);
  if (!step || step.state === "Waiting") return null;
  const since = begun().get(`${view.card.clearance} ${view.card.round}.${step.number}`) ?? line?.last;
  return since === undefined ? null : Math.max(0, serverNow() - since);
}

// How long a crew is on, or a hold is there, as a blank and the time in brackets; "" where the log does not say.
export function heldWords(id, kind, place) {
  const since = begun().get(`${id} ${PUT_BY[kind] ?? kind} ${place}`);
  return since === undefined ? "" : ` (${ageWords(Math.max(0, serverNow() - since))})`;
}

export const ageOf = ({ last }) => Math.max(0, serverNow() - last);

// In minutes, hours or days: what is shorter than a minute is 0 min.
export function ageWords(seconds) {
  const minutes = Math.floor(seconds / 60), hours = Math.floor(minutes / 60);
  if (hours >= 48) return `${Math.floor(hours / 24)} days`;
  return hours ? `${hours} h ${minutes % 60} min` : `${minutes} min`;
}

// The minutes after which a step is out too long.
export const mostMinutes = () => readKept("localStorage", KEPT) ?? USUAL;

export function setMostMinutes(minutes) {
  keepIn("localStorage", KEPT, Number.isInteger(minutes) && minutes > 0 ? minutes : null);
}

export const isTooLong = (seconds) => seconds !== null && seconds >= mostMinutes() * 60;
