// A section that was tested live under a clearance is an alarm, until it is tested dead there or the clearance is
// released. The register keeps no trace of it but the missing test. So the page raises it by what this browser said,
// which is kept over a reload; where it saw a test go while the ground stayed as it was; where a ground is on without a
// test; and, where this desk has a log, by that.

import { liveByLog } from "../log/log-words.js";
import { now } from "./moments.js";
import { keepIn, readKept } from "./storage.js";

const KEPT = "gridclear-live";

const own = new Map();    // "JONES/1 L2": { id, section, at, taken }: said here; taken: the register has no test there
const seen = new Map();   // the same, seen here
const before = new Map(); // clearance: what was tested and grounded there when it was last looked at

const keep = () => { keepIn("localStorage", KEPT, [...own.values()]); };

// Also where another window of this browser has said one.
export function recallAlarms() {
  own.clear();
  for (const alarm of readKept("localStorage", KEPT) ?? []) own.set(`${alarm.id} ${alarm.section}`, alarm);
}

// A test that this page has given: accepted, or without a reply. The views that came before its reply say nothing of it.
export function noteTest({ do: what, by, clearance: id, section, dead }, accepted, room) {
  if (what !== "test" || (dead && !accepted)) return;
  noteRoom(room);
  const key = `${id} ${section}`;
  if (dead) {
    own.delete(key);
    seen.delete(key);
  } else {
    own.set(key, { id, section, by, at: now(), taken: accepted });
  }
  keep();
}

const placesOf = (view, kind) => new Set(view.holds
  .filter((hold) => hold.kind === kind && hold.by === view.card.clearance).map((hold) => hold.place));

function drop(id, isOver) {
  for (const kept of [seen, own]) {
    for (const [key, alarm] of kept) if (alarm.id === id && isOver(alarm)) kept.delete(key);
  }
}

// What a view shows beside the one before it.
function noteView(id, view) {
  if (view.card.phase !== "Granted") {
    before.delete(id);
    drop(id, () => true);
    return;
  }
  const tested = placesOf(view, "Tested"), grounded = placesOf(view, "Ground"), past = before.get(id);
  before.set(id, { view, tested, grounded });
  for (const alarm of own.values()) if (alarm.id === id && !tested.has(alarm.section)) alarm.taken = true;
  drop(id, ({ section, taken }) => tested.has(section) && taken !== false);
  const live = (section) => seen.set(`${id} ${section}`, { id, section });
  for (const section of grounded) if (!tested.has(section)) live(section);
  for (const section of past?.tested ?? []) {
    if (!tested.has(section) && past.grounded.has(section) === grounded.has(section)) live(section);
  }
}

// What the register shows now: `room` as the watch has it.
export function noteRoom(room) {
  for (const [id, view] of room.views) if (before.get(id)?.view !== view) noteView(id, view);
  if (room.read !== null) {
    const phases = new Map(room.board.map((row) => [row.id, row.phase]));
    const over = [...own.values(), ...seen.values()].map(({ id }) => id).filter((id) => phases.get(id) !== "Granted");
    for (const id of over) drop(id, () => true);
    for (const id of before.keys()) if (!phases.has(id)) before.delete(id);
  }
  keep();
}

// All alarms, as { id, section, by, at }: who said so, and when, where this desk said it or has a log.
export function alarms() {
  const all = new Map([...seen, ...own]);
  for (const alarm of liveByLog()) all.set(`${alarm.id} ${alarm.section}`, alarm);
  return [...all.keys()].sort().map((name) => all.get(name));
}

export const liveUnder = (id) => alarms().filter((alarm) => alarm.id === id).map(({ section }) => section);

// The alarms of these sections, under whichever clearance.
export const liveIn = (sections) => alarms().filter(({ section }) => sections.includes(section));

// The sections of a clearance without a test while work goes on there: a crew or a ground is on.
export function untested(view) {
  if (view.card.phase !== "Granted" || !(view.crews.length || placesOf(view, "Ground").size)) return [];
  const tested = placesOf(view, "Tested"), live = new Set(liveUnder(view.card.clearance));
  return view.fence.filter((section) => !tested.has(section) && !live.has(section));
}
