// What the diagram says in words of a section and of a point: clearances, tests, grounds and alarms; holds and hands.

import { alarms, untested } from "../shared/live-alarms.js";
import { network } from "../shared/network.js";

const LETTERS = { HeldOpen: "O", Block: "B", Control: "C", Tag: "T" };
const NOTHING = { live: [], dead: [] };

// Holds and the hand at a point by owner, as JONES/1 O B T hand.
export function holdMarks({ holds, hand }) {
  const owners = new Map(hand ? [[hand, hand]] : []);
  for (const { by, kind } of holds) owners.set(by, `${owners.get(by) ?? by} ${LETTERS[kind]}`);
  if (hand) owners.set(hand, `${owners.get(hand)} hand`);
  return [...owners.values()];
}

// At each section, by clearance: its phase where that is its work section, its test and its ground, and what is amiss; what
// the steps at hand make of it, `turned`; and whether it is dead by position, and was not found live. A mark is { text, kind }, of the kinds live, bad, turn,
// plain and dead.
export function sectionMarks(room, { live, dead } = NOTHING) {
  const marks = new Map();
  const add = (place, id, word, kind = "plain") => {
    const ids = marks.get(place) ?? marks.set(place, new Map()).get(place);
    const mark = ids.get(id) ?? ids.set(id, { words: [], kind }).get(id);
    mark.words.push(word);
    if (kind !== "plain") mark.kind = kind;
  };
  for (const row of room.board) if (row.work !== "-") add(row.work, row.id, row.phase);
  for (const [id, view] of room.views) {
    const own = view.holds.filter((hold) => hold.by === id && (hold.kind === "Tested" || hold.kind === "Ground"));
    const grounded = new Set(own.filter((hold) => hold.kind === "Ground").map((hold) => hold.place));
    for (const { kind, place } of own) if (kind === "Ground" || !grounded.has(place)) add(place, id, kind === "Ground" ? "grounded" : "tested");
    for (const place of untested(view)) add(place, id, "not tested", "bad");
  }
  for (const { id, section } of alarms()) add(section, id, "TESTED LIVE", "live");
  const found = new Map([...marks].map(([place, ids]) => [place, [...ids].map(([id, { words, kind }]) =>
    ({ text: `${kind === "live" ? "⚠ " : ""}${id} ${words.join(", ")}`, kind }))]));
  const put = (names, text, kind) => { for (const name of names) found.set(name, [...(found.get(name) ?? []), { text, kind }]); };
  put(live, "→ live", "turn");
  put(dead, "→ dead", "turn");
  const alarmed = (name) => found.get(name)?.some(({ kind }) => kind === "live");
  put([...network.sections.values()].filter(({ live: fed, name }) => !fed && !alarmed(name)).map(({ name }) => name), "dead", "dead");
  return found;
}

// Marks, each a line, in shorter and shorter forms. That a section is dead goes first, since its box shows it, and then
// the clearance's name, for …; what follows that never does: the letters of holds, the words of a section's state.
export function formsOf(marks) {
  const kept = marks.filter(({ kind }) => kind !== "dead");
  if (!kept.length) return [marks];
  const broken = (all, at) => all.flatMap(({ text, kind }) => text.split(at).map((part) => ({ text: part, kind })));
  const unnamed = kept.map(({ text, kind }) => ({ text: text.replace(/^(⚠ )?\S+\/\d+ /, "$1… "), kind }));
  return [marks, kept, broken(kept, /(?<=\/\d+) /), unnamed, broken(unnamed, /(?<=,) /)];
}
