// What is in the way of a step, and what it would do, by this page's reckoning: a position that it has already, a hold, a
// hand, another's fence, a position that is not normal, what a CLOSE would join, and what becomes live or dead. A finding
// is { text, asks, turns, asked }; `asks`: it is asked about before anything is sent, by the text `asked` where that is
// another; `turns`: it says what becomes live or dead; `joins`: it joins two sources; `loops`: it closes a loop; `refused`:
// for it the register would refuse the step.

import { holdWord } from "../replies/words.js";
import { Reckoning } from "../shared/feeding.js";
import { network as register } from "../shared/network.js";
import { isOffNormal } from "../shared/point-states.js";
import { room } from "../shared/watch.js";
import { closingOf, wayWords } from "../shared/ways.js";

const MOST_NAMED = 6, MEETS = 4, OWN = "this page's reckoning"; // MEETS: points at a section that is no mere part of a line

const crewWords = (crews) => crews.length ? `, ${crews.length === 1 ? "crew" : "crews"} ${crews.join(", ")} on` : "";

// A clearance with its phase and its crews, as OWENS/1 (Granted, crew C7 on).
function nameWords(id) {
  const view = room.views.get(id);
  return view ? `${id} (${view.card.phase}${crewWords(view.crews)})` : id;
}

// Sections by their names, sources and busbars first, or how many more there are.
export function sectionWords(names, most = MOST_NAMED) {
  const isMain = (name) => register.sections.get(name)?.source || register.ways.get(name)?.length >= MEETS;
  const all = [...names.filter(isMain), ...names.filter((name) => !isMain(name))], more = all.length - most;
  return `${all.slice(0, most).join(", ")}${more > 0 ? ` and ${more} more` : ""}`;
}

const holdersOf = (state, own) => [...new Set(state.holds.map((hold) => hold.by))].filter((by) => by !== own);

function holdFindings(state, action, own) {
  return holdersOf(state, own).map((by) => {
    const kinds = state.holds.filter((hold) => hold.by === by).map((hold) => holdWord(hold.kind)).join(", ");
    const refusal = { text: `would be refused (HELD) for ${nameWords(by)}, which has it ${kinds}`, asks: true, refused: true };
    if (action === "CLOSE") return refusal;
    return { text: `${nameWords(by)} has it ${kinds}${action ? "" : "; a CLOSE would be refused for it"}`, asks: false };
  });
}

// A step that changes nothing may be meant for another point.
function sameFindings(reckoning, name, action) {
  const position = { OPEN: "open", CLOSE: "closed" }[action];
  return position && reckoning.positionOf(name) === position ? [{ text: `is ${position} already`, asks: true }] : [];
}

// Where a step is to go out now, a hand refuses it; while an order is written it may be gone by then.
function handFindings(state, own, now) {
  if (!state.hand || state.hand === own) return [];
  const text = `in hand of ${state.hand}, whose step there is given out`;
  return [now ? { text: `would be refused (IN_HAND): ${text}`, asks: true, refused: true } : { text, asks: false }];
}

// Whose fence it lies in. At its border it is not said again of one that has a hold there.
function fenceFindings(state, own) {
  const holders = holdersOf(state, own), ends = [state.point.from, state.point.to];
  return [...room.views].filter(([id, view]) => id !== own && view.fence.length).flatMap(([id, view]) => {
    const inside = ends.filter((end) => view.fence.includes(end)).length;
    if (!inside || (inside === 1 && holders.includes(id))) return [];
    const people = inside === 2 && view.crews.length ? ", where people work" : "";
    return [{ text: `${inside === 2 ? "inside" : "at"} the fence of ${nameWords(id)}${people}`, asks: inside === 2 }];
  });
}

function positionFindings(state, own) {
  const held = state.holds.some((hold) => hold.by === own);
  if (held || !isOffNormal(state)) return [];
  return [{ text: `${state.position} now, normally ${state.point.normal}`, asks: false }];
}

function closingFindings(network, reckoning, point, own) {
  const positionOf = (name) => reckoning.positionOf(name);
  if (positionOf(point.name) === "closed") return [];
  const found = closingOf(network, positionOf, point);
  if (!found) return [];
  const joined = () => `joins the sources ${found.joins.join(" and ")}: ${wayWords(found.way)}`;
  if (!found.loop) return [{ text: joined(), asks: true, joins: true }];
  const people = peopleOn(network, found.loop, own);
  return [{ text: `closes a loop${whereWords(people)}: ${wayWords(found.loop)}`, asks: people.length > 0, loops: true }];
}

// The records that have people on one of these sections: a crew is on in their fence, or a step of another record is given
// out at a point there.
function peopleOn(network, names, own) {
  const crews = [...room.views].filter(([, view]) => view.crews.length && view.fence.some((name) => names.includes(name))).map(([id]) => id);
  const hands = names.flatMap((name) => network.ways.get(name) ?? []).map(({ hand }) => hand).filter((hand) => hand && hand !== own);
  return [...new Set([...crews, ...hands])];
}

const whereWords = (people) => people.length ? `, where people are under ${people.map(nameWords).join(" and ")}` : "";

// Asked about with all names where people are on one of the sections, or where not all are named beside the button.
function deadFinding(network, dead, own) {
  const people = peopleOn(network, dead, own), words = (names) => `makes ${names} dead${whereWords(people)} (${OWN})`;
  const asks = people.length > 0 || dead.length > MOST_NAMED;
  return { text: words(sectionWords(dead)), asked: words(sectionWords(dead, dead.length)), asks, turns: true };
}

// Those who have tested or grounded one of these sections.
function trustedIn(network, names, own) {
  const holds = names.flatMap((name) => network.sections.get(name)?.holds ?? []);
  return [...new Set(holds.map(({ by }) => by))].filter((by) => by !== own);
}

function turnFindings(network, reckoning, point, position, own) {
  const { live, dead } = reckoning.turnedBy(point, position), others = trustedIn(network, live, own);
  const trust = others.length ? `, which ${others.map(nameWords).join(" and ")} found dead or grounded` : "", asks = others.length > 0;
  const words = (most) => `makes ${sectionWords(live, most)} live${trust} (${OWN})`;
  return [
    ...(live.length ? [{ text: words(), asked: words(live.length), asks, turns: true }] : []),
    ...(dead.length ? [deadFinding(network, dead, own)] : []),
  ];
}

export const GONE = "not in the network, as this page last read it";
const MADE = { OPEN: "open", LEAVE: "open", CLOSE: "closed" };

// At a point: `action` is that of the step, null while none is chosen; `own` the clearance that it belongs to, if any;
// `now`: it is to go out now; `reckoning` has the positions that earlier steps of the same order will have made.
export function findingsAt({ network, states }, name, { action = null, own = null, now = false, known = states(), reckoning = new Reckoning(network, known) } = {}) {
  const state = known.get(name);
  if (!state) return [{ text: GONE, asks: true }];
  return [
    ...sameFindings(reckoning, name, action),
    ...holdFindings(state, action, own),
    ...handFindings(state, own, now),
    ...fenceFindings(state, own),
    ...(action === "CLOSE" ? closingFindings(network, reckoning, state.point, own) : []),
    ...(MADE[action] ? turnFindings(network, reckoning, state.point, MADE[action], own) : []),
    ...positionFindings(state, own),
  ];
}

// The same in a few words, for a list of points to pick from.
export function flagOf({ states }, name, own = null, known = states()) {
  const state = known.get(name), holders = holdersOf(state, own);
  const around = [...room.views].filter(([id, view]) => id !== own && [state.point.from, state.point.to].every((end) => view.fence.includes(end)));
  return [
    holders.length ? `held by ${holders.join(", ")}` : "",
    state.hand && state.hand !== own ? `in hand of ${state.hand}` : "",
    around.length ? `in the fence of ${around.map(([id]) => id).join(", ")}` : "",
    isOffNormal(state) && !holders.length ? `normally ${state.point.normal}` : "",
  ].filter(Boolean).join("; ");
}

// Of each step of an order, by the positions that the steps before it will have made.
export function findingsOfSteps(desk, steps, own = null) {
  const known = desk.states(), reckoning = new Reckoning(desk.network, known);
  return steps.map((text) => {
    const [action, name] = text.split(" ");
    const found = findingsAt(desk, name, { action, own, known, reckoning });
    if (MADE[action]) reckoning.move(name, MADE[action]);
    return { text, found };
  });
}

// What all these steps together make live and dead: { live, dead }.
export function turnedBySteps(desk, steps) {
  const reckoning = new Reckoning(desk.network, desk.states());
  for (const [action, name] of steps.map((text) => text.split(" "))) if (MADE[action] && desk.network.points.has(name)) reckoning.move(name, MADE[action]);
  return reckoning.turned();
}

// What a jumper would be refused for, and what it would do once it is closed; its `to` may be a new section.
export function jumperFindings({ network, states }, jumper) {
  const { name, from, to } = jumper, refused = (text) => ({ text: `would be refused (${text}`, asks: true });
  const unread = room.board.filter(({ id }) => !room.views.has(id)).length;
  return [
    ...(name && network.points.has(name) ? [refused(`POINT_EXISTS): there is a point ${name}`)] : []),
    ...(from && !network.sections.has(from) ? [refused(`UNKNOWN_SECTION): there is no section ${from}`)] : []),
    ...(from && from === to ? [refused("SAME_ENDS): both ends are one section")] : []),
    ...(from && to && from !== to ? crossed(jumper, refused) : []),
    ...(unread ? [{ text: `the fences of ${unread} records on the board are not read yet`, asks: true }] : []),
    ...(to && !network.sections.has(to) ? [{ text: `${to} is a new section, which comes with it, and no source`, asks: false }] : []),
    ...(network.sections.has(from) && network.sections.has(to) && from !== to ? closedJumper(network, states(), jumper) : []),
  ];
}

function crossed({ from, to }, refused) {
  return [...room.views].filter(([, view]) => view.fence.length).flatMap(([id, view]) => {
    const inside = [from, to].filter((end) => view.fence.includes(end));
    if (inside.length === 1) return [refused(`CROSSES_FENCE): ${inside[0]} is in the fence of ${nameWords(id)}, and the other end is not`)];
    return inside.length ? [{ text: `lies inside the fence of ${nameWords(id)}`, asks: false }] : [];
  });
}

function closedJumper(network, known, jumper) {
  const reckoning = new Reckoning(network, known);
  return [...closingFindings(network, reckoning, jumper, null), ...turnFindings(network, reckoning, jumper, "closed", null)]
    .map(({ text }) => ({ text: `closed, it ${text.replace(/^(\w+)s /, "would $1 ")}`, asks: false }));
}
