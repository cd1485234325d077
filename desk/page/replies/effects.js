// By what it does, whether a command was carried out: each judge has the command, and the record as it was before and as it
// is now. A judgement is { found, text }: found is "yes", "no", "either" where another desk may have given the same, or
// "unknown" where the register keeps nothing that would show it.

import { stateWord } from "./words.js";

export const yes = (text) => ({ found: "yes", text });
export const no = (text) => ({ found: "no", text });
export const either = (text) => ({ found: "either", text });
export const unknown = (text) => ({ found: "unknown", text });

export function has(view, kind, place) {
  return view.holds.some((hold) => hold.kind === kind && hold.place === place && hold.by === view.card.clearance);
}

// What is there now and was not before is the command's trace. What was there before shows nothing.
function trace(was, is, { there, missing, before }) {
  if (was) return unknown(before);
  return is ? yes(there) : no(missing);
}

export function placed(kind, word) {
  return ({ section }, before, after) => trace(has(before, kind, section), has(after, kind, section), {
    there: `${section} is ${word}.`, missing: `${section} is not ${word}.`, before: `${section} was ${word} before, so the register shows no difference.` });
}

export function taken(kind, word) {
  return ({ section }, before, after) => trace(!has(before, kind, section), !has(after, kind, section), {
    there: `${section} is no longer ${word}.`, missing: `${section} is still ${word}.`,
    before: `${section} was not ${word} before, so the register shows no difference.` });
}

export function crewIs(on) {
  return ({ crew }, before, after) => trace(before.crews.includes(crew) === on, after.crews.includes(crew) === on, {
    there: `Crew ${crew} is ${on ? "on" : "off"}.`, missing: `Crew ${crew} is ${on ? "not" : "still"} on.`,
    before: `Crew ${crew} was ${on ? "on" : "off"} before, so the register shows no difference.` });
}

// Whether the step has come as far as the command brings it.
export function stepIs(reached, what) {
  return (command, before, after) => {
    const was = before.steps[command.step - 1], step = after.steps[command.step - 1];
    if (!was || !step || before.card.round !== after.card.round) return unknown("The record has another round of steps now.");
    const now = `Step ${command.step} (${step.text}) is ${stateWord(step.state)}${step.reader ? `, ${step.reader}` : ""}.`;
    return trace(reached(was, command), reached(step, command), { there: now, missing: now, before: `${now} It was ${what} before, too.` });
  };
}

const phaseOf = (command, view) => `${command.clearance} is ${view.card.phase}.`;

// A record that is Released or further on may have been granted, or cancelled before a grant.
export function granted(command, before, after) {
  const text = phaseOf(command, after), { phase } = after.card;
  if (before.card.phase !== "Ordered") return unknown(text);
  if (phase === "Ordered") return no(text);
  return phase === "Granted" ? yes(text) : unknown(`${text} It was released since, or cancelled.`);
}

export function released(command, before, after) {
  const text = phaseOf(command, after);
  if (before.card.phase !== "Granted") return unknown(text);
  return after.card.phase === "Granted" ? no(text) : yes(text);
}

// Where a step is left, nothing but a cancel ends a switch order, or gives back what was ordered.
export function cancelled(command, before, after) {
  const text = phaseOf(command, after), { phase } = after.card;
  const over = phase === "Released" || phase === "Closed";
  if (!over) return phase === "Restoring" ? unknown(text) : no(text);
  if (before.card.phase === phase) return unknown(text);
  const ended = after.steps.length > 0 && after.steps.every((step) => step.state === "Done");
  return ended ? unknown(`${text} All its steps are done, which may have ended it too.`) : yes(text);
}

// An order's steps, where a CLOSE may have been amended since.
export function sameSteps(steps, view) {
  const plain = (text) => text.replace(/^(CLOSE|LEAVE) /, "END ");
  return steps.length === view.steps.length && steps.every((text, place) => plain(text) === plain(view.steps[place].text));
}

// An order is written once in a round: another's steps there are none of this command.
export function ordered(phase, round) {
  return (command, before, after) => {
    const text = phaseOf(command, after);
    if (before.card.phase !== phase) return unknown(text);
    if (after.card.round < round) return no(text);
    if (after.card.round > round) return unknown(`${text} It has a restoring order by now.`);
    return sameSteps(command.steps, after) ? yes(`${text} Its steps are those of this order.`) : no(`${text} Its steps are another order's.`);
  };
}

// A test that is gone may have gone with its ground.
function foundLive(command, before, after) {
  const withGround = has(before, "Ground", command.section) && !has(after, "Ground", command.section);
  return withGround ? unknown(`${command.section} has neither test nor ground now.`) : taken("Tested", "tested dead")(command, before, after);
}

export function tested(command, before, after) {
  return (command.dead ? placed("Tested", "tested dead") : foundLive)(command, before, after);
}

export function transferred({ to }, before, after) {
  return trace(before.card.holder === to, after.card.holder === to, {
    there: `Its holder is ${to}.`, missing: `Its holder is ${after.card.holder}.`, before: `Its holder was ${to} before, too.` });
}
