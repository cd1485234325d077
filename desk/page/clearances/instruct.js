// Giving a step out. The register judges it first; the text to be read out comes with its accepted reply, at the desk
// that gave it alone.

import { living, livingFindings, mayGo } from "../orders/findings-shown.js";
import { findingsAt } from "../orders/findings.js";
import { el, button } from "../shared/elements.js";
import { boardLine } from "../shared/watch.js";
import { presentStep } from "./offers.js";
import { gaveHere, noteGiven } from "./steps-given-out.js";

function findingsOf(desk, view, step) {
  const [action, name] = step.text.split(" ");
  return findingsAt(desk, name, { action, own: view.card.clearance, now: true });
}

// Sends the instruct, after a question where something is in its way.
export async function instruct(desk, view, step, act, by = {}) {
  const found = [{ text: step.text, found: findingsOf(desk, view, step) }], { clearance } = view.card;
  if (!(await mayGo(`Before step ${step.number} of ${clearance} is given out`, found, "Give it out"))) return null;
  return act({ do: "instruct", clearance, step: step.number, ...by });
}

// What is in the way of the present step, kept up to date.
export const stepNotes = (desk, view, step) => livingFindings(() => findingsOf(desk, view, step));

// What would be refused is not the act that is offered first.
export function instructButton(desk, view, step, does, attributes = {}) {
  const node = button(`Instruct step ${step.number}`, does, { "data-name": "instruct", ...attributes });
  return living(node, () => node.classList.toggle("main", !findingsOf(desk, view, step).some(({ refused }) => refused)));
}

export function instructControl({ view, act, desk }) {
  const step = presentStep(view);
  return el("div", { class: "offer step-place" },
    el("p", {}, "Next is step ", String(step.number), ", ", el("span", { class: "text" }, step.text), ". Say nothing on the line before the register has accepted it."),
    stepNotes(desk, view, step),
    instructButton(desk, view, step, () => instruct(desk, view, step, act)));
}

// What is above the controls while a step is given out. Where it was given, the text; at other desks a word of that. Where
// another desk's instruct may have been the one, people have to agree before one of them speaks.
export function readingOf(view, changed) {
  const step = presentStep(view), here = gaveHere(view);
  if (step?.state !== "Instructed") return null;
  const { clearance, round } = view.card, name = `Step ${step.number} of ${clearance}`;
  if (here === "yes") {
    return el("div", { class: "read-out", role: "status", "data-name": "read-out" },
      el("p", {}, `Read this out: step ${step.number} of ${clearance}`), el("strong", {}, step.text));
  }
  if (here === "perhaps") {
    const claim = () => { noteGiven({ clearance, round, step: step.number, at: boardLine(clearance)?.last ?? 0 }); changed(); };
    return el("div", { class: "elsewhere" }, el("p", {}, `${name} is given out. This desk gave it, and another may have: a reply or a look was missed, or the moments do not show it. Ask the other desks whether one of them gave it.`),
      button("No other desk gave it: show the text", claim, { "data-name": "mine" }));
  }
  return el("p", { class: "elsewhere" }, `${name} was given out at another desk, which says it on the line. `
    + "If none did, have it repeated and reported as not done.");
}
