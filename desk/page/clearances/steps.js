// The steps of a clearance: their table, the repeat and the report of a step, and amend beside them.

import { findingsList } from "../orders/findings-shown.js";
import { findingsAt, findingsOfSteps } from "../orders/findings.js";
import { stateWord } from "../replies/words.js";
import { drafted, draftName } from "../shared/drafts.js";
import { el, button, field, form, table, unbroken } from "../shared/elements.js";
import { exampleStep } from "../shared/network.js";
import { agreed, ask } from "../shared/question.js";
import { isUnderWay, presentStep, waitingCloses } from "./offers.js";

const SIGNS = { Waiting: "○", Instructed: "◔", Repeated: "◑", Done: "●" };

// What is in the way of each step that is to be done.
export function stepsFindings(view, desk) {
  if (!isUnderWay(view)) return view.steps.map(() => []);
  const left = view.steps.filter((step) => step.state !== "Done").map((step) => step.text);
  const found = findingsOfSteps(desk, left, view.card.clearance).map((one) => one.found);
  return view.steps.map((step) => (step.state === "Done" ? [] : found.shift()));
}

export function stepsTable(view, found) {
  const present = presentStep(view)?.number, stateOf = ({ state }) => (state === "Waiting" && !isUnderWay(view) ? "not done" : stateWord(state));
  const rows = view.steps.map((step, place) =>
    el("tr", { class: `step ${step.state}`, "aria-current": place + 1 === present ? "step" : null },
      el("td", { class: "number" }, String(place + 1)),
      el("td", {}, el("span", { class: "text" }, unbroken(step.text)), findingsList(found[place])),
      el("td", {}, el("span", { class: "sign", "aria-hidden": "true" }, SIGNS[step.state]), `\u00a0${stateOf(step)}`),
      el("td", {}, step.reader ?? "–")));
  return table(["No", "Step", "State", "Reader"], rows, { class: "steps" });
}

// Where two texts begin to differ.
function differenceWords(said, typed) {
  let place = 0;
  while (place < said.length && said[place] === typed[place]) place++;
  const rest = (text) => (text.length > place ? `“${text.slice(place)}”` : "nothing more");
  return `${place ? `The same as far as “${said.slice(0, place)}”; then the step` : "The step"} has ${rest(said)}, and you typed ${rest(typed)}.`;
}

// Sends what was heard; where that is not the step's text, only after a question.
export async function repeatAs(view, step, text, act, by = {}) {
  if (text !== step.text) {
    const answer = await ask("The repeat differs", [
      `Step ${step.number} of ${view.card.clearance} says: ${step.text}`, `You typed: ${text || "nothing"}`, differenceWords(step.text, text),
    ], [["send", "Send it as typed"], [null, "Correct it"]]);
    if (answer !== "send") return null;
  }
  return act({ do: "repeat", clearance: view.card.clearance, step: step.number, text, ...by });
}

// The field for what was heard, in capitals.
export function heardInput(view, step) {
  const input = el("input", { type: "text", autocomplete: "off", autocapitalize: "characters", spellcheck: "false", "data-name": "repeat-text", size: 24 });
  input.addEventListener("input", () => {
    const place = input.selectionStart;
    input.value = input.value.toUpperCase();
    input.setSelectionRange(place, place);
  });
  return drafted(input, draftName(`repeat ${view.card.round}.${step.number}`, view.card.clearance));
}

export function repeatControl({ view, act, network }) {
  const step = presentStep(view), input = heardInput(view, step);
  return form(() => repeatAs(view, step, input.value.trim(), act), { class: "offer" },
    field(`Step ${step.number}, repeated as you heard it`, input, `word for word, as ${exampleStep(network)}`),
    el("button", { class: "main", "data-name": "repeat" }, `Repeat step ${step.number}`));
}

// Sends that a step was done, or was not. No command takes "done" back: what makes something live or dead, or joins two
// sources, is asked about.
export async function reportAs(desk, view, step, done, act, by = {}) {
  const { clearance } = view.card, [action, name] = step.text.split(" ");
  const found = findingsAt(desk, name, { action, own: clearance }).filter(({ turns, joins }) => done && (turns || joins));
  const lines = [...found.map(({ text, asked }) => `It ${asked ?? text}.`), "No report is taken back: all rely on it then."];
  const ask = () => agreed(`Is ${step.text} done in the field?`, lines, `${step.text} is done`, "Do not report it");
  if (found.length && !(await ask())) return null;
  return act({ do: "report", clearance, step: step.number, done, ...by });
}

export function reportControl({ view, act, desk }) {
  const step = presentStep(view), report = (done) => reportAs(desk, view, step, done, act);
  return el("div", { class: "offer" },
    el("p", { class: "readout" }, "You repeated: ", el("strong", {}, step.text)),
    el("div", { class: "answers" },
      button(`Step ${step.number} is done`, () => report(true), { class: "main", "data-name": "done" }),
      button(`Step ${step.number} was not done`, () => report(false), { "data-name": "not-done" })));
}

async function amendStep(view, step, act) {
  const point = step.text.split(" ")[1], { clearance } = view.card;
  const what = `${step.text} becomes LEAVE ${point}: the point stays open, and the step's hold is taken off.`;
  const isMeant = await agreed(`Amend step ${step.number} of ${clearance}`, [what], `Amend to LEAVE ${point}`, "Do not amend it");
  if (isMeant) await act({ do: "amend", clearance, step: step.number });
}

export function amendControl({ view, act }) {
  return el("div", { class: "offer" },
    el("p", {}, "A CLOSE that cannot be done may be amended to a LEAVE:"),
    el("div", { class: "answers" }, waitingCloses(view).map((step) =>
      button(`Amend step ${step.number}, ${step.text}`, () => amendStep(view, step, act), { "data-name": `amend ${step.number}` }))));
}
