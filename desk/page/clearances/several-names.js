// One row for the present step, where this desk speaks for several: it is given, repeated and reported, each by the name
// that is chosen there. Enter goes on from one to the next, but not to the report; and nothing goes on by itself.

import { mayUse } from "../shared/caller.js";
import { el, button, choice, field, form } from "../shared/elements.js";
import { namesOfRole } from "../shared/network.js";
import { keepIn, readKept } from "../shared/storage.js";
import { instruct, instructButton, stepNotes } from "./instruct.js";
import { presentStep } from "./offers.js";
import { heardInput, repeatAs, reportAs } from "./steps.js";

const KEPT = "gridclear-several";
const PARTS = { Waiting: "giver", Instructed: "hearer", Repeated: "reporter" };

// Whether the desk speaks for several, who gives while whose name is at the top, and by clearance who hears and reports:
// { on, giver: { name, top }, fields }.
const kept = readKept("sessionStorage", KEPT) ?? {};

function keep(changes) {
  Object.assign(kept, changes);
  keepIn("sessionStorage", KEPT, kept);
}

export const isSeveral = () => kept.on === true;

export function startSeveral(box, changed) {
  box.checked = isSeveral();
  box.addEventListener("change", () => {
    keep({ on: box.checked });
    changed();
  });
}

// The row in place of the offers that are those of a step.
export function withRow(offers, view, caller) {
  const steps = ["instruct", "repeat", "report"];
  if (!isSeveral() || !caller || !offers.some(({ does }) => steps.includes(does))) return offers;
  return [{ does: "several", says: "", names: [caller] }, ...offers.filter(({ does }) => !steps.includes(does))];
}

function nameChoice(part, names, chosen, keepName) {
  const known = names.includes(chosen) ? chosen : "";
  return choice([["", "choose"], ...names.map((name) => [name, name])], { "data-name": part, onchange: (event) => keepName(event.target.value) }, known);
}

export const keepGiver = (name, top) => { keep({ giver: { name, top } }); };

// Who gives: once another name is at the top, as after a hand-over, nobody gives in the name that was chosen before it.
export function giverUnder(top) {
  const { giver } = kept;
  return giver && giver.top === top ? giver.name : top;
}

// Those in the field are others at another record: a name that was chosen there is not chosen here.
function fieldNames(clearance) {
  const own = kept.fields?.[clearance] ?? {};
  return { ...own, keepName: (part) => (name) => keep({ fields: { ...kept.fields, [clearance]: { ...kept.fields?.[clearance], [part]: name } } }) };
}

function nameChoices(clearance, step, staff, caller) {
  const operators = namesOfRole(staff, "operator").filter(mayUse), fields = namesOfRole(staff, "field").filter(mayUse);
  const known = fieldNames(clearance);
  return {
    giver: nameChoice("giver", operators, giverUnder(caller?.name), (name) => keepGiver(name, caller?.name)),
    hearer: nameChoice("hearer", fields, known.hearer, known.keepName("hearer")),
    reporter: nameChoice("reporter", fields, step.reader ?? known.hearer, known.keepName("reporter")),
  };
}

// Where no name is chosen yet, that is next.
function by(pick) {
  if (!pick.value) pick.focus();
  return pick.value ? { by: pick.value } : null;
}

function cell(title, now, pick, ...controls) {
  for (const control of controls) if (!now) control.querySelectorAll("input, button").forEach((one) => { one.disabled = true; });
  return el("div", { class: now ? "cell now" : "cell" }, field(title, pick), ...controls);
}

export function severalControl({ view, act, staff, desk, caller }) {
  const step = presentStep(view), part = PARTS[step.state], { clearance } = view.card;
  const { giver, hearer, reporter } = nameChoices(clearance, step, staff, caller);
  const heard = heardInput(view, step);
  const does = {
    giver: () => by(giver) && instruct(desk, view, step, act, by(giver)),
    hearer: () => by(hearer) && repeatAs(view, step, heard.value.trim(), act, by(hearer)),
    reporter: (done) => by(reporter) && reportAs(desk, view, step, done, act, by(reporter)),
  };
  heard.size = 16;
  (part === "hearer" ? heard : null)?.setAttribute("data-goes", "yes");
  const send = () => { if (part === "hearer") does.hearer(); };
  // Enter in a list of names goes on to what is to be done.
  const goOn = (event) => {
    if (event.key !== "Enter" || event.target.tagName !== "SELECT") return;
    event.preventDefault();
    event.currentTarget.querySelector("[data-goes]")?.focus();
  };
  return form(send, { class: "offer several step-place", onkeydown: goOn },
    el("p", {}, `Step ${step.number} of ${view.steps.length}, `, el("span", { class: "text" }, step.text),
      part === "giver" ? ". Say nothing on the line before the register has accepted it." : ""),
    part === "giver" ? stepNotes(desk, view, step) : null,
    el("div", { class: "cells" },
      cell("Given by", part === "giver", giver,
        el("div", { class: "answers" }, instructButton(desk, view, step, does.giver, { "data-goes": part === "giver" ? "yes" : null }))),
      cell("Repeated by", part === "hearer", hearer,
        el("div", { class: "answers" }, field("As it was heard", heard), el("button", { class: "main", "data-name": "repeat" }, `Repeat step ${step.number}`))),
      cell("Reported by", part === "reporter", reporter,
        el("div", { class: "answers" }, button(`Step ${step.number} is done`, () => does.reporter(true), { class: "main", "data-name": "done" }),
          button(`Step ${step.number} was not done`, () => does.reporter(false), { "data-name": "not-done" })))));
}
