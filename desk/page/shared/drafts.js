// What is half written stays in its tab, through a look elsewhere and a reload, until it was given: orders and typed
// fields, by the clearance and the command that they are for.

import { presentStep } from "../clearances/offers.js";
import { el } from "./elements.js";
import { keepIn, keptKeys, readKept } from "./storage.js";
import { room } from "./watch.js";

const PREFIX = "gridclear-draft ";

// The draft of a command: `request` and `switch` have no clearance.
export const draftName = (what, clearance = "") => `${clearance} ${what}`;
export const draft = (name) => readKept("sessionStorage", PREFIX + name);
export const keepDraft = (name, value) => { keepIn("sessionStorage", PREFIX + name, value); };

function dropDraft(name) {
  keepIn("sessionStorage", PREFIX + name, null);
  for (const input of document.querySelectorAll(`[data-draft="${CSS.escape(name)}"]`)) input.value = "";
}

function draftNames() {
  return keptKeys("sessionStorage").filter((name) => name.startsWith(PREFIX)).map((name) => name.slice(PREFIX.length));
}

// What was written for a clearance that is no longer on the board is dropped; and what was typed of a step once that
// waits again, since it is given out, and heard, once more then.
export function tidyDrafts() {
  if (room.read === null) return;
  const present = new Set(room.board.map((row) => row.id));
  for (const name of draftNames()) {
    const [clearance, what] = name.split(" "), view = room.views.get(clearance);
    const waits = what === "repeat" && view && presentStep(view)?.state === "Waiting";
    if (clearance && (waits || !present.has(clearance))) dropDraft(name);
  }
}

// A field that begins with what was last typed in it, and keeps what is typed.
export function drafted(input, name) {
  input.dataset.draft = name;
  input.value = draft(name) ?? input.value;
  input.addEventListener("input", () => keepDraft(name, input.value));
  return input;
}

// A form of index.html, and its controls by their names: each field begins with what was last in it, and keeps it; `changed`
// is called after that. `names` are the further choices of a field.
export function formOf(id, changed, names = {}) {
  const form = document.getElementById(`form-${id}`).content.firstElementChild.cloneNode(true), controls = { form };
  for (const control of form.querySelectorAll("[data-name]")) {
    const { name } = control.dataset;
    controls[name] = control;
    if (!control.matches("input, select, textarea")) continue;
    control.append(...(names[name] ?? []).map((one) => el("option", { value: one }, one)));
    drafted(control, draftName(`${id} ${name}`)).addEventListener("input", changed);
  }
  return controls;
}

// A command was carried out: what was written for it, or for the steps before it, is no longer wanted.
export function dropDraftOf({ do: what, clearance }) {
  draftNames().filter((name) => name.startsWith(draftName(what, clearance))).forEach(dropDraft);
}
