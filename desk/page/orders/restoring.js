// Writing the restoring order of a clearance that was released: at each point that it holds open the page writes the
// steps that undo what it has there, by the holds that the register shows; CLOSE or LEAVE is the operator's choice. Beside
// it are the normal position and the one before the order; nothing is chosen.

import { newest } from "../log/journal.js";
import { holdWord } from "../replies/words.js";
import { draft, draftName, keepDraft } from "../shared/drafts.js";
import { el, button, panel, table } from "../shared/elements.js";
import { learn, living, livingFindings, mayGo, orderNotes, turnNotes } from "./findings-shown.js";
import { findingsAt, findingsOfSteps } from "./findings.js";
import { StepList } from "./point-picker.js";
import { positionBefore } from "./position-before.js";

const UNDOING = [["UNTAG", "Tag"], ["UNCONTROL", "Control"], ["UNBLOCK", "Block"]];

// The points where the clearance has a HeldOpen, with the kinds of its holds there.
function heldPoints(view) {
  const own = view.holds.filter((hold) => hold.by === view.card.clearance);
  return own.filter((hold) => hold.kind === "HeldOpen")
    .map(({ place }) => ({ place, kinds: own.filter((hold) => hold.place === place).map((hold) => hold.kind) }));
}

function undoingAt({ place, kinds }) {
  return UNDOING.filter(([, kind]) => kinds.includes(kind)).map(([action]) => `${action} ${place}`);
}

export class RestoreEditor {
  #view; #desk; #held; #ends = new Map(); #list = new StepList(() => this.#changed());
  node;

  constructor(view, desk) {
    this.#view = view;
    this.#desk = desk;
    this.#held = heldPoints(view);
    this.#recall();
    this.node = this.#draw();
    newest().then(learn);
  }

  #draftName() { return draftName("restore", this.#view.card.clearance); }

  #changed() {
    keepDraft(this.#draftName(), { ends: [...this.#ends], steps: this.#list.steps });
    learn();
  }

  // What was half written before a look elsewhere, where the holds are still those.
  #recall() {
    const kept = draft(this.#draftName());
    if (!kept) return;
    this.#ends = new Map(kept.ends.filter(([place]) => this.#held.some((one) => one.place === place)));
    const needed = this.#neededSteps();
    const same = needed.length === kept.steps.length && needed.every((text) => kept.steps.includes(text));
    this.#list.set(same ? kept.steps : needed);
  }

  #neededSteps() {
    return this.#held.filter(({ place }) => this.#ends.has(place))
      .flatMap((one) => [...undoingAt(one), `${this.#ends.get(one.place)} ${one.place}`]);
  }

  #draw() {
    const { clearance } = this.#view.card;
    return el("div", { class: "offer editor" },
      el("p", {}, `Restoring order of ${clearance}. Choose at each point what it ends with.`),
      table(["Point", "Normally", "Before the order", "It ends with"], this.#held.map((held) => this.#row(held)), { class: "ends" }),
      el("h3", {}, "Steps"), this.#list.node, orderNotes(this.#desk, () => this.#list.steps, clearance), turnNotes(this.#desk, () => this.#list.steps),
      button(`Give the restoring order of ${clearance}`, () => this.#send(), { class: "main", "data-name": "restore" }));
  }

  #row(held) {
    const state = this.#desk.states().get(held.place), { clearance } = this.#view.card;
    const normal = { closed: "CLOSE", open: "LEAVE" }[state?.point.normal] ?? null;
    const end = (action) => el("label", { class: "radio" },
      el("input", { type: "radio", name: `end-${held.place}`, value: action, checked: this.#ends.get(held.place) === action,
        "data-name": `${action} ${held.place}`, "aria-label": `${action}${action === normal ? " (normal)" : ""} ${held.place}`, onchange: () => this.#end(held, action) }),
      action, action === normal ? el("span", { class: "hint" }, " (normal)") : null);
    return el("tr", { "data-point": held.place },
      el("th", { scope: "row" }, held.place, el("p", { class: "hint" }, held.kinds.map(holdWord).join(", ")),
        livingFindings(() => findingsAt(this.#desk, held.place, { own: clearance }))),
      el("td", { "data-name": "normal", "data-head": normal ? "Normally" : null }, normal ? el("strong", {}, state.point.normal) : "–"),
      this.#before(held.place),
      el("td", { class: "choices" }, ["CLOSE", "LEAVE"].map(end)));
  }

  // What is known of it may come later than the form.
  #before(name) {
    const cell = el("td", { "data-name": "before", "data-head": "Before the order" });
    return living(cell, () => {
      const state = this.#desk.states().get(name);
      const { position, from } = state ? positionBefore(state, this.#view.card.clearance) : { position: null, from: "" };
      const normal = state?.point.normal, other = normal && position && position !== normal ? " ≠" : "";
      panel(cell, [position, from], () => [el("strong", {}, `${position ?? "not known"}${other}`), el("p", { class: "hint" }, from)]);
    });
  }

  #end(held, action) {
    this.#ends.set(held.place, action);
    this.#list.set(this.#neededSteps());
  }

  async #send() {
    const { clearance } = this.#view.card;
    const found = findingsOfSteps(this.#desk, this.#list.steps, clearance);
    if (!(await mayGo(`Before the restoring order of ${clearance} is given`, found, "Give the restoring order"))) return;
    await this.#desk.act({ do: "restore", clearance: this.#view.card.clearance, steps: this.#list.steps });
  }
}
