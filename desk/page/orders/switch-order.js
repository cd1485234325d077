// Writing a switch order: points that are opened and closed, and nothing is held.

import { draft, draftName, keepDraft } from "../shared/drafts.js";
import { el, button, panel } from "../shared/elements.js";
import { learn, living, mayGo, orderNotes, pickedNotes, turnNotes } from "./findings-shown.js";
import { findingsOfSteps, GONE, turnedBySteps } from "./findings.js";
import { PointPicker, StepList } from "./point-picker.js";
import { StandardOrders } from "./standard-orders.js";

const DRAFT = draftName("switch"), MADE = [["OPEN", "open"], ["CLOSE", "closed"]];

// Puts a step to what is half written here, and shows it.
export function offerStep(text) {
  const { points, steps } = draft(DRAFT) ?? { points: [], steps: [] }, name = text.split(" ")[1];
  keepDraft(DRAFT, { points: [...new Set([...points, name])], steps: steps.includes(text) ? steps : [...steps, text] });
  location.hash = "#/switch";
}

export class SwitchEditor {
  #desk; #picker; #chosen = el("div", { class: "chosen-points" }); #list;
  node;

  constructor(desk) {
    this.#desk = desk;
    this.#picker = new PointPicker(desk, (name, on) => this.#picked(name, on));
    this.#picker.turned = () => turnedBySteps(desk, this.#list.steps);
    this.#list = new StepList(() => this.#changed(), (place) => this.#list.set(this.#list.steps.filter((_, at) => at !== place)));
    this.node = el("div", { class: "offer editor" },
      el("p", {}, "Pick the points, and say of each whether it is to be opened or closed. A switch order holds nothing."),
      new StandardOrders("switch", "", () => ({ points: [...this.#picker.picked], steps: this.#list.steps }), (order) => this.#take(order)).node,
      this.#picker.node, pickedNotes(desk, () => this.#picker.picked), this.#chosen,
      el("h3", {}, "Steps, in their order"), this.#list.node, orderNotes(desk, () => this.#list.steps, null), turnNotes(desk, () => this.#list.steps),
      button("Give the switch order", () => this.#send(), { class: "main", "data-name": "switch" }));
    desk.pick(this.#picker);
    living(this.#chosen, () => this.#drawChosen());
    if (draft(DRAFT)) this.#take(draft(DRAFT)); // what was half written before a look elsewhere
  }

  // A standard order in place of what is written.
  #take({ points, steps }) {
    this.#picker.put(points);
    this.#list.set(steps.filter((text) => this.#picker.picked.has(text.split(" ")[1])));
    this.#drawChosen();
    this.#desk.redraw();
  }

  #changed() {
    keepDraft(DRAFT, { points: [...this.#picker.picked], steps: this.#list.steps });
    learn();
  }

  #picked(name, on) {
    if (!on) this.#list.set(this.#list.steps.filter((text) => text.split(" ")[1] !== name));
    else this.#changed();
    this.#drawChosen();
    this.#desk.redraw();
  }

  // Each picked point with its position, and what may be done there.
  #drawChosen() {
    const known = this.#desk.states(), rows = [...this.#picker.picked].map((name) => [name, known.get(name)?.position ?? GONE]);
    panel(this.#chosen, rows, () => rows.map(([name, position]) => el("p", { class: "chosen" }, el("span", {}, el("strong", {}, name), ` is ${position}`),
      (position === GONE ? [] : MADE).flatMap(([action, made]) => this.#chooser(`${action} ${name}`, position === made ? `is ${made} already` : null)))));
  }

  #chooser(text, already) {
    return [button(text, () => this.#list.set([...this.#list.steps, text]), { "data-name": text }), already ? el("span", { class: "already" }, `${already} `) : null];
  }

  async #send() {
    if (!(await mayGo("Before the switch order is given", findingsOfSteps(this.#desk, this.#list.steps), "Give the switch order"))) return;
    const isKept = draft(DRAFT) !== null, { accepted, id } = await this.#desk.act({ do: "switch", steps: this.#list.steps });
    if (accepted) location.hash = `#/clearance/${id}`;
    else if (isKept && draft(DRAFT) === null) this.#take({ points: [], steps: [] }); // its reply was lost, and it was carried out
  }
}
