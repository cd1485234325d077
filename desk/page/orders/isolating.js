// Writing the isolating order of a clearance that was asked for: the operator picks the points, the page writes the
// steps that are needed at each of them, and the operator may put them into another order.

import { draft, draftName, keepDraft } from "../shared/drafts.js";
import { el, button } from "../shared/elements.js";
import { fenceOf } from "../shared/ways.js";
import { learn, mayGo, pickedNotes, turnNotes } from "./findings-shown.js";
import { findingsOfSteps, turnedBySteps } from "./findings.js";
import { fenceNotes, offFence } from "./picked-fence.js";
import { PointPicker, StepList } from "./point-picker.js";
import { StandardOrders } from "./standard-orders.js";

const ACTIONS = ["OPEN", "BLOCK", "CONTROL", "TAG"];

// At a point that is no longer in the network one step is left, which is asked about.
function neededAt({ name, lockable, remote, isGone }) {
  const isNeeded = (action) => (action !== "BLOCK" || lockable) && (action !== "CONTROL" || remote);
  return (isGone ? ["OPEN"] : ACTIONS.filter(isNeeded)).map((action) => `${action} ${name}`);
}

const byPoint = (points) => points.flatMap(neededAt);

// All the OPENs first, then the BLOCKs, and so on.
function byAction(points) {
  const steps = byPoint(points);
  return ACTIONS.flatMap((action) => steps.filter((text) => text.startsWith(`${action} `)));
}

export class OrderEditor {
  #view; #network; #desk; #picker; #list; #arrange = byAction; #fenced = null;
  node;

  constructor(view, desk) {
    this.#view = view;
    this.#network = desk.network;
    this.#desk = desk;
    this.#picker = new PointPicker(desk, () => this.#picked(), view.card.clearance);
    this.#picker.fence = () => (this.#picker.picked.size ? this.#fence().sections : new Set());
    this.#picker.way = () => (this.#picker.picked.size ? this.#fence().sources[0]?.way ?? [] : []);
    this.#picker.turned = () => turnedBySteps(desk, this.#list.steps);
    this.#list = new StepList(() => this.#keep());
    this.#recall();
    this.node = this.#draw();
    desk.pick(this.#picker);
  }

  #draftName() { return draftName("order", this.#view.card.clearance); }

  #keep() {
    learn();
    keepDraft(this.#draftName(), { points: [...this.#picker.picked], steps: this.#list.steps, byPoint: this.#arrange === byPoint });
  }

  // What was half written before a look elsewhere.
  #recall() {
    const kept = draft(this.#draftName());
    if (!kept) return;
    if (kept.byPoint) this.#arrange = byPoint;
    this.#take(kept);
  }

  // These points, and their steps in this order where they are those that are needed now.
  #take(kept) {
    this.#picker.put(kept.points);
    const needed = this.#neededSteps();
    const same = needed.length === kept.steps.length && needed.every((text) => kept.steps.includes(text));
    this.#list.set(same ? kept.steps : needed);
    this.#desk.redraw();
  }

  #neededSteps() {
    return this.#arrange([...this.#picker.picked].map((name) => this.#network.points.get(name) ?? { name, isGone: true }));
  }

  // Worked out once for what is picked.
  #fence() {
    const key = [this.#network.shape, ...this.#picker.picked].join(" ");
    if (this.#fenced?.key !== key) this.#fenced = { key, found: fenceOf(this.#network, this.#view.work, this.#picker.picked) };
    return this.#fenced.found;
  }

  #draw() {
    const { clearance } = this.#view.card;
    const picked = () => this.#picker.picked;
    return el("div", { class: "offer editor" },
      el("p", {}, `Isolating order of ${clearance} for work on `, el("strong", {}, this.#view.work),
        ". Pick each point that is to be held open; each way to a source has to be among them, an open point too."),
      new StandardOrders("order", this.#view.work, () => ({ points: [...picked()], steps: this.#list.steps }), (order) => this.#take(order)).node,
      this.#picker.node,
      fenceNotes(picked, () => this.#fence()),
      pickedNotes(this.#desk, picked, { own: clearance, action: "OPEN", more: (name) => offFence(this.#network, this.#fence(), name) }),
      el("h3", {}, "Steps"),
      el("div", { class: "answers" },
        button("By action", () => this.#arranged(byAction), { "data-name": "by-action" }),
        button("By point", () => this.#arranged(byPoint), { "data-name": "by-point" }),
        el("span", { class: "hint" }, "at each point: OPEN, BLOCK if lockable, CONTROL if remote, TAG")),
      this.#list.node, turnNotes(this.#desk, () => this.#list.steps),
      button(`Give the order of ${clearance}`, () => this.#send(), { class: "main", "data-name": "order" }));
  }

  #arranged(arrange) {
    this.#arrange = arrange;
    this.#picked();
  }

  #picked() {
    this.#list.set(this.#neededSteps());
    this.#desk.redraw();
  }

  async #send() {
    const found = findingsOfSteps(this.#desk, this.#list.steps, this.#view.card.clearance);
    if (!(await mayGo(`Before the order of ${this.#view.card.clearance} is given`, found, "Give the order"))) return;
    await this.#desk.act({ do: "order", clearance: this.#view.card.clearance, points: [...this.#picker.picked], steps: this.#list.steps });
  }
}
