// Picking points, from a list or on the diagram, and a list of steps that can be put into another order.

import { el, button, panel } from "../shared/elements.js";
import { marksOf } from "../shared/network.js";
import { living } from "./findings-shown.js";
import { flagOf, GONE } from "./findings.js";

const MOST_LISTED = 150;

// A list of all points with a box each, their positions, and a word where something is in the way; the diagram beside it picks the same.
export class PointPicker {
  #desk; #network; #own; #changed; #filter; #list; #count;
  picked = new Set();
  kind = "point";
  node;

  // `own` is the clearance that the points are picked for, if any.
  constructor(desk, changed, own = null) {
    this.#desk = desk;
    this.#network = desk.network;
    this.#own = own;
    this.#changed = changed;
    this.#filter = el("input", { type: "search", size: 14, "aria-label": "Points or sections with this in their name", placeholder: "point or section", "data-name": "filter" });
    this.#filter.addEventListener("input", () => this.#draw());
    this.#list = el("ul", { class: "picks" });
    this.#count = el("span", { class: "hint" });
    this.node = el("fieldset", { class: "picker" }, el("legend", {}, "Points: here, or on the diagram"),
      this.#filter, this.#count, this.#list);
    living(this.#list, () => this.#draw());
  }

  toggle(name) {
    if (!this.picked.delete(name)) this.picked.add(name);
    this.#draw();
    this.#changed(name, this.picked.has(name));
  }

  // What was picked before a look elsewhere, or by a standard order.
  put(names) {
    this.picked.clear();
    for (const name of names) this.picked.add(name);
    this.#draw();
  }

  #found() {
    const text = this.#filter.value.trim().toUpperCase();
    return [...this.#network.points.values()].filter((point) =>
      !text || point.name.includes(text) || point.from.includes(text) || point.to.includes(text));
  }

  // First what is picked, of that first what an update has taken out of the network.
  #draw() {
    const found = this.#found(), gone = [...this.picked].filter((name) => !this.#network.points.has(name));
    const first = found.filter((point) => this.picked.has(point.name));
    const shown = [...first, ...found.filter((point) => !this.picked.has(point.name))].slice(0, MOST_LISTED);
    this.#count.textContent = shown.length < found.length ? `the first ${shown.length} of ${found.length}` : `${found.length} ${found.length === 1 ? "point" : "points"}`;
    const known = this.#desk.states();
    const rows = shown.map((point) => [point, this.picked.has(point.name), known.get(point.name).position, flagOf(this.#desk, point.name, this.#own, known)]);
    const all = [...gone.map((name) => [{ name }, true, "", GONE]), ...rows];
    panel(this.#list, all, () => all.map((row) => this.#row(...row)));
  }

  #row(point, picked, position, flag) {
    const { name } = point;
    const box = el("input", { type: "checkbox", checked: picked, "data-name": `pick ${name}`, onchange: () => this.toggle(name) });
    const known = position ? [` ${point.from} – ${point.to} `, el("strong", { class: "position" }, position), " ",
      el("span", { class: "hint" }, `marks: ${marksOf(point)}`)] : [];
    return el("li", {}, el("label", {}, box, el("strong", {}, name), known, " ", flag ? el("span", { class: "flag" }, flag) : null));
  }
}

// An ordered list of step texts with buttons that move a step up and down, and where wanted take it out.
export class StepList {
  #changed; #remove;
  steps = [];
  node = el("ol", { class: "steplist" });

  constructor(changed = () => {}, remove = null) {
    this.#changed = changed;
    this.#remove = remove;
    this.draw();
  }

  set(steps) {
    this.steps = steps;
    this.draw();
    this.#changed();
  }

  #move(place, by) {
    const steps = [...this.steps];
    [steps[place], steps[place + by]] = [steps[place + by], steps[place]];
    this.set(steps);
  }

  #row(text, place) {
    return el("li", {}, el("span", { class: "text" }, text),
      button("↑", () => this.#move(place, -1), { "aria-label": `${text} one up`, disabled: place === 0, "data-name": `up ${text}` }),
      button("↓", () => this.#move(place, 1), { "aria-label": `${text} one down`, disabled: place === this.steps.length - 1, "data-name": `down ${text}` }),
      this.#remove ? button("✕", () => this.#remove(place), { "aria-label": `take ${text} out`, "data-name": `out ${text}` }) : null);
  }

  draw() {
    panel(this.node, this.steps, () => (this.steps.length
      ? this.steps.map((text, place) => this.#row(text, place)) : [el("li", { class: "none" }, "no steps yet")]));
  }
}
