// The network as a list, where it is too large to be drawn.

import { el, field, panel, table } from "../shared/elements.js";
import { holdMarks, sectionMarks } from "./mark-words.js";

const MOST_LISTED = 300;

export class NetList {
  #network; #filter; #rows = el("div", { class: "sheet" }); #last = null;
  node;

  constructor(network) {
    this.#network = network;
    this.#filter = el("input", { type: "search", size: 16, "data-name": "filter", oninput: () => this.update(this.#last) });
    this.node = el("div", { class: "diagram" },
      el("p", {}, `The network has ${network.sections.size} sections; it is listed here, since it is too large to be drawn.`),
      el("div", { class: "line" }, field("Section or point", this.#filter)), this.#rows);
  }

  pick() {}
  lookAt() {}
  viewAs() {}

  update(seen) {
    this.#last = seen;
    if (!seen) return;
    const text = this.#filter.value.trim().toUpperCase();
    const found = [...this.#network.sections.values()].filter((section) =>
      !text || section.name.includes(text) || this.#network.ways.get(section.name).some((point) => point.name.includes(text)));
    const shown = found.sort((a, b) => seen.fence.has(b.name) - seen.fence.has(a.name)).slice(0, MOST_LISTED);
    const said = sectionMarks(seen.room, seen.turned);
    const rows = shown.map((section) => [section, this.#network.ways.get(section.name).map((point) => {
      const state = seen.states.get(point.name);
      const marks = holdMarks(state).join(", ");
      return `${point.name} to ${point.from === section.name ? point.to : point.from}: ${state.position}${marks ? ` (${marks})` : ""}`;
    }), [section.source ? "source" : "", section.live ? "live" : "dead", seen.fence.has(section.name) ? "in the fence" : ""].filter(Boolean).join(", "), (said.get(section.name) ?? []).filter(({ kind }) => kind !== "dead")]);
    panel(this.#rows, [rows, found.length], () => [
      el("p", { class: "hint" }, `${shown.length} of ${found.length} sections`),
      table(["Section", "Now", "Points"], rows.map(([section, ways, words, own]) => el("tr", {},
        el("th", { scope: "row" }, section.name), el("td", {}, words, own.map(({ text, kind }) => el("p", {}, el("span", { class: kind }, text)))),
        el("td", {}, ways.map((way) => el("p", {}, way))))))]);
  }
}
