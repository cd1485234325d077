// The points: position, normal position, hand, holds and steps under way; who is at a point, and what is not normal.

import { holdWord, stateWord } from "../replies/words.js";
import { el, field, panel, table } from "../shared/elements.js";
import { shortTime } from "../shared/moments.js";
import { marksOf } from "../shared/network.js";
import { isOffNormal, knowsNormal } from "../shared/point-states.js";
import { room } from "../shared/watch.js";

const MOST_LISTED = 300;

const KINDS = {
  all: ["all points", () => true],
  off: ["not in their normal position", (state) => isOffNormal(state)],
  held: ["held by somebody", (state) => state.holds.length > 0],
  hand: ["in hand: a step is given out", (state) => state.hand !== null],
};

const links = (ids) => ids.flatMap((id, place) => [place ? ", " : "", el("a", { href: `#/clearance/${id}` }, id)]);

function holdLines({ holds }) {
  const owners = [...new Set(holds.map(({ by }) => by))];
  return owners.map((owner) => el("p", {}, ...links([owner]), `: ${holds.filter(({ by }) => by === owner).map(({ kind }) => holdWord(kind)).join(", ")}`));
}

function stepLines({ steps }) {
  return steps.filter(({ state }) => state !== "Done").map(({ id, number, text, state, reader }) =>
    el("p", {}, ...links([id]), ` step ${number} ${text}: ${stateWord(state)}${reader ? `, ${reader}` : ""}`));
}

const cell = (content, head = null) => el("td", { class: content.length ? null : "none", "data-head": head }, content.length ? content : "–");

function row(state) {
  const { point } = state;
  return el("tr", { "data-point": point.name },
    el("th", { scope: "row" }, point.name), el("td", {}, `${point.from} – ${point.to}`), el("td", { "data-head": "marks" }, marksOf(point)),
    el("td", { "data-head": "now" }, el("strong", {}, state.position), isOffNormal(state) ? " ≠" : ""),
    cell(point.normal ?? "", "normally"), cell(state.hand ? links([state.hand]) : "", "in hand of"), cell(holdLines(state)), cell(stepLines(state)));
}

export class PointsPage {
  #desk; #filter; #kind = "all"; #rows = el("div", { class: "sheet" }); #count = el("p", { class: "hint" });
  title = "Points";
  node;

  constructor(desk, name = "") {
    this.#desk = desk;
    this.#filter = el("input", { type: "search", size: 16, value: name, "data-name": "filter", oninput: () => this.update() });
    const kinds = el("fieldset", { class: "kinds" }, el("legend", {}, "Show"), Object.entries(KINDS).filter(([kind]) => kind !== "off" || knowsNormal()).map(([kind, [text]]) =>
      el("label", { class: "radio" }, el("input", { type: "radio", name: "kind", checked: kind === "all", onchange: () => { this.#kind = kind; this.update(); } }), text)));
    this.node = el("section", { class: "points" }, el("h2", { tabindex: -1 }, "Points"),
      el("div", { class: "line" }, field("Point or section", this.#filter), kinds), this.#count, this.#rows);
    this.update();
  }

  #found(states) {
    const text = this.#filter.value.trim().toUpperCase();
    const fits = ({ point }) => !text || point.name.includes(text) || point.from.includes(text) || point.to.includes(text);
    const exact = [...states.values()].filter(({ point }) => point.name === text);
    const found = exact.length ? exact : [...states.values()].filter(fits);
    return found.filter(KINDS[this.#kind][1]);
  }

  update() {
    const states = this.#desk.states();
    const found = this.#found(states), shown = found.slice(0, MOST_LISTED);
    this.#count.textContent = `${shown.length} of ${found.length} points, as the register had them at ${shortTime(room.network)}.`;
    panel(this.#rows, [shown.map((state) => [state.point, state.position, state.hand, state.holds, state.steps])], () =>
      table(["Point", "Between", "Marks", "Position", "Normally", "In hand of", "Holds", "Steps left"], shown.map((state) => row(state)), { class: "wide" }));
  }
}
