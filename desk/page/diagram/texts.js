// The texts of the diagram: names of sections and points, clearances at sections, holds at points. From far off they
// are larger in the drawing.

import { svg } from "../shared/elements.js";
import { isOffNormal } from "../shared/point-states.js";
import { pointBox, sectionBox, signBoxes } from "./boxes.js";
import { formsOf, holdMarks } from "./mark-words.js";
import { Labels, LINE, leaderTo } from "./text-places.js";

const NAME = 14, LABEL = 13, MARK = 13; // sizes in the drawing, from near by
const LEAST = 8;                        // the size of a label on the screen, in pixels, from far off
const LEAST_INSIDE = 7.4;               // that of a name in its box
const PART = 8;                         // a size is rounded up to such a part of itself
const KINDS = ["live", "bad", "turn", "plain", "dead"]; // of the marks at a section, the worst first
const ACROSS = ["above", "below", "right", "left"];
const SIDES = { section: ["above", "below"], row: ACROSS, lane: ACROSS, upright: ["right", "left", "below", "above"] };
const OFF = " ≠", ROOM = 15;            // after the name of a point that is not in its normal position, and its width

export class Writing {
  #network; #plan; #labels; #factor = 0; #inside = NAME; #view = null; #onPaper = false; #seen = null; #key = ""; #names = {};
  node = svg("g", { class: "writing" });

  constructor(network, plan) {
    this.#network = network;
    this.#plan = plan;
    const sections = [...plan.spots.values()].flatMap((spot) => [sectionBox(spot), ...signBoxes(spot)]);
    this.#labels = new Labels([...sections, ...plan.edges.map(pointBox)], plan.edges, plan);
    addEventListener("beforeprint", () => this.#turn(true));
    addEventListener("afterprint", () => this.#turn(false));
  }

  // The scale at which the drawing is shown, once it is still, and what of it is in view. Before that is known nothing is written.
  atView(scale, view) {
    const factor = Math.max(1, Math.ceil((LEAST / (LABEL * scale)) * PART) / PART), inside = NAME * scale >= LEAST_INSIDE ? NAME : 0;
    if (factor === this.#factor && inside === this.#inside && view.join() === this.#view?.join()) return;
    this.#factor = factor;
    this.#inside = inside;
    this.#view = view;
    if (this.#seen) this.write(this.#seen);
  }

  // On paper there is no edge of a view.
  #turn(onPaper) {
    this.#onPaper = onPaper;
    if (this.#seen && this.node.isConnected) this.write(this.#seen);
  }

  // What is known now: `marks` at sections, `states` of points, and the names that matter otherwise.
  write(seen) {
    this.#seen = seen;
    if (!this.#factor) return;
    const view = this.#onPaper ? null : this.#view, names = this.#placedNames(view);
    const marks = [...this.#sectionMarks(seen), ...this.#pointMarks(seen)];
    const off = new Set([...seen.states.values()].filter(isOffNormal).map(({ point }) => point.name));
    const matter = new Set([...marks.filter(({ kept }) => kept).map(({ of }) => of), ...off, ...seen.matter]);
    const more = names.filter(({ place, label }) => !place && matter.has(label.of)).map(({ label }) => ({ ...label, inside: 0, rings: 5, rank: 3 }));
    const labels = [...marks, ...more].sort((a, b) => a.rank - b.rank);
    const key = JSON.stringify([this.#names.key, [...off], labels.map(({ of, kind, forms }) => [of, kind, forms])]);
    if (key === this.#key) return;
    this.#key = key;
    const { places, left } = this.#labels.placeMarks(labels, view);
    const kept = names.filter(({ place }) => place && !left.has(place.rect)), said = labels.map((label, at) => ({ label, place: places[at] }));
    const sign = ({ of, kind }) => (kind === "label" && off.has(of) ? OFF : "");
    const drawn = [...kept, ...said].flatMap(({ label, place }) => (place ? this.#drawn(label, place, sign(label)) : []));
    const ofTag = (tag) => drawn.filter((node) => node.localName === tag);
    this.node.replaceChildren(...ofTag("path"), ...ofTag("rect"), ...ofTag("text")); // no leader over a text
  }

  // Those of a view lie where they do whatever is said; from far off sources come first.
  #placedNames(view) {
    const key = [this.#factor, this.#inside, view].join();
    if (this.#names.key === key) return this.#names.list;
    const spots = [...this.#plan.spots.values()].sort((a, b) => Math.abs(b.feed) - Math.abs(a.feed));
    const rings = this.#factor === 1 ? undefined : 2;
    const sections = spots.map((spot) => this.#label(NAME, spot.name, "name", { box: sectionBox(spot), sides: SIDES.section, inside: this.#inside }));
    const points = this.#plan.edges.map((edge) => this.#label(LABEL, edge.point.name, "label",
      { box: pointBox(edge), sides: SIDES[edge.kind], more: edge.point.normal === null ? 0 : ROOM * this.#factor }));
    const labels = [...sections, ...points].map((label) => ({ ...label, rings, forms: [[{ text: label.of }]] }));
    const places = this.#labels.placeNames(labels, view);
    this.#names = { key, list: labels.map((label, place) => ({ label, place: places[place] })) };
    return this.#names.list;
  }

  #label(size, of, kind, parts) {
    return { size: size * this.#factor, of, kind, bold: true, ...parts };
  }

  #sectionMarks({ marks }) {
    const worst = (kind) => KINDS.indexOf(kind);
    return [...marks].filter(([name]) => this.#plan.spots.has(name)).map(([name, own]) => {
      const lines = [...own].sort((a, b) => worst(a.kind) - worst(b.kind)), [{ kind }] = lines, kept = kind !== "dead";
      return this.#label(MARK, name, "mark section-mark",
        { box: sectionBox(this.#plan.spots.get(name)), sides: SIDES.row, forms: formsOf(lines), kept, rank: worst(kind) < 2 ? 0 : kept ? 2 : 4 });
    });
  }

  #pointMarks({ states }) {
    return this.#plan.edges.map((edge) => [edge, holdMarks(states.get(edge.point.name))]).filter(([, held]) => held.length).map(([edge, held]) => {
      const forms = formsOf(held.map((text) => ({ text, kind: "" }))), sides = ["below", ...SIDES[edge.kind]];
      return this.#label(MARK, edge.point.name, "mark", { bold: false, box: pointBox(edge), sides, forms, kept: true, rank: 1 });
    });
  }

  // A text over a line lies on a plate, so that no line strikes it through.
  #drawn({ of, kind, box }, { x, y, size, anchor, form, ring, rect, over }, sign) {
    const texts = form.map(({ text, kind: own = "" }, line) => svg("text", {
      class: `${kind} ${own}`, "data-of": of, x, y: y + line * size * LINE + size * 0.93, "font-size": size, "text-anchor": anchor }, text + sign));
    const plate = over ? [svg("rect", { class: "plate", x: rect[0], y: rect[1], width: rect[2] - rect[0], height: rect[3] - rect[1] })] : [];
    const leader = ring > 0 ? [svg("path", { class: "leader", d: `M${leaderTo(box, rect)}` })] : [];
    return [...leader, ...plate, ...texts];
  }
}
