// The one-line diagram: sections, the points between them, and what the register says of both.

import { unfolding } from "../orders/findings-shown.js";
import { sectionWords } from "../orders/findings.js";
import { holdWord } from "../replies/words.js";
import { el, svg, button, panel } from "../shared/elements.js";
import { isOffNormal } from "../shared/point-states.js";
import { Roving } from "./arrow-keys.js";
import { BOX } from "./boxes.js";
import { layOut } from "./layout.js";
import { sectionMarks } from "./mark-words.js";
import { Writing } from "./texts.js";
import { Zoom } from "./zoom.js";

export const MOST_DRAWN = 1000;
const MOVES = [["←", "To the left", -160, 0], ["→", "To the right", 160, 0], ["↑", "Up", 0, -160], ["↓", "Down", 0, 160]];
const FLASH = "M5,-11L1.5,-4.5H4L2.5,1L7.5,-6.5H5L6.5,-11Z"; // at the left upper edge of a section's box
const GROUND = "M0,0V3M-7,3H7M-4.5,6H4.5M-2,9H2";            // below a section's box
const TAG = "M8,0L12,-5H20V5H12ZM13,-1a1,1 0 1 0 0.1,0";     // on a point's line
const KEYS = "Plus and minus zoom, arrows move it, 0 shows all. The points are also listed under Points.";
const BY_KEYS = "By keys: Tab into the diagram, arrows from one to the next, Space picks.";

function pointTitle(state) {
  const { point } = state;
  return [
    `${point.jumper ? "jumper " : ""}${point.name}, between ${point.from} and ${point.to}`,
    `${state.position}${point.normal ? `; normally ${point.normal}` : ""}`,
    state.hand ? `in hand of ${state.hand}` : "",
    ...state.holds.map((hold) => `${holdWord(hold.kind)} by ${hold.by}`),
  ].filter(Boolean).join("\n");
}

// Closed is full, open is hollow with a gap; a tag hangs on the line, whichever way that leads.
function pointSymbol({ position, holds }, picked, found) {
  const parts = [svg("rect", { class: "hit", x: -16, y: -16, width: 32, height: 32 })];
  if (found) parts.push(svg("circle", { class: "found", r: 17 }));
  if (picked) parts.push(svg("rect", { class: "ring", x: -12, y: -12, width: 24, height: 24, rx: 4 }));
  parts.push(svg("rect", { class: "box", x: -7, y: -7, width: 14, height: 14 }));
  if (position === "open") parts.push(svg("path", { class: "gap", d: "M-4,4L4,-4" }));
  if (holds.some(({ kind }) => kind === "Tag")) parts.push(svg("path", { class: "tag", d: TAG }));
  return parts;
}

// What the title of a section says: live and dead are the register's words, and no test.
function sectionTitle(section, marks, fenced) {
  const fed = section.live ? "live: closed points lead here from a source" : "dead by the positions of the points; a test shows it in the field";
  return [`section ${section.name}${section.source ? ", a source" : ""}`, fed, fenced ? "in the fence" : "",
    ...marks.filter(({ kind }) => kind !== "dead").map(({ text }) => text)].filter(Boolean).join("\n");
}

// A live section has a filled box with a flash in it; the box of a dead one is empty, and its border is broken. What is
// grounded has that sign, a source its own at the side from which no line comes.
function sectionParts({ width, feed }, section, marks, { fenced, found, picked }) {
  const top = -BOX / 2, ring = (name, out) => svg("rect", { class: name, x: -out, y: top - out, width: width + 2 * out, height: BOX + 2 * out, rx: out + 2 });
  return [
    svg("title", {}, sectionTitle(section, marks, fenced)),
    section.source ? svg("g", { class: "feed", transform: feed > 0 ? `translate(${width},0) scale(-1,1)` : null },
      svg("circle", { cx: -16, cy: 0, r: 11 }), svg("path", { d: "M-22,1c3,-7 5,-7 6,-1s4,6 6,-1" }), svg("path", { d: "M-5,0H0" })) : null,
    found ? ring("found", 7) : null,
    picked ? ring("ring", 5) : null,
    svg("rect", { class: "box", x: 0, y: top, width, height: BOX, rx: 4 }),
    fenced ? svg("rect", { class: "hatch", x: 0, y: top, width, height: BOX, rx: 4, fill: "url(#hatch)" }) : null,
    section.live ? svg("path", { class: "flash", d: FLASH }) : null,
    section.holds.some(({ kind }) => kind === "Ground") ? svg("path", { class: "ground", d: GROUND, transform: `translate(9,${-top})` }) : null,
  ].filter(Boolean);
}

// Where a press or a key on a point or section leads to, as long as it was no drag; `moves(event)` is whether a key moved on.
function pressable(group, does, moves) {
  let from = null;
  group.addEventListener("pointerdown", (event) => { from = [event.clientX, event.clientY]; });
  group.addEventListener("click", (event) => {
    if (from && Math.hypot(event.clientX - from[0], event.clientY - from[1]) > 5) return;
    does();
  });
  group.addEventListener("keydown", (event) => {
    const picks = event.key === "Enter" || event.key === " ";
    if (!picks && !moves(event)) return;
    event.preventDefault();
    event.stopPropagation();
    if (picks) does();
  });
}

export class Diagram {
  #network; #plan; #zoom; #frame; #writing; #groups = { section: new Map(), point: new Map() }; #keys = new Map(); #roving;
  #picking = null; #press; #shown = new Set(); #over = null; #found = new Set(); #finding = el("span", { class: "hint", role: "status" }); #last = null;
  #dead = el("div", { class: "hint", "data-name": "dead" }); #byKeys = el("p", { class: "hint by-keys" }); #inFull = el("p", { class: "in-full", role: "status" });
  node;

  // `press(kind, name)` is called where nothing is being picked.
  constructor(network, press) {
    this.#network = network;
    this.#press = press;
    this.#plan = layOut(network);
    this.#writing = new Writing(network, this.#plan);
    const drawing = this.#draw();
    this.#frame = el("div", { class: "net", tabindex: 0, role: "group", "aria-label": `One-line diagram. ${KEYS}` }, drawing, this.#inFull);
    // At the frame: a browser takes each part of a drawing that listens for the focus for a stop of Tab.
    for (const type of ["focusin", "pointerover", "pointerleave"]) this.#frame.addEventListener(type, (event) => this.#turnTo(event));
    this.#zoom = new Zoom(this.#frame, drawing, this.#plan, (scale, view) => this.#writing.atView(scale, view));
    this.#roving = this.#rovings();
    this.node = el("div", { class: "diagram" }, this.#tools(), this.#byKeys, this.#frame, this.#dead, legend());
  }

  // One for each kind that may be picked.
  #rovings() {
    const reveal = (place) => this.#zoom.reveal(place);
    const sections = new Map([...this.#plan.spots.values()].map(({ name, x, y, width }) => [name, { x: x + width / 2, y }]));
    const points = new Map(this.#plan.edges.map(({ point, x, y }) => [point.name, { x, y }]));
    return { section: new Roving(sections, this.#groups.section, reveal), point: new Roving(points, this.#groups.point, reveal) };
  }

  // Says in full what the pointer or the focus is on, a name that has no room in the drawing too.
  #turnTo({ type, target }) {
    this.#over = target.closest("[data-kind]");
    const { kind, name } = this.#over?.dataset ?? {};
    if (type === "focusin" && kind && kind === this.#picking?.kind) this.#roving[kind].onFocus(name);
    this.#sayInFull();
  }

  #sayInFull() {
    const text = this.#over?.firstChild?.textContent.replaceAll("\n", "; ") ?? "";
    if (this.#inFull.textContent !== text) this.#inFull.textContent = text;
  }

  // Shows what another drawing of the same register showed: all but jumpers lies in the same places.
  viewAs(other) {
    if (other instanceof Diagram) this.#zoom.viewAs(other.#zoom);
  }

  // Tab leads to what is picked, or to what is in the middle.
  #placeStop() {
    if (!this.#picking) return;
    const { kind, picked } = this.#picking, roving = this.#roving[kind];
    roving.begin([...picked].find((name) => this.#groups[kind].has(name)) ?? roving.nearest(this.#zoom.middle()));
  }

  // Shows the whole network where that can be read; otherwise these sections in the middle.
  lookAt(names) {
    this.#turnTo({ target: this.#frame });
    const spots = names.map((name) => this.#plan.spots.get(name)).filter(Boolean);
    const mean = (key) => spots.reduce((sum, spot) => sum + spot[key], 0) / spots.length;
    this.#zoom.lookAt(spots.length ? { x: mean("x") + spots[0].width / 2, y: mean("y") } : null);
    this.#placeStop();
  }

  #draw() {
    const base = this.#plan.edges.map((edge) => svg("path", { class: edge.point.jumper ? "line jumper" : "line", d: edge.path }));
    const dots = this.#plan.edges.flatMap((edge) => [edge.dot, edge.other]).filter(Boolean)
      .map(([cx, cy]) => svg("circle", { class: "dot", cx, cy, r: 2.5 }));
    const sections = [...this.#plan.spots.values()].map((spot) => this.#group("section", spot.name, spot));
    const points = this.#plan.edges.map((edge) => this.#group("point", edge.point.name, edge));
    const { width, height } = this.#plan;
    const hatch = svg("pattern", { id: "hatch", width: 8, height: 8, patternUnits: "userSpaceOnUse", patternTransform: "rotate(45)" },
      svg("path", { d: "M0,0V8", class: "stroke" }));
    return svg("svg", { class: "drawing", role: "presentation", width, height, viewBox: `0 0 ${width} ${height}` },
      svg("defs", {}, hatch), svg("g", {}, base, dots), svg("g", {}, sections), svg("g", {}, points), this.#writing.node);
  }

  #group(kind, name, { x, y, kind: lies }) {
    const group = svg("g", { "data-kind": kind, "data-name": name, "data-lies": lies, transform: `translate(${x},${y})` });
    const picks = () => this.#picking?.kind === kind;
    pressable(group, () => (picks() ? this.#picking.toggle(name) : this.#press(kind, name)), (event) => picks() && this.#roving[kind].onKey(event, name));
    this.#groups[kind].set(name, group);
    return group;
  }

  #tools() {
    const find = el("input", { type: "search", placeholder: "section or point", "aria-label": "Find a section or point", size: 13 });
    const go = () => this.find(find.value.trim().toUpperCase());
    find.addEventListener("keydown", (event) => { if (event.key === "Enter") go(); });
    return el("div", { class: "tools" },
      button("Whole network", () => this.#zoom.all()),
      button("Closer", () => this.#zoom.closer(1)),
      button("Farther", () => this.#zoom.closer(-1)),
      el("span", { class: "moves" }, MOVES.map(([sign, words, x, y]) => button(sign, () => this.#zoom.pan(x, y), { "aria-label": words, title: words }))),
      find, button("Find", go), this.#finding);
  }

  // Marks the section or point of this name, or those with it in their name, and brings the first to the middle.
  find(name) {
    const names = Object.values(this.#groups).flatMap((groups) => [...groups.keys()]);
    const found = names.includes(name) ? [name] : names.filter((one) => name && one.includes(name));
    this.#found = new Set(found);
    this.#finding.textContent = !name ? "" : !found.length ? `nothing has ${name} in its name`
      : `${found.length === 1 ? found[0] : `${found.length} found, as ${found[0]}`}, ringed`;
    const spot = this.#plan.spots.get(found[0]) ?? this.#plan.edges.find((edge) => edge.point.name === found[0]);
    if (spot) this.#zoom.bringToMiddle(spot);
    const kind = this.#picking?.kind, first = found.find((one) => this.#groups[kind]?.has(one));
    if (first) this.#roving[kind].begin(first);
    if (this.#last) this.update(this.#last);
  }

  // What is being picked: { kind, picked: Set, toggle(name), way() }, or null.
  pick(picking) {
    this.#picking = picking;
    for (const kind of Object.keys(this.#groups)) this.#frame.classList.toggle(`picking-${kind}s`, picking?.kind === kind);
    this.#byKeys.textContent = picking ? BY_KEYS : "";
    this.#placeStop();
  }

  // Draws what has changed since the last time.
  update(seen) {
    const { states, room, fence, turned } = this.#last = seen;
    const marks = sectionMarks(room, turned);
    const picked = (kind, name) => this.#picking?.kind === kind && this.#picking.picked.has(name);
    for (const [name, group] of this.#groups.point) {
      const state = states.get(name), chosen = picked("point", name), found = this.#found.has(name);
      this.#redraw(group, [state.position, state.hand, state.holds, chosen, found, this.#picking?.kind], () => {
        group.setAttribute("class", `point ${state.position}${chosen ? " picked" : ""}`);
        this.#offerPicking(group, "point", name, chosen, `${name}, ${state.position}`);
        return [svg("title", {}, pointTitle(state)), ...pointSymbol(state, chosen, found)];
      });
    }
    for (const [name, group] of this.#groups.section) {
      const own = marks.get(name) ?? [], chosen = picked("section", name), fenced = fence.has(name), found = this.#found.has(name);
      const section = this.#network.sections.get(name), alarmed = own.some(({ kind }) => kind === "live");
      this.#redraw(group, [own, section.live, section.holds, chosen, fenced, found, this.#picking?.kind], () => {
        group.setAttribute("class", ["section", section.live ? "fed" : "dead", section.source ? "source" : "", fenced ? "fenced" : "", chosen ? "picked" : "", alarmed ? "live" : ""].join(" "));
        this.#offerPicking(group, "section", name, chosen, name);
        return sectionParts(this.#plan.spots.get(name), section, own, { fenced, found, picked: chosen });
      });
    }
    this.#sayDead();
    this.#markWay();
    this.#writing.write({ states, marks, matter: new Set([...fence, ...this.#found]) });
    this.#revealPicked();
    this.#sayInFull();
  }

  // One that was picked in the list is brought into view.
  #revealPicked() {
    const now = this.#picking?.picked ?? new Set(), fresh = [...now].filter((name) => !this.#shown.has(name));
    this.#shown = new Set(now);
    if (fresh.length === 1 && this.#groups[this.#picking.kind].has(fresh[0])) this.#roving[this.#picking.kind].onFocus(fresh[0]);
  }

  #sayDead() {
    const all = [...this.#network.sections.values()], dead = all.filter(({ live }) => !live).map(({ name }) => name);
    const said = (most) => `${dead.length} of ${all.length} sections ${dead.length === 1 ? "is" : "are"} dead by the register's positions: ${sectionWords(dead, most)}`;
    panel(this.#dead, [all.length, dead], () => (dead.length ? unfolding(said(), said(dead.length)) : `all ${all.length} sections are live by the register's positions`));
  }

  // The way to a source that the picked points leave open: section, point, section and so on.
  #markWay() {
    const way = this.#picking?.way?.() ?? [];
    Object.values(this.#groups).forEach((groups, turn) => {
      const names = new Set(way.filter((_, place) => place % 2 === turn));
      for (const [name, group] of groups) group.classList.toggle("way", names.has(name));
    });
  }

  #offerPicking(group, kind, name, chosen, label) {
    const tabindex = this.#roving[kind].isStop(name) ? "0" : "-1", on = this.#picking?.kind === kind;
    for (const [attribute, value] of [["tabindex", tabindex], ["role", "checkbox"], ["aria-checked", String(chosen)], ["aria-label", label]]) {
      if (on) group.setAttribute(attribute, value);
      else group.removeAttribute(attribute);
    }
  }

  #redraw(group, key, draw) {
    const text = JSON.stringify(key);
    if (this.#keys.get(group) === text) return;
    this.#keys.set(group, text);
    group.replaceChildren(...draw());
  }
}

function sample(className, left, wide, ...parts) {
  const size = { viewBox: `${left} -14 ${wide} 37`, width: wide, height: 32 };
  return svg("svg", { class: "net sample", ...size, "aria-hidden": "true" }, svg("g", { class: className }, parts));
}

function pointSample(className, position, ...kinds) {
  const parts = pointSymbol({ position, holds: kinds.map((kind) => ({ kind })) });
  return sample(`point ${position} ${className}`, -14, kinds.length ? 38 : 28, svg("path", { class: "line", d: "M-14,0H24" }), ...parts);
}

function sectionSample(className, state = {}) {
  const [, ...parts] = sectionParts({ width: 36 }, { holds: [], ...state }, [], { fenced: className === "fenced" });
  return sample(`section ${className}`, -2, 40, ...parts);
}

function legend() {
  const entry = (mark, text) => el("li", {}, mark, el("span", {}, text));
  const sign = (text) => el("b", {}, text);
  return el("details", { class: "legend" }, el("summary", {}, "Signs"), el("ul", {},
    entry(pointSample("", "closed"), "closed"), entry(pointSample("", "open"), "open"), entry(pointSample("", "open", "Tag"), "tagged"),
    entry(sample("", -14, 28, svg("path", { class: "line jumper", d: "M-14,0H14" })), "a jumper"),
    entry(sectionSample("fed", { live: true }), "live by the register: closed points lead there from a source"),
    entry(sectionSample("dead"), "dead by the positions of the points; only a test shows it in the field"),
    entry(sectionSample("dead", { holds: [{ kind: "Ground" }] }), "grounded"),
    entry(sign("→ live, → dead"), "what the step at hand, or the order that is being written, would make of it, by this page's reckoning"),
    entry(sign("≠"), "not in its normal position"),
    entry(sectionSample("fenced"), "in the fence of the chosen clearance, or of the points that are picked"),
    entry(pointSample("way", "closed"), "purple: on the way to a source that the picked points leave open"),
    entry(sign("red"), "tested live, until it is tested dead"),
    entry(sign("O B C T"), "held open, blocked, control off, tagged, after the owner's name"),
    entry(sign("…"), "an owner's name for which there is no room: it is said below, once the pointer or the focus is there"),
    entry(sign("hand"), "its owner's step is given out there")));
}
