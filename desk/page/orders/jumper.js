// Adding a jumper: its name, its ends, picked on the diagram too, what it would come into, and a question. It is laid and
// taken off by a switch order, which the form offers to write.

import { drafted, draftName } from "../shared/drafts.js";
import { el, button, field, form, panel, table } from "../shared/elements.js";
import { agreed } from "../shared/question.js";
import { findingsList, learn, living } from "./findings-shown.js";
import { jumperFindings } from "./findings.js";
import { offerStep } from "./switch-order.js";

const PARTS = { point: "Name", from: "From section", to: "To section" };
const NO_SOURCE = "A jumper makes no source: orders take what is beyond it for dead. What may feed its far end, as a generator, "
  + "needs a source in the sections file, which an update of the register brings; without one, name the jumper in each order "
  + "near it.";

// An input in capitals that keeps what is typed.
function nameInput(part, sections) {
  const input = el("input", { type: "text", size: 14, autocomplete: "off", spellcheck: "false", required: true, "data-name": part, list: sections });
  return drafted(input, draftName(`jumper ${part}`));
}

export class JumperForm {
  #desk; #inputs; #lockable; #remote; #below = el("div"); #ends = el("datalist", { id: "ends" });
  kind = "section";
  node;

  constructor(desk) {
    this.#desk = desk;
    this.#inputs = Object.fromEntries(Object.keys(PARTS).map((part) => [part, nameInput(part, part === "point" ? null : "ends")]));
    for (const input of Object.values(this.#inputs)) input.addEventListener("input", (event) => this.#changed(event));
    this.#lockable = el("input", { type: "checkbox", "data-name": "lockable" });
    this.#remote = el("input", { type: "checkbox", "data-name": "remote" });
    this.node = el("div", {}, this.#form(), this.#below);
    living(this.#below, () => this.#drawJumpers());
    desk.pick(this);
  }

  get picked() { return new Set([this.#name("from"), this.#name("to")].filter(Boolean)); }

  #name(part) { return this.#inputs[part].value.trim().toUpperCase(); }

  // A section that is pressed on the diagram becomes the end that is missing, or no longer is one.
  toggle(name) {
    const end = ["from", "to"].find((part) => this.#name(part) === name), free = ["from", "to"].find((part) => !this.#name(part)) ?? "to";
    const input = this.#inputs[end ?? free];
    input.value = end ? "" : name;
    input.dispatchEvent(new Event("input"));
  }

  // What is typed is shown in the middle; what is pressed on the diagram stays where it is.
  #changed({ isTrusted }) {
    if (isTrusted) this.#desk.diagram.lookAt([...this.picked]);
    this.#desk.redraw();
  }

  #form() {
    const mark = (box, text) => el("label", { class: "radio" }, box, text);
    return form(() => this.#send(), { class: "offer" },
      el("p", { class: "elsewhere" }, NO_SOURCE),
      el("p", {}, "Add a jumper here before it is laid. Press its two ends on the diagram, or name them; the second may be a new section."),
      this.#ends, Object.entries(PARTS).map(([part, text]) => field(text, this.#inputs[part])),
      el("p", {}, mark(this.#lockable, "lockable: it can be blocked open"), mark(this.#remote, "remote: it has a control to switch off")),
      this.#notes(),
      el("button", { class: "main", "data-name": "jumper" }, "Add the jumper"));
  }

  #findings() {
    const [point, from, to] = Object.keys(PARTS).map((part) => this.#name(part));
    return from || to || point ? jumperFindings(this.#desk, { name: point, from, to }) : [];
  }

  #notes() {
    const node = el("div", { class: "picked-notes", role: "status" });
    return living(node, () => {
      const found = this.#findings();
      panel(node, found, () => [findingsList(found)]);
    });
  }

  // The sections to choose from, and the jumpers that there are.
  #drawJumpers() {
    const { network } = this.#desk, jumpers = [...network.points.values()].filter(({ jumper }) => jumper);
    panel(this.#ends, [...network.sections.keys()], () => [...network.sections.keys()].map((value) => el("option", { value })));
    panel(this.#below, jumpers.map(({ name, from, to, position }) => [name, from, to, position]), () => (jumpers.length ? [
      el("h3", {}, "Jumpers of this register"), table(["Jumper", "Between", "Position", "In the field"], jumpers.map((one) => this.#row(one)))] : []));
  }

  #row({ name, from, to, position }) {
    const step = position === "open" ? `CLOSE ${name}` : `OPEN ${name}`, when = position === "open" ? "once it is laid" : "before it is taken off";
    return el("tr", { "data-point": name }, el("th", { scope: "row" }, name), el("td", {}, `${from} – ${to}`), el("td", {}, position),
      el("td", {}, button(`Write a switch order: ${step}`, () => offerStep(step), { "data-name": `write ${step}` }), el("span", { class: "hint" }, ` ${when}`)));
  }

  async #send() {
    const [point, from, to] = Object.keys(PARTS).map((part) => this.#name(part)), { sections } = this.#desk.network;
    const marks = [this.#lockable.checked ? "lockable" : "not lockable", this.#remote.checked ? "remote" : "not remote"].join(", ");
    const isMeant = await agreed(`Add jumper ${point} between ${from} and ${to}?`, [
      `It is ${marks}.${sections.has(to) ? "" : ` ${to} is a new section, and no source.`}`,
      ...this.#findings().map(({ text }) => `${text}.`),
      "No command takes it out of the register again, only an update does; even open it is a way in.",
      "Read its name and both ends twice.",
    ], `Add ${point}`, "Do not add it");
    if (!isMeant) return;
    const { accepted } = await this.#desk.act({ do: "jumper", point, from, to, lockable: this.#lockable.checked, remote: this.#remote.checked });
    if (!accepted) return;
    for (const input of Object.values(this.#inputs)) input.value = "";
    this.#lockable.checked = this.#remote.checked = false; // the next one is another
    learn();
    this.#desk.diagram.lookAt([from, to]);
  }
}
