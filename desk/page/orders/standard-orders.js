// Standard orders: kept by name in this browser, exported and imported as a file. One is taken into the form, where it is
// looked at and changed, and never sent from here.

import { el, button, choice, field, panel } from "../shared/elements.js";
import { agreed } from "../shared/question.js";
import { keepIn, readKept } from "../shared/storage.js";

const KEPT = "gridclear-standard", FILE = "standard-orders.json";

const isTexts = (list) => Array.isArray(list) && list.every((one) => typeof one === "string");
const isOrder = (one) => one && ["switch", "order"].includes(one.kind) && isTexts(one.steps) && isTexts(one.points) && typeof one.work === "string";

const allKept = () => readKept("localStorage", KEPT) ?? {};

const keepAll = (orders) => { keepIn("localStorage", KEPT, orders); };

// The orders of a file, { name: order }; null where it is another file.
function ordersIn(text) {
  try {
    const found = JSON.parse(text);
    return Object.values(found).every(isOrder) ? found : null;
  } catch {
    return null;
  }
}

function saveFile() {
  const address = URL.createObjectURL(new Blob([JSON.stringify(allKept(), null, 2)], { type: "application/json" }));
  el("a", { href: address, download: FILE }).click();
  setTimeout(() => URL.revokeObjectURL(address), 1000);
}

// Below a form of this kind, at this work section ("" for a switch order): `current()` is { points, steps } as written now,
// `take(order)` puts one into the form.
export class StandardOrders {
  #kind; #work; #current; #take; #pick; #name; #body = el("div"); #said = el("span", { class: "hint", role: "status" });
  node;

  constructor(kind, work, current, take) {
    this.node = el("details", { class: "standard" }, el("summary", {}, "Standard orders"), this.#body, this.#said);
    this.#kind = kind;
    this.#work = work;
    this.#current = current;
    this.#take = take;
    this.#draw();
  }

  #names() {
    return Object.entries(allKept()).filter(([, one]) => one.kind === this.#kind && one.work === this.#work).map(([name]) => name).sort();
  }

  #draw() {
    const names = this.#names();
    panel(this.#body, names, () => {
      this.#pick = choice([["", names.length ? "choose" : "none kept"], ...names.map((name) => [name, name])], { "data-name": "standard" });
      this.#name = el("input", { type: "text", size: 18, autocomplete: "off", "data-name": "standard-name" });
      const file = el("input", { type: "file", accept: "application/json,.json", "data-name": "import", onchange: () => this.#import(file) });
      return [
        el("div", { class: "line" }, field("Kept in this browser", this.#pick), button("Take it into the form", () => this.#taken(), { "data-name": "take" }), button("Forget it", () => this.#forget(), { "data-name": "forget" })),
        el("div", { class: "line" }, field("Keep what is written now, as", this.#name), button("Keep it", () => this.#keep(), { "data-name": "keep" })),
        el("div", { class: "line" }, button("Export all as a file", saveFile, { "data-name": "export" }), field("Import a file", file)),
      ];
    });
  }

  #taken() {
    const order = allKept()[this.#pick.value];
    if (!order) return;
    this.#take(order);
    this.#said.textContent = `${this.#pick.value} is in the form. Look at each step before it is given.`;
  }

  #keep() {
    const name = this.#name.value.trim(), { points, steps } = this.#current();
    const isWritten = name && steps.length > 0;
    if (isWritten) keepAll({ ...allKept(), [name]: { kind: this.#kind, work: this.#work, points, steps } });
    this.#draw();
    this.#said.textContent = isWritten ? `${name} is kept in this browser.` : steps.length ? "Give it a name." : "Nothing is written yet.";
  }

  async #forget() {
    const name = this.#pick.value, { [name]: gone, ...rest } = allKept();
    if (!gone || !(await agreed(`Forget ${name}?`, [`${gone.steps.length} steps: ${gone.steps.join(", ")}.`], "Forget it", "Keep it"))) return;
    keepAll(rest);
    this.#draw();
  }

  async #import(file) {
    const found = ordersIn((await file.files[0]?.text()) ?? "");
    if (found) keepAll({ ...allKept(), ...found });
    this.#draw();
    this.#said.textContent = found ? `${Object.keys(found).length} standard orders were imported.` : "That file has no standard orders; nothing was imported.";
  }
}
