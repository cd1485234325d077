// Asking for a clearance on a section.

import { drafted, draftName, keepDraft } from "../shared/drafts.js";
import { el, field, form, panel } from "../shared/elements.js";
import { findingsList, living, mayGo } from "./findings-shown.js";
import { GONE } from "./findings.js";

const DRAFT = draftName("request");

export class RequestForm {
  #desk; #input; #names = el("datalist", { id: "sections" }); #notes = el("div", { class: "picked-notes", role: "status" });
  kind = "section";
  picked = new Set();
  node;

  constructor(desk) {
    this.#desk = desk;
    this.#input = drafted(el("input", { type: "text", list: "sections", size: 24, autocomplete: "off", "data-name": "section" }), DRAFT);
    if (this.#input.value) this.picked = new Set([this.#name()]);
    this.#input.addEventListener("input", () => this.#show());
    this.node = form(() => this.#send(), { class: "offer" },
      el("p", {}, "Name the section to be worked on, or press it on the diagram. You become the holder."),
      this.#names, field("Section", this.#input), living(this.#notes, () => this.#draw()),
      el("button", { class: "main", "data-name": "request" }, "Ask for the clearance"));
    desk.pick(this);
  }

  #name() { return this.#input.value.trim().toUpperCase(); }

  #findings() {
    return this.#name() && !this.#desk.network.sections.has(this.#name()) ? [{ text: GONE, asks: true }] : [];
  }

  // The sections to choose from, and whether an update has taken out the one that is written.
  #draw() {
    const names = [...this.#desk.network.sections.keys()];
    panel(this.#names, names, () => names.map((value) => el("option", { value })));
    panel(this.#notes, this.#findings(), () => [findingsList(this.#findings())]);
  }

  #show() {
    this.picked = new Set([this.#name()]);
    this.#draw();
    this.#desk.redraw();
  }

  toggle(name) {
    this.#input.value = name;
    keepDraft(DRAFT, name);
    this.#show();
  }

  async #send() {
    const section = this.#name(), found = [{ text: section, found: this.#findings() }];
    if (!(await mayGo("Before the clearance is asked for", found, "Ask for the clearance"))) return;
    const { accepted, id } = await this.#desk.act({ do: "request", section });
    if (accepted) location.hash = `#/clearance/${id}`;
  }
}
