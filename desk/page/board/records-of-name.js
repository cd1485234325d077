// What waits for one name: what it may do now, over all records on the board. Then its clearances and switch orders, closed
// ones too: each by its number, through what the register shows. Whether something is accepted, the register alone says.

import { askLastMoment, lastMoment } from "../clearances/last-moment.js";
import { offersOf } from "../clearances/offers.js";
import { el, button, choice, field, panel, table, unbroken } from "../shared/elements.js";
import { shortTime } from "../shared/moments.js";
import { boardLine, recordsOf, room } from "../shared/watch.js";
import { ageOf, ageWords, isTooLong, outFor } from "./ages.js";
import { nameCell, stepsWords } from "./board-page.js";

const ASIDE = new Set(["cancel", "transfer", "emergency", "amend"]); // what nobody waits for

// Each record at which this name may do something that the work waits for, the oldest first:
// { id, section, does: [text], also: [text], line, out }.
function waitingFor(name, staff) {
  return [...room.views].flatMap(([id, view]) => {
    const offers = offersOf(view, staff).filter(({ names }) => names.includes(name)), line = boardLine(id);
    const does = offers.filter((offer) => !ASIDE.has(offer.does)).map(({ says }) => says);
    const also = offers.filter((offer) => ASIDE.has(offer.does)).map(({ says }) => says);
    return does.length ? [{ id, section: view.work ?? "switch order", does, also, line, out: outFor(view, line) }] : [];
  }).sort((a, b) => (a.line?.last ?? 0) - (b.line?.last ?? 0));
}

function waitingRow({ id, section, does, also, line, out }) {
  return el("tr", { "data-id": id }, nameCell(id, line?.holder), el("td", {}, section),
    el("td", {}, unbroken(does.join("; ")), also.length ? el("p", { class: "hint" }, `also: ${also.join("; ")}`) : null),
    el("td", {}, out === null ? null : el("span", { class: isTooLong(out) ? "chip warn" : "chip" }, `out ${ageWords(out)}`)),
    el("td", { "data-head": "ago" }, line ? ageWords(ageOf(line)) : "–"));
}

// The list as it is drawn, and what it is drawn from.
function waitingList(name, staff) {
  const found = waitingFor(name, staff), unread = room.board.filter(({ id }) => !room.views.has(id)).length;
  const key = found.map(({ id, does, also, line, out }) => [id, does, also, line ? ageWords(ageOf(line)) : "", out === null ? null : [ageWords(out), isTooLong(out)]]);
  const draw = () => el("div", { class: "waiting" }, el("h3", {}, `Waits for ${name}`),
    found.length ? table(["Name", "Section", "What may be done now", "Step", "Ago"], found.map(waitingRow), { class: "wide" }) : el("p", {}, `Nothing waits for ${name}.`),
    unread ? el("p", { class: "hint" }, `${unread} records of the board are not read yet.`) : null);
  return { key: [name, key, unread], draw };
}

const byNumber = (a, b) => Number(b.card.clearance.split("/")[1]) - Number(a.card.clearance.split("/")[1]);

function row(view) {
  const { clearance, phase, holder } = view.card, last = lastMoment(clearance);
  return el("tr", { "data-id": clearance }, nameCell(clearance, holder),
    el("td", {}, el("span", { class: `phase ${phase}` }, phase)), el("td", {}, view.work ?? "switch order"),
    el("td", {}, stepsWords(view)), el("td", { "data-head": "holder" }, holder), el("td", { "data-head": "last moment" }, last === null ? "–" : shortTime(last)));
}

export class MinePage {
  #desk; #whose; #rows = el("div", { class: "sheet" });
  title = "My clearances";
  node;

  constructor(desk) {
    this.#desk = desk;
    const names = [...desk.network.staff.keys()];
    const own = names.includes(desk.caller?.name) ? desk.caller.name : "";
    this.#whose = choice([["", "choose"], ...names.map((name) => [name, name])], { "data-name": "whose", onchange: () => this.#ask() }, own);
    this.node = el("section", {}, el("h2", { tabindex: -1 }, "My clearances"),
      el("div", { class: "line" }, field("Whose", this.#whose), button("Ask again", () => this.#ask())), this.#rows);
    this.#ask();
  }

  async #ask() {
    const name = this.#whose.value;
    if (name && this.#desk.caller) await recordsOf(name);
    this.update();
  }

  update() {
    const name = this.#whose.value;
    const views = [...room.views.values(), ...room.closed.values()];
    const own = views.filter((view) => view.card.clearance.startsWith(`${name}/`)).sort(byNumber);
    const held = views.filter((view) => view.card.holder === name && !own.includes(view));
    for (const view of own) if (lastMoment(view.card.clearance) === null) askLastMoment(view, () => this.update());
    const waiting = waitingList(name, this.#desk.network.staff);
    panel(this.#rows, [waiting.key, own, held, own.map((view) => lastMoment(view.card.clearance)), Boolean(this.#desk.caller)], () => {
      if (!this.#desk.caller) return el("p", {}, "Say who you are, above.");
      return name ? [waiting.draw(), el("h3", {}, `Asked for, or held, by ${name}`), this.#records(name, own, held)] : el("p", {}, "Choose a name.");
    });
  }

  #records(name, own, held) {
    if (!own.length && !held.length) return el("p", {}, `${name} has no clearance and no switch order.`);
    return table(["Name", "Phase", "Section", "Steps", "Holder", "Last moment"], [...own, ...held].map(row), { class: "wide" });
  }
}
