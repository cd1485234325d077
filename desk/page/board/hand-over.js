// Handing a shift over: who leaves, who comes, what is open, and how far the journal has come, to be printed and signed by both.

import { holdMarks } from "../diagram/mark-words.js";
import { journal, newest } from "../log/journal.js";
import { sectionWords } from "../orders/findings.js";
import { formOf } from "../shared/drafts.js";
import { el, panel, table, unbroken } from "../shared/elements.js";
import { alarms } from "../shared/live-alarms.js";
import { shortTime, wholeTime } from "../shared/moments.js";
import { namesOfRole, network } from "../shared/network.js";
import { isOffNormal, knowsNormal } from "../shared/point-states.js";
import { agreed } from "../shared/question.js";
import { room } from "../shared/watch.js";
import { heldWords } from "./ages.js";
import { recordRows } from "./board-page.js";

const HEADS = ["Name", "Phase", "Section", "Steps", "Work", "Holder", "Last moment"];
const LINE = "______________________";
const CHECKED = "Both have gone through the records above, point by point and crew by crew.";

const list = (title, rows) => [el("h3", {}, title),
  rows.length ? el("ul", {}, rows.map((row) => el("li", {}, unbroken(row)))) : el("p", {}, "None.")];

// A point with the letters of its holds, by owner, and how long the first of each is there.
function pointWords(state) {
  const { point, position, holds } = state, normally = isOffNormal(state) ? `, normally ${point.normal}` : "";
  const marks = holdMarks(state).map((mark) => {
    const first = holds.find(({ by }) => by === mark.split(" ")[0]);
    return first ? `; held by ${mark}${heldWords(first.by, first.kind, point.name)}` : `; in ${mark}`;
  });
  return `${point.name}, ${position}${normally}${marks.join("")}`;
}

// Who signs these, and compares them with the sheet before, keeps the lines up to there from being written again unseen.
function journalRows(before) {
  const { state, last, entries } = journal, sum = (text) => el("span", { class: "sum" }, text);
  if (state !== "read" || !last?.sum) return [];
  const entry = entries.find(({ number }) => String(number) === before);
  return [el("p", {}, `The journal has come to number ${last.number}, with the sum `, sum(last.sum), "."),
    entry ? el("p", {}, `Compare with the sheet before: number ${before} now has the sum `, sum(entry.sum), ", and had it there.")
      : el("p", {}, `Compare with the sheet before: ${before ? `number ${before} was not read in the log` : "its number was not given"}.`)];
}

// On a phone, where there are no heads, the holder and the last moment have theirs.
function recordRow(row) {
  return el("tr", {}, row.map((text, place) => el("td", { "data-head": place > 4 ? HEADS[place].toLowerCase() : null }, text)));
}

export class ShiftPage {
  #desk; #form; #sheet = el("div", { class: "paper shift" });
  title = "Hand over";
  node;

  constructor(desk) {
    const names = ["operator", "charge"].flatMap((role) => namesOfRole(network.staff, role));
    this.#desk = desk;
    this.#form = formOf("shift", () => this.update(), { leaves: names, comes: names });
    this.#form["print-shift"].addEventListener("click", () => this.#print());
    this.node = el("section", { class: "shift-page" },
      el("h2", { tabindex: -1 }, "Hand over a shift"), this.#form.form, this.#sheet);
    this.update();
  }

  async #print() {
    const { leaves: { value: leaves }, comes: { value: comes } } = this.#form, isWhole = leaves && comes && leaves !== comes;
    const lines = ["Who leaves and who comes are not both chosen, or are one: the sheet has lines for the names."];
    if (isWhole || await agreed("Print it without the names?", lines, "Print it all the same", "Do not print it")) window.print();
  }

  update() {
    this.#draw();
    newest().then(() => this.#draw());
  }

  #draw() {
    const [leaves, comes, before, notes] = ["leaves", "comes", "before", "notes"].map((part) => this.#form[part].value.trim());
    const states = [...this.#desk.states().values()];
    const moved = states.filter((state) => isOffNormal(state) || state.holds.length || state.hand).map(pointWords);
    const jumpers = states.filter(({ point }) => point.jumper).map(({ point, position }) => `${point.name}, ${point.from} – ${point.to}, ${position}`);
    const dead = [...network.sections.values()].filter(({ live }) => !live).map(({ name }) => name);
    const alarmed = alarms().map(({ id, section }) => `${section} under ${id}`), records = recordRows();
    panel(this.#sheet, [leaves, comes, before, notes, moved, jumpers, dead, alarmed, records, room.read, journal.last?.sum], () => [
      el("h2", {}, "Hand-over of a shift"),
      el("p", {}, `Leaves: ${leaves || LINE}. Comes: ${comes || LINE}. The board of ${wholeTime(room.read)}; the network of ${shortTime(room.network)}.`),
      alarmed.length ? list("TESTED LIVE", alarmed) : null,
      el("h3", {}, `Open: ${room.board.length} ${room.board.length === 1 ? "record" : "records"}`),
      this.#desk.caller ? null : el("p", {}, "No name is chosen: steps, work and crews are not read."),
      records.length ? table(HEADS, records.map(recordRow)) : el("p", {}, "None."),
      list(knowsNormal() ? "Points held, in hand, or not normal" : "Points held or in hand", moved),
      el("p", { class: "hint" }, "O held open, B blocked, C control off, T tagged; in brackets for how long."), list("Jumpers", jumpers),
      list("Dead by the register's positions", dead.length ? [sectionWords(dead, dead.length)] : []),
      notes ? [el("h3", {}, "Further"), el("p", { class: "notes" }, notes)] : null,
      journalRows(before), el("p", {}, CHECKED),
      el("p", { class: "signed" }, `${leaves || "Leaves"}: ${LINE}   ${comes || "Comes"}: ${LINE}`),
    ].flat(2).filter(Boolean));
  }
}
