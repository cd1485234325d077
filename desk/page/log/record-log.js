// The log of one record: who gave, repeated and reported each step, and all else, with the moments.

import { el, panel, table } from "../shared/elements.js";
import { wholeTime } from "../shared/moments.js";
import { lacking } from "./board-lacks.js";
import { hasEarlier, isWhole, journal, newest } from "./journal.js";
import { lackingWords, lateWords, storyOf, whoWords } from "./log-words.js";
import { isBegun, readBackTo } from "./reading-back.js";

// When the machine took it, where that is another moment; and that the board lacks it.
function furtherWords({ entry }) {
  const late = lateWords(entry), lacks = lackingWords(entry);
  return [late ? el("p", { class: "hint" }, late) : null, lacks ? el("p", { class: "bad" }, lacks) : null];
}

function cell(row, head) {
  const words = row && [whoWords(row.entry), el("p", { class: "hint" }, wholeTime(row.at)), furtherWords(row)];
  return el("td", { "data-head": head }, ...(words ?? ["–"]));
}

function stepRow({ round, number, text, given, repeated, reported }) {
  return el("tr", {}, el("td", { class: "number" }, `${round}.${number}`), el("td", { class: "text" }, text ?? "not read"), cell(given, "given by"), cell(repeated, "repeated by"), cell(reported, "done, by"));
}

function otherRow(row) {
  return el("tr", {}, el("td", { class: "moment" }, wholeTime(row.at)), el("td", {}, whoWords(row.entry)), el("td", {}, row.what, furtherWords(row)));
}

// What of the record was not read.
function missingWords(id) {
  if (isWhole() || isBegun(id)) return "";
  return hasEarlier() ? "Its first entries were not read yet. The page Log reads further back." : "Its first entries are in no part of the journal that is served here.";
}

function drawn(id) {
  const { steps, others } = storyOf(id), missing = missingWords(id);
  if (journal.state === "failed") return [el("p", { class: "hint" }, "The journal could not be read.")];
  if (journal.state !== "read") return [];
  return [
    el("h3", {}, "Log"), missing ? el("p", { class: "hint" }, missing) : null,
    others.length ? table(["Moment", "Who", "What"], others.map(otherRow), { class: "log" }) : null,
    steps.length ? table(["No", "Step", "Given by", "Repeated by", "Reported done by"], steps.map(stepRow), { class: "log" }) : null,
    steps.length || others.length ? null : el("p", { class: "hint" }, "The journal has nothing of it."),
  ];
}

// Where this desk has a journal; nothing otherwise.
export class Story {
  #id;
  node = el("div", { class: "story" });

  constructor(id) {
    this.#id = id;
    this.draw();
    newest().then(() => readBackTo([id])).then(() => this.draw());
  }

  draw() {
    panel(this.node, [journal.state, journal.file, journal.begin, journal.end, lacking.entry?.number], () => drawn(this.#id));
  }
}
