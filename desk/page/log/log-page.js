// The log of the whole register: searched, and printed as it is shown.

import { el, panel, table } from "../shared/elements.js";
import { wholeTime } from "../shared/moments.js";
import { isLackedByBoard } from "./board-lacks.js";
import { earlier, hasEarlier, isWhole, journal, newest } from "./journal.js";
import { LogSearch } from "./log-search.js";
import { lateWords, logRows, replyWords, whoWords } from "./log-words.js";
import { readBackTo } from "./reading-back.js";

const MOST_LISTED = 500;
const RECORD = /^[A-Z0-9-]+\/\d+$/;

const STATES = {
  new: "The journal is being read…",
  none: "This desk shows no log: the register keeps no journal, or the proxy does not serve it.",
  failed: "The journal could not be read: the proxy may not read it, or does not answer.",
};

function logRow(row) {
  const { entry, id } = row, late = lateWords(entry);
  return el("tr", { class: isLackedByBoard(entry) ? "lacking" : row.done ? null : "undone", "data-number": entry.number }, el("td", { class: "number" }, String(entry.number)),
    el("td", { class: "moment" }, wholeTime(row.at), late ? el("p", { class: "hint" }, late) : null),
    el("td", {}, id ? el("a", { href: `#/clearance/${id}` }, id) : "–"), el("td", {}, whoWords(entry)),
    el("td", {}, row.what), el("td", {}, replyWords(entry)));
}

export class LogPage {
  #search = new LogSearch(() => this.update()); #count = el("p", { class: "hint", role: "status" }); #rows = el("div", { class: "sheet" });
  title = "Log";
  node;

  constructor() {
    const { form, earlier: more, "print-log": print } = this.#search.form;
    more.addEventListener("click", () => this.#read(earlier));
    print.addEventListener("click", () => window.print());
    this.node = el("section", { class: "log-page" }, el("h2", { tabindex: -1 }, "Log"), form, this.#count, this.#rows);
    this.update();
  }

  // As much as is listed is read; a record that is named whole is read back to its beginning.
  #fill() {
    const id = this.#search.said("clearance");
    return newest().then(() => readBackTo(RECORD.test(id) ? [id] : [], MOST_LISTED));
  }

  async #read(read) {
    await read();
    this.#draw();
  }

  update() {
    this.#draw();
    this.#read(() => this.#fill());
  }

  // How far back the journal was read.
  #reachWords() {
    if (isWhole()) return "The whole journal was read.";
    if (hasEarlier()) return "Earlier entries of the journal were not read yet.";
    return `The entries before number ${journal.entries[0]?.number} are in no part of the journal that is served here.`;
  }

  #draw() {
    this.#search.form.earlier.hidden = !hasEarlier();
    if (journal.state !== "read") {
      panel(this.#rows, journal.state, () => [el("p", {}, STATES[journal.state])]);
      return;
    }
    const found = logRows().filter((row) => this.#search.fits(row)).reverse(), shown = found.slice(0, MOST_LISTED);
    this.#count.textContent = `${shown.length} of ${found.length} entries found, the newest first. ${this.#reachWords()}`;
    panel(this.#rows, [shown.map(({ entry }) => [entry.number, replyWords(entry)]), journal.begin, journal.file], () =>
      table(["No", "Moment", "Clearance", "Who", "What", "Reply"], shown.map(logRow), { class: "wide log" }));
  }
}
