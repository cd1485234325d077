// The board: every clearance and switch order that is not closed, and the jumpers.

import { presentStep } from "../clearances/offers.js";
import { holdWord, phaseWord, stateWord } from "../replies/words.js";
import { el, panel, table, unbroken } from "../shared/elements.js";
import { liveUnder, untested } from "../shared/live-alarms.js";
import { shortTime, wholeTime } from "../shared/moments.js";
import { room, viewOf } from "../shared/watch.js";
import { ageOf, ageWords, heldWords, isTooLong, outFor } from "./ages.js";
import { BoardChoice } from "./board-choice.js";

const MOST_NAMED = 3;
const HEADS = ["Name", "Phase", "Section", "Steps", "Work", "Holder", "Last moment", "Ago"];

// A holder without a supervisor is marked: in an emergency nobody can take the clearance over.
export function holderCell(holder, work, staff) {
  const alone = work && work !== "-" && !staff.get(holder)?.supervisor;
  return el("span", {}, holder,
    alone ? [" ", el("span", { class: "chip warn", title: "In an emergency nobody can transfer this clearance" }, "no supervisor")] : null);
}

export function stepsWords(view) {
  if (!view) return "";
  const { done, steps } = view.card;
  if (!steps) return "no steps";
  const step = presentStep(view);
  const next = step ? `; ${step.number} ${step.text} ${stateWord(step.state)}` : "";
  return `${done} of ${steps} done${next}`;
}

// A crew that is on under another clearance too.
function twiceWords({ card, crews }) {
  const others = [...room.views.values()].filter((view) => view.card.clearance !== card.clearance);
  return crews.flatMap((crew) => others.filter((view) => view.crews.includes(crew))
    .map((view) => ["bad", `crew ${crew} is on under ${view.card.clearance} too`]));
}

// Alarms, missing tests, tests, grounds and crews of the clearance, each as [class, text].
function workWords(view) {
  if (!view) return [];
  const id = view.card.clearance;
  const own = view.holds.filter((hold) => hold.by === id && (hold.kind === "Tested" || hold.kind === "Ground"));
  const grounded = new Set(own.filter((hold) => hold.kind === "Ground").map((hold) => hold.place));
  const missing = untested(view);
  return [
    ...liveUnder(id).map((section) => ["live", `⚠ ${section} TESTED LIVE`]),
    ...(missing.length ? [["bad", `${missing.slice(0, MOST_NAMED).join(", ")}${missing.length > MOST_NAMED ? ` and ${missing.length - MOST_NAMED} more` : ""} not tested`]] : []),
    ...own.filter((hold) => hold.kind === "Ground" || !grounded.has(hold.place))
      .map(({ kind, place }) => ["", `${place} ${holdWord(kind)}${heldWords(id, kind, place)}`]),
    ...(view.crews.length ? [["", `crews ${view.crews.map((crew) => crew + heldWords(id, "Crew", crew)).join(", ")}`]] : []),
    ...twiceWords(view),
  ];
}

// Its steps and its work on paper, where an empty place says that there is no work.
const paperWords = (view) => (view
  ? [stepsWords(view), workWords(view).map(([, text]) => text).join("; ")] : ["not read", "not read"]);

// Each record in words, as its row on paper.
export function recordRows() {
  return room.board.map((row) => [row.id, row.phase, row.work === "-" ? "switch order" : row.work, ...paperWords(viewOf(row.id)), row.holder, shortTime(row.last)]);
}

// The name of a record; and its holder, where that is not who asked for it.
export function nameCell(id, holder) {
  const other = holder && !id.startsWith(`${holder}/`) ? el("p", { class: "hint" }, `held by ${holder}`) : null;
  return el("th", { scope: "row" }, el("a", { href: `#/clearance/${id}`, "data-name": id }, id), other);
}

function boardRow(row, staff, chosen) {
  const view = viewOf(row.id);
  const hatched = row.id === chosen && view?.fence.length;
  return el("tr", { "data-id": row.id, class: liveUnder(row.id).length ? "live" : null },
    nameCell(row.id, row.holder),
    el("td", {}, el("span", { class: `phase ${row.phase}`, title: phaseWord(row.phase) }, row.phase)),
    el("td", {}, row.work === "-" ? "switch order" : row.work, hatched ? [" ", el("span", { class: "chip" }, "fence hatched")] : null),
    el("td", { class: "steps-so-far" }, unbroken(stepsWords(view)), outChip(outWords(view, row))),
    el("td", {}, workWords(view).map(([kind, text], place) => [place ? "; " : "", el("span", { class: kind || null }, unbroken(text))]).flat()),
    el("td", { "data-head": "holder" }, holderCell(row.holder, row.work, staff)),
    el("td", { class: "moment", "data-head": "last moment", title: wholeTime(row.last) }, shortTime(row.last)),
    el("td", { class: "moment", "data-head": "ago" }, ageWords(ageOf(row))));
}

// How long the present step is out, as [class, text]: marked where that is too long; null where none is out.
function outWords(view, row) {
  const seconds = outFor(view, row);
  return seconds === null ? null : [isTooLong(seconds) ? "chip warn" : "chip", `out ${ageWords(seconds)}`];
}

const outChip = (words) => words && el("p", {}, el("span", { class: words[0] }, words[1]));

function jumperRow({ point, from, to, position }) {
  return el("tr", {}, el("th", { scope: "row" }, el("a", { href: `#/points/${point}` }, point)), [from, to, position].map((text) => el("td", {}, text)));
}

export class BoardPage {
  #desk; #rows = el("div", { class: "sheet" }); #choice = new BoardChoice(() => this.update());
  title = "Board";
  node;

  constructor(desk) {
    this.#desk = desk;
    this.node = el("section", { class: "board" }, el("h2", { tabindex: -1 }, "Board"), this.#choice.node, this.#rows, el("div", { class: "diagram-place" }));
    this.update();
  }

  update() {
    const { staff } = this.#desk.network;
    const chosen = this.#desk.chosen();
    const rows = this.#choice.rows(room.board);
    const views = rows.map((row) => [viewOf(row.id), row]).map(([view, row]) => [view?.card, view?.fence.length, stepsWords(view), workWords(view), ageWords(ageOf(row)), outWords(view, row)]);
    const lines = [...rows, ...room.jumpers].map((row) => row.line), supervisors = rows.map(({ holder }) => staff.get(holder)?.supervisor);
    this.#choice.node.hidden = !room.board.length;
    panel(this.#rows, [room.read === null, lines, views, supervisors, chosen], () => {
      if (room.read === null) return el("p", {}, "The board was not read yet.");
      const jumpers = room.jumpers.length ? table(["Jumper", "From", "To", "Position"], room.jumpers.map(jumperRow)) : null;
      const none = room.board.length ? null : el("p", {}, "Nothing is open: no clearance and no switch order.");
      return [none ?? table(HEADS, rows.map((row) => boardRow(row, staff, chosen)), { class: "wide" }), jumpers];
    });
  }
}
