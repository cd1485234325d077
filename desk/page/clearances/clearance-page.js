// One clearance or switch order: its card, who may do what next, its steps, its fence, points, holds and crews.

import { holderCell } from "../board/board-page.js";
import { storyOf } from "../log/log-words.js";
import { isBegun } from "../log/reading-back.js";
import { Story } from "../log/record-log.js";
import { OrderEditor } from "../orders/isolating.js";
import { RestoreEditor } from "../orders/restoring.js";
import { holdWord, phaseWord } from "../replies/words.js";
import { mayUse } from "../shared/caller.js";
import { el, button, choice, field, panel, table } from "../shared/elements.js";
import { liveIn } from "../shared/live-alarms.js";
import { shortTime, wholeTime } from "../shared/moments.js";
import { waits } from "../shared/waiting-lists.js";
import { choose, lookAt, viewOf } from "../shared/watch.js";
import { cancelControl, emergencyControl, grantControl, releaseControl, releaseObstacles, transferControl } from "./grant-release.js";
import { instructControl, readingOf } from "./instruct.js";
import { askLastMoment, lastMoment } from "./last-moment.js";
import { isUnderWay, offersOf, presentStep } from "./offers.js";
import { printedOrders } from "./printed-order.js";
import { severalControl, withRow } from "./several-names.js";
import { NOT_KEPT, reasonLines, reasonsOf } from "./reasons.js";
import { amendControl, repeatControl, reportControl, stepsFindings, stepsTable } from "./steps.js";
import { wayBackOf } from "./way-back.js";
import { crewsOn, sectionState, workControl } from "./work.js";

const CONTROLS = {
  order: (context) => new OrderEditor(context.view, context).node,
  restore: (context) => new RestoreEditor(context.view, context).node,
  several: severalControl, instruct: instructControl, repeat: repeatControl, report: reportControl, amend: amendControl, grant: grantControl,
  work: workControl, release: releaseControl, cancel: cancelControl, transfer: transferControl, emergency: emergencyControl,
};

// What a control shows of the view: it is made again only where that has changed, so that nothing typed is lost.
const SHOWN = {
  order: () => [],
  restore: (view) => view.holds.filter((hold) => hold.by === view.card.clearance),
  work: (view) => [view.fence, view.holds, crewsOn(view), liveIn(view.fence)],
  release: (view) => [view.card, releaseObstacles(view)],
  transfer: (view) => [view.card.holder, crewsOn(view)],
  emergency: (view) => [view.card.holder, crewsOn(view)],
  cancel: (view) => view.card.phase,
};

const MOST_BUTTONS = 4;

// Names that this login may use.
function asControl(all, desk) {
  const names = all.filter(mayUse);
  if (names.length <= MOST_BUTTONS) {
    return names.map((name) => button(`Speak as ${name}`, () => desk.speakAs(name), { class: "quiet", "data-name": `as ${name}` }));
  }
  const pick = choice([["", "choose"], ...names.map((name) => [name, name])], { "data-name": "as" });
  return [field("Speak as", pick), button("Speak", () => pick.value && desk.speakAs(pick.value), { class: "quiet", "data-name": "speak" })];
}

// What others may do, one line for the same names.
function othersList(offers, desk) {
  const lines = new Map();
  for (const { says, names } of offers) {
    const key = names.join(" ");
    lines.set(key, { names, says: [...(lines.get(key)?.says ?? []), says] });
  }
  return el("ul", { class: "others" }, [...lines.values()].map(({ names, says }) => el("li", {},
    el("span", {}, el("strong", {}, names.length > MOST_BUTTONS ? `${names.length} names` : names.join(" or ") || "nobody"), `: ${says.join("; ")} `),
    el("span", { class: "answers" }, asControl(names, desk)))));
}

function pointRow(row, view) {
  const holds = view.holds.filter((hold) => hold.place === row.point && !["Tested", "Ground"].includes(hold.kind));
  const owners = [...new Set(holds.map((hold) => hold.by))];
  return el("tr", {}, el("th", { scope: "row" }, el("a", { href: `#/points/${row.point}` }, row.point)),
    el("td", {}, row.position), el("td", { class: row.hand ? null : "none", "data-head": "in hand of" }, row.hand ?? "–"),
    el("td", { class: owners.length ? null : "none" }, owners.length ? owners.map((owner) => el("p", {}, `${owner}: `,
      holds.filter((hold) => hold.by === owner).map((hold) => holdWord(hold.kind)).join(", "))) : "–"));
}

function sectionRow(name, view) {
  const holds = view.holds.filter((hold) => hold.place === name && ["Tested", "Ground"].includes(hold.kind) && hold.by !== view.card.clearance);
  return el("tr", {}, el("th", { scope: "row" }, name, name === view.work ? [" ", el("span", { class: "chip" }, "work section")] : null),
    el("td", {}, view.card.phase === "Granted" ? el("p", {}, sectionState(view, name)) : null,
      holds.map((hold) => el("p", {}, `${holdWord(hold.kind)} by ${hold.by}`)), view.card.phase !== "Granted" && !holds.length ? "–" : null));
}

function facts(view) {
  const parts = [];
  if (view.fence.length) {
    parts.push(el("h3", {}, `Points at the fence`), table(["Point", "Position", "In hand of", "Holds"], view.points.map((row) => pointRow(row, view))));
    parts.push(el("h3", {}, "Fence"), table(["Section", "Tests and grounds"], view.fence.map((name) => sectionRow(name, view))));
  }
  if (view.crews.length) parts.push(el("h3", {}, "Crews on"), el("p", {}, crewsOn(view).join(", ")));
  const reasons = reasonLines(view.card.clearance);
  if (reasons.length) parts.push(el("h3", {}, "In an emergency"), reasons, el("p", { class: "hint" }, NOT_KEPT));
  const { clearance, round } = view.card;
  if (round) parts.push(el("h3", {}, "On paper"), printedOrders(clearance, round === 2 ? [1, 2] : [1]));
  return parts;
}

function momentCell(id) {
  const last = lastMoment(id);
  return last === null ? "not known here" : el("span", { title: wholeTime(last) }, shortTime(last));
}

// An archive takes the steps of what is over. A record that never had an order has none either: only the log knows.
function stepsWords({ clearance, phase, done, steps, round }) {
  if (steps) return `${done} of ${steps} done, round ${round}`;
  if (phase !== "Closed") return "none";
  if (storyOf(clearance).steps.length) return "archived: the log below has them";
  return isBegun(clearance) ? "none" : "none, or archived";
}

function card(view, staff) {
  const { clearance, phase, holder } = view.card;
  const fact = (name, ...value) => el("div", {}, el("dt", {}, name), el("dd", {}, ...value));
  return el("dl", { class: "card" },
    fact("Phase", el("span", { class: `phase ${phase}` }, phase), el("span", { class: "words" }, ` ${phaseWord(phase)}`)),
    fact(view.work ? "Work section" : "Kind", view.work ?? "switch order"),
    fact("Holder", holderCell(holder, view.work, staff)),
    fact("Steps", stepsWords(view.card)),
    fact("Last moment", momentCell(clearance)),
    fact("Crews", crewsOn(view).join(", ") || "none"));
}

// What one who may do nothing here waits for.
function idleWords(view, caller) {
  const awaited = { Instructed: "the repeat", Repeated: "the report" }[presentStep(view)?.state];
  if (!caller) return "Say who you are, above.";
  return awaited ? `${caller} waits for ${awaited}.` : `${caller} has nothing to do here now.`;
}

export class ClearancePage {
  #desk; #id; #made = new Map(); #missing = false; #known = false; #tall = 0;
  #card = el("div", { class: "card-place" }); #reading = el("div"); #next = el("div", { class: "next-body" }); #others = el("div"); #steps = el("div", { class: "steps-place" }); #facts = el("div", { class: "facts-place" }); #way = el("div", { class: "way-place" }); #story;
  #heading = el("h3", { tabindex: -1, id: "next" }, "Next"); #holder = el("span", { class: "held-by" });
  title;
  node;

  constructor(desk, id) {
    this.#desk = desk;
    this.#id = id;
    this.title = id;
    choose(id);
    this.#story = new Story(id);
    this.node = el("section", { class: "clearance", "data-id": id },
      el("h2", { tabindex: -1 }, id, this.#holder), this.#card,
      el("div", { class: "columns" },
        el("div", {}, el("div", { class: "next" }, this.#heading, this.#reading, this.#next, this.#others), this.#steps),
        el("div", {}, el("div", { class: "diagram-place small" }), this.#facts, this.#way)), this.#story.node);
    this.update();
    if (!viewOf(id)) lookAt(id).then((answer) => this.#noteMissing(answer));
  }

  #noteMissing(answer) {
    this.#missing = answer?.body?.refusal === "UNKNOWN_CLEARANCE"; // a 503, or a name that may not ask, says nothing of it
    this.update();
  }

  leave() { this.#desk.pick(null); }

  update() {
    const view = viewOf(this.#id);
    if (!view) {
      this.#drawNone();
      return;
    }
    this.#known = true;
    askLastMoment(view, () => this.update());
    const { staff } = this.#desk.network, { holder } = view.card;
    this.#holder.textContent = this.#id.startsWith(`${holder}/`) ? "" : ` held by ${holder}`;
    const shown = [view.card, view.work, crewsOn(view), stepsWords(view.card), lastMoment(this.#id), staff.get(holder)?.supervisor];
    panel(this.#card, shown, () => card(view, staff));
    this.#drawNext(view);
    const found = stepsFindings(view, this.#desk);
    panel(this.#steps, [view.steps, found, isUnderWay(view)], () => (view.steps.length ? [el("h3", {}, `Steps of round ${view.card.round}`), stepsTable(view, found)] : []));
    panel(this.#way, view.card.phase === "Closed", () => (view.card.phase === "Closed" ? [] : [wayBackOf(this.#id)]));
    this.#story.draw();
    const known = [view.points, view.holds, view.fence, crewsOn(view), view.card, liveIn(view.fence), reasonsOf(this.#id)];
    panel(this.#facts, known, () => facts(view).flat());
  }

  // Without a view nothing of an older one is left.
  #drawNone() {
    const text = this.#missing || this.#known ? "The register has no clearance or switch order of this name."
      : this.#desk.caller ? "Asking the register…" : "Say who you are, above: the register shows clearances to a name of the staff.";
    panel(this.#card, text, () => el("p", {}, text));
    if (!this.#known) return;
    if (this.#made.size) this.#desk.pick(null);
    this.#made = new Map();
    this.#reading.replaceChildren();
    for (const place of [this.#next, this.#others, this.#steps, this.#facts, this.#way]) panel(place, "none", () => []);
  }

  #drawNext(view) {
    const caller = this.#desk.caller?.name;
    const offers = withRow(offersOf(view, this.#desk.network.staff), view, caller);
    const mine = offers.filter((offer) => caller && offer.names.includes(caller));
    const others = offers.filter((offer) => !mine.includes(offer));
    const keys = mine.map(({ does }) => [does, (SHOWN[does] ?? ((seen) => [seen.card, seen.steps]))(view), caller]);
    if (!this.#drawReading(view)) return;
    panel(this.#next, [keys, offers.length, caller], () => this.#controls(mine, keys, view, offers.length));
    panel(this.#others, [others, caller], () => (others.length ? [el("h4", {}, caller ? "Others may" : "Who may"), othersList(others, this.#desk)] : []));
  }

  // Whether it was drawn. That another desk gave the step out comes above the controls, and so waits as a list does.
  #drawReading(view) {
    const reading = readingOf(view, () => this.#drawNext(view));
    if (reading?.textContent === this.#reading.firstChild?.textContent) return true;
    const isElsewhere = !this.#reading.firstChild && reading?.matches("p.elsewhere");
    if (isElsewhere && waits(this.#reading.parentNode, () => this.#drawNext(viewOf(this.#id)))) return false;
    this.#reading.replaceChildren(...[reading].filter(Boolean));
    return true;
  }

  #controls(mine, keys, view, any) {
    const made = new Map();
    if (!mine.some(({ does }) => does === "order")) this.#desk.pick(null);
    const nodes = mine.map(({ does }, place) => {
      const key = JSON.stringify(keys[place]);
      const node = this.#made.get(key) ?? CONTROLS[does](this.#context(view));
      node.dataset.does = does;
      made.set(key, node);
      return node;
    });
    this.#made = made;
    this.#keepPlace(nodes);
    if (nodes.length) return nodes;
    return el("p", {}, any ? idleWords(view, this.#desk.caller?.name) : "It is over; its record stays.");
  }

  // Where the controls of a step were, there is room left when no step is: a grant comes below it.
  #keepPlace(nodes) {
    this.#tall = Math.max(this.#next.querySelector(".step-place")?.offsetHeight ?? 0, this.#tall);
    const left = nodes.map((node) => node.querySelector("p.step-place")).find(Boolean);
    if (left && this.#tall) left.style.minHeight = `${this.#tall}px`;
  }

  #context(view) {
    const { network, caller, pick, redraw, states } = this.#desk;
    return { view, network, staff: network.staff, caller, pick, redraw, states, desk: this.#desk, act: (parts) => this.#act(parts, view) };
  }

  // After a command that was accepted the heading has the focus, so that a key pressed twice gives no second one; or, in
  // the row of a desk that speaks for several, what is next there.
  async #act(parts, view) {
    const result = await this.#desk.act(parts, view);
    if (result.accepted) (this.#next.querySelector("[data-goes]") ?? this.#heading).focus();
    return result;
  }

  focusNext() { this.#heading.focus(); }
}
