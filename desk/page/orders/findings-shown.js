// Findings on the page: under a picked point, under the steps of an order, and in the question before something is sent.

import { el, panel, unbroken } from "../shared/elements.js";
import { ask } from "../shared/question.js";
import { findingsAt, findingsOfSteps, sectionWords, turnedBySteps } from "./findings.js";

const MOST_ASKED = 10;
const OWN = "This is the page's own reckoning, by what the register last answered. The register decides.";

// A text, and where it leaves names out, the one with all of them on demand.
export function unfolding(text, all = text) {
  if (all === text) return unbroken(text);
  return el("details", { class: "more" }, el("summary", {}, unbroken(text)), el("p", {}, unbroken(all)));
}

// A list of findings; nothing where there are none.
export function findingsList(found) {
  if (!found.length) return null;
  const mark = (asks, text) => text && `${asks ? "⚠ " : ""}${text}`;
  return el("ul", { class: "findings" }, found.map(({ text, asked, asks }) =>
    el("li", { class: asks ? "asks" : null }, unfolding(mark(asks, text), mark(asks, asked)))));
}

// A part of the page that is looked at again whenever the page learns something.
export function living(node, look) {
  node.dataset.living = "yes";
  node.addEventListener("learn", look);
  look();
  return node;
}

// Findings that are kept up to date.
export function livingFindings(find) {
  const node = el("div");
  return living(node, () => {
    const list = findingsList(find());
    if (list?.textContent !== node.firstChild?.textContent) node.replaceChildren(...[list].filter(Boolean));
  });
}

export function learn() {
  for (const node of document.querySelectorAll("[data-living]")) node.dispatchEvent(new Event("learn"));
}

// The points that are picked, each with what is in the way of this action there; null where none is chosen yet.
export function pickedNotes(desk, picked, { own = null, action = null, more = () => [] } = {}) {
  const node = el("div", { class: "picked-notes" });
  return living(node, () => {
    const known = desk.states();
    const at = (name) => findingsAt(desk, name, { own, action, known }).filter(({ turns }) => !turns);
    const rows = [...picked()].map((name) => [name, [...more(name), ...at(name)]]).filter(([, found]) => found.length);
    panel(node, rows, () => (rows.length ? [el("p", { class: "head" }, "In the way, by this page's reckoning"),
      el("ul", { class: "ways" }, rows.map(([name, found]) => el("li", { "data-at": name }, el("strong", {}, name), findingsList(found))))] : []));
  });
}

// The steps of an order that is being written, each with what is to be asked about, and with the loop that it closes.
export function orderNotes(desk, steps, own) {
  const node = el("div", { class: "order-notes", role: "status" });
  return living(node, () => {
    const rows = findingsOfSteps(desk, steps(), own).map(({ text, found }) => [text, found.filter(({ asks, loops }) => asks || loops)]).filter(([, found]) => found.length);
    panel(node, rows, () => (rows.length ? el("ul", { class: "ways" },
      rows.map(([text, found]) => el("li", {}, el("span", { class: "text" }, text), findingsList(found)))) : []));
  });
}

// What the steps of an order that is being written make live and dead, once all are done.
export function turnNotes(desk, steps) {
  const node = el("div", { class: "turn-notes", role: "status" });
  return living(node, () => {
    const { live, dead } = turnedBySteps(desk, steps());
    const said = (word, names, most) => `${word} will be ${sectionWords(names, most)}`;
    const turned = [["live", live], ["dead", dead]].filter(([, names]) => names.length);
    panel(node, [turned, steps().length > 0], () => (steps().length ? [
      el("p", {}, `Once all these steps are done, by this page's reckoning${turned.length ? ":" : ", no section turns live or dead."}`),
      ...turned.map(([word, names]) => el("div", {}, unfolding(said(word, names), said(word, names, names.length)))),
    ] : []));
  });
}

// A line for each finding that asks; at a point the same is said once, for its first step.
function askedLines(found) {
  const lines = new Map();
  for (const { text, found: own } of found) {
    for (const one of own.filter(({ asks }) => asks)) {
      const key = `${text.split(" ")[1]} ${one.text}`;
      if (!lines.has(key)) lines.set(key, `${text}: ${one.asked ?? one.text}.`);
    }
  }
  return [...lines.values()];
}

// Whether it may be sent: asked only where a finding asks. `found` has { text, found } for each step.
export async function mayGo(title, found, send) {
  const lines = askedLines(found);
  if (!lines.length) return true;
  const more = lines.length > MOST_ASKED ? [`And ${lines.length - MOST_ASKED} more, which the form shows.`] : [];
  const answer = await ask(title, [...lines.slice(0, MOST_ASKED), ...more, OWN], [["send", send], [null, "Do not send it"]]);
  return answer === "send";
}
