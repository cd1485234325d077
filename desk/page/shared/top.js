// On every page: whether the register answers, whether the clocks agree, the alarms, what is old, and the moment.

import { lacking } from "../log/board-lacks.js";
import { saidOf } from "../replies/command-words.js";
import { isSending, onSending, setMomentField } from "../replies/commands.js";
import { acknowledgedWords, acknowledgement, noteAlarms, startSound } from "./acknowledged.js";
import { chosenClock, clockWords, forgetClock, meantNow } from "./clocks.js";
import { el, panel } from "./elements.js";
import { drawKeeping, readKeeping } from "./keeping.js";
import { alarms } from "./live-alarms.js";
import { fieldTime, now, shortTime, wholeTime } from "./moments.js";
import { contact, isFresh } from "./register.js";
import { keepIn, readKept } from "./storage.js";
import { oldParts, room } from "./watch.js";

const PERIOD = 500; // milliseconds

const UNDRAWN = "A fault of this page kept it from showing what the register has answered: what is shown may be old. "
  + "Load the page again; if that does not help, report it to whoever keeps this desk.";

const at = (id) => document.getElementById(id);
let drawn = true; // whether all that the register last answered is shown

export const noteDrawn = (all) => { drawn = all; };

// The title of the browser's tab: the page that is shown, and before it each alarm, which a tab that nobody looks at shows.
const tab = { page: "", live: "", contact: "" };

export function titleOf({ page, live, contact }) {
  const words = [live, contact].filter(Boolean).join("; ");
  return `${words ? `⚠ ${words} · ` : ""}${page} · gridclear desk`;
}

export function drawTab(part, words) {
  tab[part] = words;
  if (document.title !== titleOf(tab)) document.title = titleOf(tab);
}

// Since when no answer came, and what is known of it.
function silentWords() {
  const since = contact.answered ?? contact.silentSince;
  const why = contact.silentSince === null ? "" : ` (${contact.why})`;
  const last = contact.answered ? `Its last answer came at ${shortTime(contact.answered)}; what is shown is from then.` : "It has not answered yet.";
  return `The register does not answer since ${shortTime(since ?? now())}${why}. ${last}`;
}

function refusedWords() {
  const since = contact.refused === null ? "" : ` since ${shortTime(contact.refused)}`, { entry } = lacking;
  const lacks = entry ? ` The log has number ${entry.number} as accepted (${saidOf(entry.command)}), and the board lacks it.` : "";
  return `NO COMMAND IS TAKEN${since}: the register answers them with 503.${lacks} Is its disk full? Whether they are carried out, a restart of the register decides.`;
}

// The board may come, and the network, which is much longer, may not.
function unreadWords() {
  const last = room.network === null ? "It was not read yet." : `The diagram, and the positions and holds of points, are those of ${shortTime(room.network)}.`;
  return `The network could not be read since ${shortTime(room.unread)}, though the register answers. ${last}`;
}

// What is amiss, in the tab's title and at the top; nothing where all is well.
export function troubleWords() {
  if (contact.silentSince !== null || !isFresh()) return { tab: "NO ANSWER", text: silentWords() };
  if (contact.trouble) return { tab: "NOTHING GOES THROUGH", text: contact.trouble };
  if (room.unread !== null) return { tab: "THE NETWORK IS OLD", text: unreadWords() };
  if (!drawn) return { tab: "WHAT IS SHOWN MAY BE OLD", text: UNDRAWN };
  if (contact.refused !== null || lacking.entry) return { tab: "503: NO COMMAND IS TAKEN", text: refusedWords() };
  return null;
}

export function drawContact() {
  const trouble = troubleWords(), silent = trouble !== null;
  const well = contact.answered ? `The register answers; last at ${shortTime(contact.answered)}.` : "Asking the register…";
  const text = trouble?.text ?? well;
  drawTab("contact", trouble?.tab ?? "");
  const node = at("contact"), shown = `${silent ? "⚠ " : "✓ "}${text}`;
  if (silent !== (node.dataset.silent === "yes")) at("spoken").textContent = text;
  node.dataset.silent = silent ? "yes" : "no";
  node.className = silent ? "silent" : "answers";
  if (node.textContent !== shown) node.textContent = shown;
  noteAlarms("contact", trouble ? [trouble.tab] : []);
  panel(at("contact-heard"), trouble && [trouble.tab, acknowledgedWords(trouble.tab)],
    () => trouble && acknowledgement(trouble.tab, drawContact));
  drawClocks();
  drawOld();
}

function drawClocks() {
  const words = clockWords(), node = at("clocks"), chosen = chosenClock();
  const used = chosen ? `. Commands have the moment of ${chosen === "server" ? "the server's" : "this desk's"}` : "";
  node.hidden = !words;
  node.textContent = words ? `⚠ ${words}${used}` : "";
  at("clock-again").hidden = !chosen;
}

// What was not answered for a while is dimmed, and says since when: all, or what the network and the chosen record have.
function drawOld() {
  const { board, network, view } = oldParts(), places = { main: board, ".diagram-place": network, ".clearance[data-id]": view };
  for (const [css, since] of Object.entries(places)) {
    for (const node of document.querySelectorAll(css)) {
      if (since === null) delete node.dataset.old;
      else node.dataset.old = `Old: this is as of ${shortTime(since)}`;
    }
  }
}

// Each section that was tested live, on every page.
export function drawAlarms() {
  const found = alarms().map(({ id, section }) => ({ id, section, name: `${section} under ${id}` })), node = at("alarms");
  drawTab("live", found.length ? `TESTED LIVE ${found.map(({ section }) => section).join(", ")}` : "");
  noteAlarms("live", found.map(({ name }) => name));
  node.hidden = !found.length;
  panel(node, found.map(({ name }) => [name, acknowledgedWords(name)]), () => found.map(({ id, section, name }) =>
    el("p", {}, el("strong", {}, `⚠ TESTED LIVE: ${section}`), ` under `, el("a", { href: `#/clearance/${id}` }, id),
      el("span", { class: "until" }, ". It is an alarm until the section is tested dead, or the clearance is released."),
      " ", acknowledgement(name, drawAlarms))));
}

// The browser keeps what is set at the top.
function keepControl(id, part) {
  const control = at(id), key = `gridclear-${id}`;
  control[part] = readKept("localStorage", key) ?? control[part];
  control.addEventListener("change", () => keepIn("localStorage", key, control[part]));
}

// The moment of the next command: the clock's, unless another is set. After a reply it is the clock's again.
function startMoment() {
  const field = at("moment"), line = at("moment-line"), set = at("moment-set");
  const show = (other) => {
    line.hidden = !other;
    set.hidden = other;
    field.value = other ? fieldTime(meantNow()) : "";
    (other ? field : set).focus();
  };
  setMomentField(field);
  set.addEventListener("click", () => show(true));
  at("moment-now").addEventListener("click", () => show(false));
  onSending(() => {
    if (isSending() || field.value || field.validity.badInput || line.hidden) return; // one that is half written has no value
    line.hidden = true;
    set.hidden = false;
  });
  const tick = () => { at("clock").textContent = wholeTime(meantNow()); };
  setInterval(tick, 1000);
  tick();
}

export function startTop() {
  startMoment();
  keepControl("look", "value");
  keepControl("sound", "checked");
  at("clock-again").addEventListener("click", forgetClock);
  const draw = () => [drawContact, drawAlarms, drawKeeping].forEach((part) => part());
  setInterval(draw, PERIOD);
  drawContact();
  readKeeping();
  startSound();
}
