// Small makers of page elements, and panels that are drawn again only when what they show has changed.

import { letGo, waits } from "./waiting-lists.js";

const SVG = "http://www.w3.org/2000/svg";

function dress(node, attributes, children) {
  for (const [name, value] of Object.entries(attributes)) {
    if (value === null || value === undefined || value === false) continue;
    if (name.startsWith("on")) node.addEventListener(name.slice(2), value);
    else node.setAttribute(name, value === true ? "" : value);
  }
  node.append(...children.flat().filter((child) => child !== null && child !== undefined && child !== false));
  return node;
}

export const el = (tag, attributes = {}, ...children) => dress(document.createElement(tag), attributes, children);

export function svg(tag, attributes = {}, ...children) {
  return dress(document.createElementNS(SVG, tag), attributes, children);
}

const NAME = /([(“]*[A-Z0-9]+(?:-[A-Z0-9]+)+[.,:;)”]*)/; // with the signs that belong to it

// A text in which no name goes on in the next line after a hyphen, as long as it fits into one.
export function unbroken(text) {
  return text.split(NAME).map((part, place) => (place % 2 ? el("span", { class: "unbroken" }, part) : part));
}

export function button(text, does, attributes = {}) {
  return el("button", { type: "button", onclick: does, ...attributes }, text);
}

// A form that does this when it is sent, and is not sent.
export function form(does, attributes, ...children) {
  return el("form", { ...attributes, onsubmit: (event) => { event.preventDefault(); does(); } }, ...children);
}

// A label with its control.
export function field(text, control, hint) {
  return el("label", { class: "field" }, el("span", { class: "name" }, text), control,
    hint ? el("span", { class: "hint" }, hint) : null);
}

export const choice = (names, attributes = {}, chosen = "") => el("select", attributes,
  names.map(([value, text]) => el("option", { value, selected: value === chosen }, text)));

export const table = (heads, rows, attributes = {}) => el("table", attributes,
  el("thead", {}, el("tr", {}, heads.map((head) => el("th", { scope: "col" }, head)))),
  el("tbody", {}, rows));

const drawn = new WeakMap();

// The control that has the focus in a panel, by its name, with the place of its cursor.
function focusIn(node) {
  const focus = document.activeElement;
  if (!node.contains(focus) || !focus.dataset.name) return null;
  const text = focus.matches("input[type=text], input:not([type]), textarea");
  return { name: focus.dataset.name, said: focus.matches("button") ? focus.textContent : null, at: text ? [focus.selectionStart, focus.selectionEnd] : null };
}

// Draws a panel where its key is another than the one that it was drawn with, so that nothing flickers, and nothing
// that is being typed is lost. The focus stays on the control of the same name where there is one, and where a button
// says the same as before. A list that is under the pointer, or has the focus, waits.
export function panel(node, key, draw) {
  const text = JSON.stringify(key);
  if (drawn.get(node) === text) {
    letGo(node);
    return false;
  }
  if (drawn.has(node) && waits(node, () => panel(node, key, draw))) return false;
  drawn.set(node, text);
  const focus = focusIn(node);
  const content = draw();
  node.replaceChildren(...[content].flat().filter(Boolean));
  if (!focus) return true;
  const control = node.querySelector(`[data-name="${CSS.escape(focus.name)}"]`);
  if (focus.said !== null && control?.textContent !== focus.said) return true;
  control?.focus();
  if (focus.at && control?.setSelectionRange) control.setSelectionRange(...focus.at);
  return true;
}
