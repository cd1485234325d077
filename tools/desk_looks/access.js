// What of WCAG 2.2, levels A and AA, can be seen in a page as it is now. It is run in the page: with "whole" it gives back
// all faults of the page, each as [rule, where, what]; with "stop" those of what has the focus, null where nothing has;
// with "missed" the controls to which no "stop" came.

const WHAT = arguments[0];
const CONTROLS = "button, a[href], input, select, textarea, summary, [tabindex]:not([tabindex='-1']), [role=checkbox]";
const TEXT = 4.5, LARGE = 3, SIGN = 3, SMALLEST = 24;
const ROLES = new Set("alert checkbox group status dialog presentation".split(" "));
const ARIA = new Set("label labelledby describedby live hidden checked current controls expanded required invalid".split(" "));
const faults = [];

const all = (css, root = document) => [...root.querySelectorAll(css)];
const isSeen = (node) => node.checkVisibility({ opacityProperty: true, visibilityProperty: true, contentVisibilityAuto: true });
// For screen readers alone: a page clips that away.
function isUnseen(node) {
  for (let up = node; up; up = up.parentElement) if (getComputedStyle(up).clipPath === "inset(50%)") return true;
  return false;
}

const top = document.querySelector("dialog[open]") ?? document.body; // what may be used now
const squeezed = (text) => (text ?? "").replace(/\s+/g, " ").trim();

function where(node) {
  const own = node.id ? `#${node.id}` : node.dataset?.name ? `[${node.dataset.name}]` : node.classList.length ? `.${[...node.classList].join(".")}` : "";
  const up = node.parentElement && node.parentElement !== document.body ? `${node.parentElement.tagName.toLowerCase()}${node.parentElement.id ? `#${node.parentElement.id}` : ""} > ` : "";
  return `${up}${node.tagName.toLowerCase()}${own}`;
}

function fault(rule, node, what) {
  faults.push([rule, where(node), what]);
}

// Colours as [red, green, blue, alpha], the last from 0 to 1.
function colourIn(text) {
  const found = /rgba?\(([^)]*)\)/.exec(text), srgb = /color\(srgb ([^)]*)\)/.exec(text);
  if (found) {
    const [red, green, blue, alpha = 1] = found[1].split(/[ ,/]+/).map(Number);
    return [red, green, blue, alpha];
  }
  if (!srgb) return null;
  const [red, green, blue, alpha = 1] = srgb[1].split(/[ /]+/).map(Number);
  return [red * 255, green * 255, blue * 255, alpha];
}

function over([r, g, b, a], [R, G, B]) {
  return [r * a + R * (1 - a), g * a + G * (1 - a), b * a + B * (1 - a), 1];
}

function lightness([r, g, b]) {
  const part = (value) => (value / 255 <= 0.04045 ? value / 255 / 12.92 : ((value / 255 + 0.055) / 1.055) ** 2.4);
  return 0.2126 * part(r) + 0.7152 * part(g) + 0.0722 * part(b);
}

function ratio(one, other) {
  const [low, high] = [lightness(one), lightness(other)].sort((a, b) => a - b);
  return (high + 0.05) / (low + 0.05);
}

// What lies under a node, as its ancestors paint it.
function ground(node) {
  const layers = [];
  for (let up = node; up; up = up.parentElement) {
    const colour = colourIn(getComputedStyle(up).backgroundColor);
    if (colour && colour[3] > 0) layers.push(colour);
    if (colour && colour[3] === 1) break;
  }
  return layers.reverse().reduce((under, layer) => over(layer, under), [255, 255, 255, 1]);
}

function fading(node) {
  let opacity = 1;
  for (let up = node; up; up = up.parentElement) opacity *= Number(getComputedStyle(up).opacity);
  return opacity;
}

// Contrast of text: 4.5 to 1, 3 to 1 for large text. Disabled controls too, which WCAG leaves out.
function textsHaveContrast() {
  const walker = document.createTreeWalker(document.body, NodeFilter.SHOW_TEXT), seen = new Set();
  for (let text = walker.nextNode(); text; text = walker.nextNode()) {
    const node = text.parentElement;
    if (!squeezed(text.data) || seen.has(node) || node.closest("svg, script, style, noscript, option") || !isSeen(node) || isUnseen(node)) continue;
    seen.add(node);
    contrastOf(node, getComputedStyle(node), squeezed(text.data));
  }
  for (const node of all("input[placeholder], select, input").filter(isSeen)) {
    contrastOf(node, getComputedStyle(node), node.value ?? "");
    if (node.placeholder) contrastOf(node, getComputedStyle(node, "::placeholder"), node.placeholder);
  }
}

function contrastOf(node, style, text) {
  const under = ground(node), colour = colourIn(style.color);
  const shown = over([...colour.slice(0, 3), colour[3] * fading(node)], under), found = ratio(shown, under);
  const size = parseFloat(getComputedStyle(node).fontSize), bold = Number(getComputedStyle(node).fontWeight) >= 700;
  const wanted = size >= 24 || (bold && size >= 18.66) ? LARGE : TEXT;
  if (found < wanted) fault("contrast", node, `${found.toFixed(2)} to 1 of ${style.color} on ${under.slice(0, 3).map(Math.round)}: ${text.slice(0, 30)}`);
}

// Texts of the drawing, on their edge, which has the colour of its ground, and on the box that they lie in; its lines and
// signs.
function drawingHasContrast() {
  const paper = ground(document.querySelector(".net:not(.sample)") ?? document.body);
  const judge = (node, colour, under, wanted, what) => {
    if (!colour || colour[3] === 0) return;
    const found = ratio(over(colour, under), under);
    if (found < wanted) fault("contrast of the drawing", node, `${found.toFixed(2)} to 1 of ${what} on ${under.slice(0, 3)}`);
  };
  for (const node of all(".net text").filter(isSeen)) {
    const colour = colourIn(getComputedStyle(node).fill), box = all(`.net [data-name="${CSS.escape(node.dataset.of ?? "")}"] .box`)[0];
    judge(node, colour, paper, TEXT, node.textContent);
    const fill = box && colourIn(getComputedStyle(box).fill);
    if (fill && fill[3] === 1 && node.classList.contains("name")) judge(node, colour, fill, TEXT, node.textContent);
  }
  for (const node of all(".net .line, .net .box, .net .gap, .net .ring, .net .found, .net .hatch, .net .feed path").filter(isSeen)) {
    judge(node, colourIn(getComputedStyle(node).stroke), paper, SIGN, "a line");
  }
  for (const node of all(".net .stroke")) judge(node, colourIn(getComputedStyle(node).stroke), paper, SIGN, "the hatch");
  for (const node of all(".net .flash").filter(isSeen)) {
    judge(node, colourIn(getComputedStyle(node).fill), colourIn(getComputedStyle(node.parentElement.querySelector(".box")).fill) ?? paper, SIGN, "the flash");
  }
}

// The edge of a field against what is around it.
function fieldsHaveEdges() {
  for (const node of all("input:not([type=checkbox], [type=radio]), select, textarea").filter(isSeen)) {
    const edge = colourIn(getComputedStyle(node).borderTopColor), around = ground(node.parentElement), own = ground(node);
    const found = Math.max(ratio(over(edge, around), around), ratio(own, around));
    if (found < SIGN) fault("contrast of a field's edge", node, `${found.toFixed(2)} to 1`);
  }
}

// The name of a control, as a screen reader says it.
function nameOf(node) {
  const by = (node.getAttribute("aria-labelledby") ?? "").split(/\s+/).filter(Boolean).map((id) => document.getElementById(id)?.textContent ?? "").join(" ");
  return squeezed(by) || squeezed(node.getAttribute("aria-label")) || squeezed(labelText(node)) || squeezed(node.matches("button, a, summary, [role]") ? node.textContent : "") || squeezed(node.title);
}

function labelText(node) {
  return [...(node.labels ?? [])].map((label) => {
    const copy = label.cloneNode(true);
    for (const inner of copy.querySelectorAll("select, textarea, option")) inner.remove();
    return copy.textContent;
  }).join(" ");
}

const plain = (text) => squeezed(text).toLowerCase().replace(/[^\p{L}\p{N} ]/gu, "").trim();

function controlsHaveNames() {
  for (const node of all(CONTROLS).filter(isSeen)) {
    const name = nameOf(node), visible = plain(node.matches("button, a, summary") ? node.innerText : labelText(node));
    if (!name) fault("name", node, "a control without a name");
    else if (visible && !plain(name).includes(visible)) fault("label in name", node, `shown is “${visible}”, and its name is “${name}”`);
    if (node.matches("input, select, textarea") && !node.labels?.length && !node.getAttribute("aria-label") && !node.getAttribute("aria-labelledby")) fault("label", node, "a field without a label");
    if (node.tabIndex > 0) fault("order", node, "it has a place of its own in the order of Tab");
    if (node.closest("[aria-hidden=true]")) fault("hidden", node, "it takes the focus and is hidden from screen readers");
    if (node.parentElement.closest("button, a[href], summary, [role=checkbox]")) fault("nested", node, "a control within a control");
  }
  for (const node of all("fieldset").filter(isSeen)) if (!squeezed(node.querySelector("legend")?.textContent)) fault("name", node, "a group without a legend");
  for (const node of all("dialog[open], aside, nav, [role=group], [role=dialog]").filter(isSeen)) if (!nameOf(node)) fault("name", node, "a part without a name");
}

function idsAndReferences() {
  const ids = new Map();
  for (const node of all("[id]")) ids.set(node.id, [...(ids.get(node.id) ?? []), node]);
  for (const [id, nodes] of ids) if (nodes.length > 1) fault("duplicate id", nodes[1], `${nodes.length} times ${id}`);
  for (const name of ["aria-labelledby", "aria-describedby", "aria-controls", "for", "list"]) {
    for (const node of all(`[${name}]`)) {
      for (const id of node.getAttribute(name).split(/\s+/).filter(Boolean)) if (!ids.has(id)) fault("reference", node, `${name} leads to no ${id}`);
    }
  }
  for (const node of all("[role]")) if (!ROLES.has(node.getAttribute("role"))) fault("role", node, node.getAttribute("role"));
  for (const node of all("*")) ariaIsKnown(node);
}

function ariaIsKnown(node) {
  for (const { name, value } of node.attributes) {
    if (!name.startsWith("aria-")) continue;
    if (!ARIA.has(name.slice(5))) fault("aria", node, `${name} is not among those that are known here`);
    if (name === "aria-checked" && !node.matches("[role=checkbox]")) fault("aria", node, "aria-checked at no checkbox");
    if (name === "aria-label" && node.matches("p, span, div, li, strong, b, td, time") && !node.hasAttribute("role")) fault("aria", node, "a name for what has no role");
    if (!value) fault("aria", node, `${name} is empty`);
  }
  if (node.matches("[role=checkbox]") && !node.hasAttribute("aria-checked")) fault("aria", node, "a checkbox that is neither on nor off");
}

function structure() {
  if (!document.documentElement.lang) fault("language", document.documentElement, "none");
  if (!squeezed(document.title)) fault("title", document.documentElement, "none");
  if (/user-scalable=no|maximum-scale/.test(document.querySelector("meta[name=viewport]")?.content ?? "")) fault("zoom", document.head, "it cannot be zoomed");
  for (const [css, count] of [["main", 1], ["h1", 1], ["body > header", 1], ["nav", 1]]) {
    if (all(css).length !== count) fault("landmark", document.body, `${all(css).length} times ${css}`);
  }
  if (!document.querySelector("body > #skip")) fault("skip", document.body, "nothing leads past the head");
  let level = 0;
  for (const node of all("h1, h2, h3, h4, h5, h6").filter((one) => isSeen(one) && !one.closest("dialog"))) {
    const own = Number(node.tagName[1]);
    if (own > level + 1) fault("headings", node, `h${level}, then h${own}: ${squeezed(node.textContent)}`);
    if (!squeezed(node.textContent)) fault("headings", node, "an empty heading");
    level = own;
  }
}

function tablesAndLists() {
  for (const table of all("table").filter(isSeen)) {
    if (!table.querySelector("th")) fault("table", table, "no head");
    for (const head of all("th", table)) {
      if (!squeezed(head.textContent)) fault("table", head, "an empty head");
      if (!head.scope) fault("table", head, "a head without a scope");
    }
  }
  for (const list of all("ul, ol")) for (const one of list.children) if (one.tagName !== "LI") fault("list", list, `${one.tagName} in a list`);
  for (const one of all("li")) if (!one.parentElement.matches("ul, ol")) fault("list", one, "outside a list");
  for (const image of all("img, svg[role=img]")) if (!nameOf(image) && !image.alt) fault("name", image, "a picture without a text");
  for (const link of all("main a, aside a, #alarms a, #state a").filter(isSeen)) {
    if (!getComputedStyle(link).textDecorationLine.includes("underline")) fault("link", link, "known by its colour alone");
  }
}

// Targets of less than 24 by 24 pixels, where another is within 24 pixels. Words in a sentence, and the points of the
// drawing, which a list has too, are left out.
function targetsAreLarge() {
  const targets = all(CONTROLS).filter((node) => isSeen(node) && !isUnseen(node) && !node.closest("svg") && !node.matches("svg"));
  const boxes = new Map(targets.map((node) => [node, boxOf(node)]).filter(([node, box]) => !isScrolledAway(node, box)));
  for (const [node, box] of boxes) {
    if ((box.width >= SMALLEST && box.height >= SMALLEST) || isInSentence(node)) continue;
    const x = box.left + box.width / 2, y = box.top + box.height / 2;
    for (const [other, its] of boxes) {
      if (other === node || node.contains(other) || other.contains(node)) continue;
      const left = Math.max(its.left - x, x - its.right, 0), high = Math.max(its.top - y, y - its.bottom, 0);
      if (Math.hypot(left, high) < SMALLEST / 2) {
        fault("target", node, `${box.width.toFixed(0)} by ${box.height.toFixed(0)}, beside ${where(other)}`);
        break;
      }
    }
  }
}

// What is scrolled out of a list is nowhere to be pressed.
function isScrolledAway(node, { top, bottom }) {
  const list = node.closest(".picks")?.getBoundingClientRect();
  return list !== undefined && (top > list.bottom || bottom < list.top);
}

// A label is pressed as its control is.
function boxOf(node) {
  const boxes = [node, ...(node.matches("input") ? node.labels ?? [] : [])].map((one) => one.getBoundingClientRect());
  const left = Math.min(...boxes.map((one) => one.left)), top = Math.min(...boxes.map((one) => one.top));
  const right = Math.max(...boxes.map((one) => one.right)), bottom = Math.max(...boxes.map((one) => one.bottom));
  return { left, top, right, bottom, width: right - left, height: bottom - top };
}

function isInSentence(node) {
  const up = node.parentElement;
  return node.matches("a") && [...up.childNodes].some((one) => one !== node && one.nodeType === Node.TEXT_NODE && squeezed(one.data).length > 1);
}

// Texts that are cut, and that lie on one another.
function nothingIsCut() {
  for (const node of all("body *").filter((one) => !one.closest("svg") && isSeen(one) && !isUnseen(one))) {
    const style = getComputedStyle(node);
    const cut = (style.overflowX === "hidden" || style.overflowX === "clip" || node.matches("button")) && !node.matches(".net");
    if (cut && node.scrollWidth > node.clientWidth + 1) fault("cut", node, `${node.scrollWidth} px in ${node.clientWidth}: ${squeezed(node.textContent).slice(0, 40)}`);
    if (node.matches("select")) optionIsCut(node, style);
  }
  const wide = document.documentElement.scrollWidth;
  if (wide > innerWidth) fault("cut", document.body, `the page is ${wide} px wide in ${innerWidth}`);
}

const measure = document.createElement("canvas").getContext("2d");
function optionIsCut(node, style) {
  measure.font = style.font;
  const wide = measure.measureText(node.selectedOptions[0]?.textContent ?? "").width + parseFloat(style.paddingLeft) + parseFloat(style.paddingRight);
  if (wide > node.clientWidth + 2) fault("cut", node, `the choice ${node.selectedOptions[0].textContent}`);
}

function nothingLiesOnTexts() {
  const boxes = [], walker = document.createTreeWalker(top, NodeFilter.SHOW_TEXT);
  for (let text = walker.nextNode(); text; text = walker.nextNode()) {
    const node = text.parentElement;
    if (!squeezed(text.data) || node.closest("svg, option, noscript, script, #alarms, #state, aside") || !isSeen(node) || isUnseen(node)) continue;
    const range = document.createRange();
    range.selectNodeContents(text);
    for (const box of range.getClientRects()) if (box.width > 1 && box.height > 1) boxes.push({ node, box, text });
  }
  boxes.sort((a, b) => a.box.top - b.box.top);
  boxes.forEach((one, place) => {
    for (let next = place + 1; next < boxes.length && boxes[next].box.top < one.box.bottom - 3; next++) {
      const other = boxes[next];
      if (other.text === one.text || isScrolled(one.node, other.node)) continue;
      if (Math.min(one.box.right, other.box.right) - Math.max(one.box.left, other.box.left) > 3) fault("overlap", one.node, `${squeezed(one.text.data).slice(0, 30)} and ${squeezed(other.text.data).slice(0, 30)}`);
    }
  });
}

// What is scrolled out of a part's box lies on nothing.
function isScrolled(...nodes) {
  return nodes.some((node) => {
    for (let up = node.parentElement; up; up = up.parentElement) if (up.scrollHeight > up.clientHeight + 2 && getComputedStyle(up).overflowY === "auto") return true;
    return false;
  });
}

// What has the focus by a key: a ring that is seen, and nothing over all of it.
function stop() {
  const node = document.activeElement;
  const been = (window.stops ??= new Set());
  if (node && [...been].at(-1) === node) return []; // a field of a date has more than one stop
  if (!node || node === document.body || been.has(node)) return null;
  been.add(node);
  const { outlineStyle, outlineWidth, outlineColor, outlineOffset } = getComputedStyle(node);
  const around = ground(parseFloat(outlineOffset) < 0 ? node : node.parentElement), found = ratio(over(colourIn(outlineColor), around), around);
  if (outlineStyle === "none" || parseFloat(outlineWidth) < 2) fault("focus", node, "no ring");
  else if (found < SIGN) fault("focus", node, `a ring of ${found.toFixed(2)} to 1`);
  if (isCovered(node)) fault("focus", node, "something lies over it");
  return faults;
}

function isCovered(node) {
  const { left, top, width, height } = node.getBoundingClientRect();
  const places = [[0.5, 0.5], [0.1, 0.1], [0.9, 0.1], [0.1, 0.9], [0.9, 0.9]].map(([x, y]) => document.elementFromPoint(left + x * width, top + y * height));
  return !places.some((found) => found && (node.contains(found) || found.contains(node)));
}

// Of a group of radio buttons one is a stop.
function missed() {
  const been = window.stops ?? new Set();
  delete window.stops;
  for (const node of all(CONTROLS, top).filter((one) => isSeen(one) && !isUnseen(one) && !one.disabled && one.tabIndex >= 0)) {
    if (!been.has(node) && !(node.type === "radio" && all(`[name="${node.name}"]`).some((one) => been.has(one)))) fault("focus", node, "Tab does not come to it");
  }
  return faults;
}

if (WHAT === "stop") return stop();
if (WHAT === "missed") return missed();
for (const look of [textsHaveContrast, drawingHasContrast, fieldsHaveEdges, controlsHaveNames, idsAndReferences, structure, tablesAndLists, targetsAreLarge, nothingIsCut, nothingLiesOnTexts]) look();
return faults;
