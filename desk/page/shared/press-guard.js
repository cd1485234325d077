// No press by accident. A control that has just come, also into the place of another, or to which the page has just moved
// the focus, takes none for a moment. One that came under the pointer, instead of the pointer coming to it, takes none
// until the pointer has left it.

const DEAD = 700;      // milliseconds
const SCROLLED = 500;  // the same, in which what a wheel moves under the pointer was meant
const BY_HAND = 150;   // the same, after a key or a press, in which it has moved the focus
const BUTTONS = "main button:not(.steplist button), aside button, dialog button";
const NOWHERE = { x: -1, y: -1, name: "" };
const CONTROLS = "button, summary, input[type=checkbox], input[type=radio]";

const arrived = new WeakMap(); // control: when it came
const focused = new WeakMap(); // field or control: when the page moved the focus there
let places = new Map();        // a button's name: where it lies on the page
let last = NOWHERE; // where the pointer was last moved to, and the control that was there
let trapped = "";                      // the control that came under it
let wheel = -SCROLLED, moved = -BY_HAND, touched = -DEAD;

const controlOf = (node) => (node instanceof Element ? node.closest("label")?.control ?? node.closest(CONTROLS) : null);

// What a control is to its reader: the same after it was drawn again. One that was disabled is another.
function nameOf(control) {
  return control ? `${control.disabled ? "disabled " : ""}${control.dataset.name ?? ""} ${control.textContent || control.getAttribute("aria-label") || control.value}` : "";
}

function covers(control, { x, y }) {
  const frame = (control.closest("label") ?? control).getBoundingClientRect();
  return x >= frame.left && x <= frame.right && y >= frame.top && y <= frame.bottom;
}

// The pointer is here now. What lies here and lay not here when it came, has come to it.
function notePointer({ clientX: x, clientY: y, target }) {
  const control = controlOf(target), name = nameOf(control);
  const still = x === last.x && y === last.y;
  if (control && name !== last.name && name !== trapped && covers(control, last)) trapped = name;
  else if (!still && name !== trapped) trapped = "";
  if (!still) last = { x, y, name };
}

// A finger is gone between two touches: after a moment it may come to what has come there.
function onDown(event) {
  moved = performance.now();
  if (event.pointerType !== "mouse") {
    if (moved - touched > DEAD) [last, trapped] = [NOWHERE, ""];
    touched = moved;
  }
  notePointer(event);
}

const isRecent = (times, node) => performance.now() - (times.get(node) ?? -DEAD) < DEAD;
const isNew = (control) => isRecent(arrived, control);

function markFresh(node) {
  node.dataset.fresh = "yes";
  setTimeout(() => { if (!isNew(node) && !isRecent(focused, node)) delete node.dataset.fresh; }, DEAD + 20);
}

function hold(event, control) {
  event.preventDefault();
  event.stopImmediatePropagation();
  control.dataset.held = "yes";
  document.getElementById("spoken").textContent = "Not pressed: this has just come here. Leave it, and press it again.";
  setTimeout(() => { delete control.dataset.held; }, DEAD);
}

function onClick(event) {
  const control = controlOf(event.target);
  if (!control || control.accessKey) return; // one with an access key only moves the focus, as that key does
  const byPointer = event.detail > 0 && event.pointerType !== "";
  if (byPointer) notePointer(event);
  const dead = byPointer ? trapped && trapped === nameOf(control) : isRecent(focused, control);
  if (dead || isNew(control)) hold(event, control);
}

// A field's Enter presses the form's button.
function onSubmit(event) {
  const { submitter, target } = event, focus = document.activeElement;
  if (submitter && (isNew(submitter) || (target.contains(focus) && isRecent(focused, focus)))) hold(event, submitter);
}

// Where neither a key nor a press has moved the focus, the page has.
function onFocus({ target }) {
  if (performance.now() - moved < BY_HAND) return;
  focused.set(target, performance.now());
  if (target.matches?.("button, input, select")) markFresh(target);
}

// A key that is held down presses once.
function onKey(event) {
  if (event.key === "Tab" || event.altKey) moved = performance.now();
  if (event.repeat && event.key === "Enter") event.preventDefault();
}

const controlsIn = (nodes) => [...nodes].filter((node) => node instanceof HTMLElement)
  .flatMap((node) => [...(node.matches(CONTROLS) ? [node] : []), ...node.querySelectorAll(CONTROLS)]);

// What comes is new, but for a control that was only drawn again.
function noteChanges(records) {
  const before = new Map();
  for (const control of controlsIn(records.flatMap((record) => [...record.removedNodes]))) {
    before.set(nameOf(control), arrived.get(control) ?? -DEAD);
  }
  for (const control of controlsIn(records.flatMap((record) => [...record.addedNodes]))) {
    arrived.set(control, before.get(nameOf(control)) ?? performance.now());
    if (isNew(control)) markFresh(control);
  }
  if (records.some(({ addedNodes, removedNodes }) => [...addedNodes, ...removedNodes].some((node) => node instanceof Element))) notePlaces(true);
}

function placeOf(control) {
  const { left, top, right, bottom } = control.getBoundingClientRect();
  return [left + scrollX, top + scrollY, right + scrollX, bottom + scrollY];
}

const overlap = (a, b) => a[0] < b[2] && b[0] < a[2] && a[1] < b[3] && b[1] < a[3];

// Where the buttons lie now. One that lies where another did has come there.
function notePlaces(byChange) {
  const before = places;
  places = new Map();
  for (const control of document.querySelectorAll(BUTTONS)) {
    const name = nameOf(control), place = placeOf(control), old = before.get(name);
    places.set(name, place);
    if (!byChange || !old || (old[0] === place[0] && old[1] === place[1])) continue;
    if (![...before].some(([other, its]) => other !== name && overlap(its, place))) continue;
    arrived.set(control, performance.now());
    markFresh(control);
  }
}

// What the wheel moved under the pointer was meant to come there.
function onScroll() {
  notePlaces(false);
  if (performance.now() - wheel > SCROLLED) return;
  last = { ...last, name: nameOf(controlOf(document.elementFromPoint(last.x, last.y))) };
  trapped = "";
}

export function guardPresses() {
  new MutationObserver(noteChanges).observe(document.body, { childList: true, subtree: true });
  addEventListener("pointermove", notePointer, true);
  addEventListener("pointerdown", onDown, true);
  addEventListener("click", onClick, true);
  addEventListener("submit", onSubmit, true);
  addEventListener("focusin", onFocus, true);
  addEventListener("keydown", onKey, true);
  addEventListener("wheel", () => { wheel = performance.now(); }, { capture: true, passive: true });
  addEventListener("scroll", onScroll, true);
}
