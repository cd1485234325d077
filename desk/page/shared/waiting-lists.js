// A list does not move under the pointer, nor under a field that has the focus, because another desk did something: it
// says that it has changed, and waits until they have left it, but not for long.

const LONGEST = 15000, PERIOD = 250; // milliseconds

const held = new Map(); // list: { redo, since }
let pointer = null;     // where it is, null where it has left the page
let afar = false;       // whether what is drawn now comes from the watch
let own = 0;            // commands of this page whose traces are being read
let timer = null;

// Draws what the watch has found.
export function fromAfar(draw) {
  afar = own === 0;
  try {
    draw();
  } finally {
    afar = false;
  }
}

// What this page's own command has changed is shown at once.
export async function asOwn(work) {
  own += 1;
  try {
    return await work();
  } finally {
    own -= 1;
  }
}

function isBusy(list) {
  const focus = document.activeElement;
  if (list.contains(focus) && focus.matches("input, select, textarea, button, a")) return true;
  return pointer !== null && list.contains(document.elementFromPoint(pointer.x, pointer.y));
}

// It is drawn as it is to be.
export function letGo(list) {
  held.delete(list);
  delete list.dataset.changed;
  if (held.size) return;
  clearInterval(timer);
  timer = null;
}

function look() {
  for (const [list, { redo, since }] of [...held]) {
    if (!held.has(list)) continue; // drawn with one before it
    if (list.isConnected && isBusy(list) && performance.now() - since < LONGEST) continue;
    letGo(list);
    if (list.isConnected) redo();
  }
}

// Whether this list is to stay as it is for now; `redo` draws it later.
export function waits(list, redo) {
  if (!afar || !isBusy(list)) {
    letGo(list);
    return false;
  }
  if (!held.has(list)) document.getElementById("spoken").textContent = "The list has changed; it waits.";
  held.set(list, { redo, since: held.get(list)?.since ?? performance.now() });
  list.dataset.changed = "yes";
  timer ??= setInterval(look, PERIOD);
  return true;
}

export function keepStill() {
  addEventListener("pointermove", ({ clientX: x, clientY: y, pointerType }) => {
    pointer = pointerType === "touch" ? null : { x, y }; // a finger does not stay
  }, { capture: true, passive: true });
  document.documentElement.addEventListener("pointerleave", () => { pointer = null; });
}
