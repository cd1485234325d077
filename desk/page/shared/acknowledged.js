// An alarm sounds until somebody at this desk has acknowledged it. Who did, and when, is kept in the browser, and shown
// beside the alarm, which stays until it is over. A browser lets a page sound only after a first press.

import { keptName, loginUsed } from "./caller.js";
import { button, el } from "./elements.js";
import { now, shortTime } from "./moments.js";
import { keepIn, readKept } from "./storage.js";

const KEPT = "gridclear-acknowledged";
const PERIOD = 2000; // milliseconds from one tone to the next
const BEGUN = 15000; // the same, in which a page may not know yet which alarms there are

const at = (id) => document.getElementById(id);
const present = new Map(); // kind of alarm: the names of those that there are
let audio = null;

const kept = () => readKept("localStorage", KEPT) ?? {};
export const noteAlarms = (kind, names) => { present.set(kind, names); };

// Who has acknowledged this alarm, and when; "" while nobody has.
export function acknowledgedWords(name) {
  const { by, moment } = kept()[name] ?? {};
  return by ? `acknowledged by ${by} at ${shortTime(moment)}` : "";
}

// The same beside the alarm; or the button, after which the page is drawn again.
export function acknowledgement(name, redraw) {
  const words = acknowledgedWords(name);
  return words ? el("span", { class: "acknowledged" }, words) : button("Acknowledge", () => {
    const by = keptName() || loginUsed() || "a desk without a name";
    keepIn("localStorage", KEPT, { ...kept(), [name]: { by, moment: now() } });
    redraw();
  }, { "data-name": `acknowledge ${name}` });
}

function tone() {
  const sound = audio.createOscillator(), volume = audio.createGain();
  sound.frequency.value = 880;
  volume.gain.value = 0.3;
  sound.connect(volume).connect(audio.destination);
  sound.start();
  sound.stop(audio.currentTime + 0.4);
}

// Sounds while an alarm waits. One that is over is forgotten: it sounds where it comes again.
function look() {
  const names = [...present.values()].flat(), over = Object.keys(kept()).filter((name) => !names.includes(name));
  if (over.length && performance.now() > BEGUN) {
    keepIn("localStorage", KEPT, Object.fromEntries(Object.entries(kept()).filter(([name]) => !over.includes(name))));
  }
  const sounds = at("sound").checked && !names.every(acknowledgedWords);
  at("sound-waits").hidden = !sounds || audio?.state === "running";
  if (sounds && audio) tone();
}

export function startSound() {
  const first = () => { audio ??= new AudioContext(); };
  for (const press of ["pointerdown", "keydown"]) addEventListener(press, first, true);
  setInterval(look, PERIOD);
}
