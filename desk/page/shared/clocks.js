// This desk's clock beside the server's, by the `Date` of each answer, and whether the server's was set. Where they are far
// apart, the operator says which of them is meant, once, and may take it back.

import { journal } from "../log/journal.js";
import { now, shortTime, span } from "./moments.js";
import { ask } from "./question.js";
import { keepIn, readKept } from "./storage.js";

const FAR = 30;   // seconds between the two clocks
const NEAR = 120; // seconds between a moment and the clock
const KEPT = "gridclear-clock-set";
let off = 0;       // how far the server's clock is ahead of this desk's
let choice = null; // { which, off }: what was answered, and how far apart they were then
let before = null; // how far both were ahead of a clock that nobody sets, at the last answer
let set = readKept("sessionStorage", KEPT); // { at, by, number }: the server's clock was set; the log's last number then

export function noteDate(header) {
  const time = Date.parse(header ?? "");
  if (Number.isNaN(time)) return;
  const server = Math.floor(time / 1000), run = performance.now() / 1000;
  const ahead = { server: server - run, desk: now() - run }, last = before ?? ahead, by = Math.round(ahead.server - last.server);
  before = ahead;
  off = server - now();
  if (Math.abs(by) <= FAR || Math.abs(ahead.desk - last.desk) > FAR) return;
  set = { at: now(), by, number: journal.last?.number ?? 0 };
  keepIn("sessionStorage", KEPT, set);
}

// Now, by the server's clock.
export const serverNow = () => now() + off;
const isFar = () => Math.abs(off) > FAR;

// Who has given commands by a clock like this desk's since the server's was set.
function othersWords() {
  const alike = journal.entries.filter(({ command, received, number }) => number > set.number && Math.abs(command.at - received + off) <= FAR);
  const names = [...new Set(alike.map(({ command }) => command.by))].join(", ");
  return names ? `since then ${names} gave commands by a clock like this desk's` : "nobody has given a command by a clock like this desk's since then";
}

// What the top of the page says of it; nothing where the clocks agree.
export function clockWords() {
  if (!isFar()) return "";
  const words = `This desk's clock is ${span(off)} ${off < 0 ? "ahead of" : "behind"} the server's`;
  if (!set) return words;
  return `${words}. The server's was set ${set.by < 0 ? "back" : "forward"} by ${span(set.by)} at ${shortTime(set.at)}, and this `
    + `desk's was not; ${othersWords()}`;
}

// The clock that was chosen, while that is used: "server", "desk", or null.
export const chosenClock = () => (isFar() && choice ? choice.which : null);
export const forgetClock = () => { choice = null; };

// The moment by the clock that is meant.
export const meantNow = () => now() + (chosenClock() === "server" ? off : 0);
export const isNear = (moment) => Math.abs(moment - meantNow()) <= NEAR;

// Asks which clock is meant, where that was not answered for this difference. Whether the command may go on.
export async function clockIsMeant() {
  if (!isFar() || (choice && Math.abs(choice.off - off) <= FAR)) return true;
  const which = await ask("Two clocks differ: which is meant?", [
    `${clockWords()}. One of them is wrong, and the register takes any moment as it is.`,
    "What is chosen here is used for the further commands of this page too; at the top it can be taken back.",
  ], [
    ["server", `The server's: ${shortTime(now() + off)}`],
    ["desk", `This desk's: ${shortTime(now())}`],
    [null, "Do not give the command"],
  ]);
  if (which === null) return false;
  choice = { which, off };
  return true;
}
