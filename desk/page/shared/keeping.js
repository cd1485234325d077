// What keeps the register: its standby, its backups, its disk, as the timers of its machine wrote it, where that is served.
// A row is an alarm where it says so, where it never was good, or not for longer than its limit.

import { serverNow } from "./clocks.js";
import { el, panel } from "./elements.js";
import { shortTime } from "./moments.js";
import { keepingFile } from "./served-files.js";

const PERIOD = 10000; // milliseconds
const OLD = 180;      // seconds from which on the file itself is old
const SHORT = { standby: (when) => when, disk: (when, says) => says };

let kept = null;

function whenWords(at) {
  const age = Math.max(0, serverNow() - at);
  if (age < 3600) return age < 60 ? `${age} s ago` : `${Math.floor(age / 60)} min ago`;
  return shortTime(at).slice(0, -3); // without the seconds
}

function rowWords({ what, at, limit, says, alarm }) {
  const when = at === null ? "never" : whenWords(at), isAlarm = alarm || at === null || serverNow() - at > limit;
  const words = SHORT[what]?.(when, says) ?? `${when}, ${says}`;
  return { text: isAlarm ? `⚠ ${what}: last good ${when}; ${says}` : `${what} ${words}`, isAlarm };
}

// What the top says of it, each part as { text, isAlarm }.
export function keepingWords(file) {
  if (!file) return [];
  const old = { text: `⚠ standby, backup and disk were last looked at ${whenWords(file.written)}`, isAlarm: true };
  return [...(serverNow() - file.written > OLD ? [old] : []), ...file.rows.map(rowWords)];
}

export function drawKeeping() {
  const words = keepingWords(kept), node = document.getElementById("keeping");
  node.hidden = !words.length;
  panel(node, words, () => words.flatMap(({ text, isAlarm }, place) =>
    [place ? "; " : null, el("span", { class: isAlarm ? "alarm" : null }, text)]));
}

export async function readKeeping() {
  const found = await keepingFile();
  if (found !== undefined) kept = found;
  setTimeout(readKeeping, PERIOD);
}
