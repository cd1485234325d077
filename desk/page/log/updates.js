// An update of the network or the staff, by the log: each open page announces what it changed, until that is dismissed.

import { button, el, panel } from "../shared/elements.js";
import { shortTime } from "../shared/moments.js";
import { keepIn, readKept } from "../shared/storage.js";
import { journal } from "./journal.js";
import { logRows } from "./log-words.js";

const KEPT = "gridclear-updates";

// The number of the last line that was looked at, and the words of those that were not dismissed; the tab keeps both.
let { number, shown } = readKept("sessionStorage", KEPT) ?? { number: null, shown: [] };

function show(found) {
  shown = found;
  keepIn("sessionStorage", KEPT, { number, shown });
  const node = document.getElementById("updates");
  node.hidden = !shown.length;
  panel(node, shown, () => shown.map((words) => el("p", {}, `⚠ ${words}. Look at what is half written. `,
    button("Dismiss", () => show(shown.filter((other) => other !== words)), { "data-name": "dismiss" }))));
}

export function announceUpdates() {
  const isNew = ({ entry }) => entry.command.do === "update" && number !== null && entry.number > number;
  const found = logRows().filter(isNew).map(({ at, what }) => `At ${shortTime(at)} an ${what}`);
  number = journal.last?.number ?? number;
  show([...shown, ...found]);
}
