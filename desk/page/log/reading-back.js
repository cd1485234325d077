// Reading the journal back as far as something needs it: to the beginnings of records, by itself up to some size.

import { byEntries, earlier, hasEarlier, journal } from "./journal.js";
import { recordOf } from "./log-words.js";

const MOST = 64; // pieces that are read without anybody's asking

let left = MOST;

const makesRecord = ({ command, reply }) => ["request", "switch"].includes(command.do) && reply.reply === "accepted";
const begun = byEntries((entries) => new Set(entries.filter(makesRecord).map(recordOf)));

// Whether the command that made this record was read.
export const isBegun = (id) => begun().has(id);

// Reads on until the beginning of each of these was read, and this many entries, or no more is to be read by itself.
export async function readBackTo(ids, least = 0) {
  while (left > 0 && hasEarlier() && (journal.entries.length < least || !ids.every(isBegun))) {
    const { begin, file } = journal;
    left -= 1;
    await earlier();
    if (journal.begin === begin && journal.file === file) return; // no answer came
  }
}
