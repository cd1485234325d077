// What the board lacks of the log: the register writes an accepted command into its journal first, and where the database
// refuses it after that, only the next opening carries it out.

import { journal } from "./journal.js";

export const lacking = { entry: null }; // the newest accepted entry, where the board lacks it

let known = 0; // the number of the newest entry that was read when the board before this one had come

// Whether a board that was read after this accepted entry, the newest, does not have it.
export function isLacking({ command, reply: { card } }, { board, jumpers }) {
  if (command.do === "jumper") return !jumpers.some(({ point }) => point === command.point);
  if (!card) return false; // an update or an archive
  const row = board.find(({ id }) => id === card.clearance);
  if (card.phase === "Closed") return row !== undefined;
  return row?.last !== command.at || row.phase !== card.phase || row.holder !== card.holder;
}

const isAccepted = ({ reply, withdrawn }) => !withdrawn && (reply.reply === "accepted" || reply.reply === "added");

// Whether nothing was accepted after this entry, as far as the log was read.
export function isNewest(entry) {
  return journal.entries.findLast(isAccepted)?.number === entry.number;
}

// With each board, before the log is read further: what the board is to have, if it was read before the board came.
export function dueOn({ board, jumpers }) {
  const entry = journal.entries.findLast((one) => isAccepted(one) && one.number <= known) ?? null;
  known = journal.entries.at(-1)?.number ?? 0;
  return { entry, board, jumpers };
}

// After that, once the log was read further: what was accepted since may have moved the record on. Null where it was not read.
export function noteLacking(due) {
  lacking.entry = due?.entry && isNewest(due.entry) && isLacking(due.entry, due) ? due.entry : null;
}

export function isLackedByBoard(entry) {
  return lacking.entry?.number === entry.number;
}
