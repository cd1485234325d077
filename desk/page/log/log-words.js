// The journal as a log: what each entry says in words, with the texts of steps, and the story of a record.

import { COMMANDS } from "../replies/command-words.js";
import { shortTime, span, wholeTime } from "../shared/moments.js";
import { isLackedByBoard } from "./board-lacks.js";
import { byEntries, journal } from "./journal.js";

const LATE = 60; // seconds from the stated moment to that of the machine that are said

const KINDS = { sections: "section", points: "point", staff: "employee" };

// The rows that an update changed, by name.
export function changedWords(changes) {
  return Object.entries(KINDS).flatMap(([key, kind]) => {
    const [come, go] = [changes[key].come, changes[key].go].map((rows) => rows.map(({ name }) => name));
    return [...go.map((name) => `${kind} ${name} ${come.includes(name) ? "changes" : "goes"}`), ...come.filter((name) => !go.includes(name)).map((name) => `${kind} ${name} comes`)];
  });
}

// What an entry says that is no command, in the words of `gridclear journal` too.
const OTHERS = {
  update: (c) => `update: ${changedWords(c).join(", ") || "nothing changes"}`,
  archive: (c) => `archive of what was closed before ${wholeTime(c.before)}`,
};

function wordsOf(command, text) {
  const logged = COMMANDS[command.do]?.logged ?? OTHERS[command.do];
  return logged ? logged(command, text) : command.do;
}

export const recordOf = ({ command, reply }) => command.clearance ?? reply.card?.clearance ?? null;
const isDone = ({ reply, withdrawn }) => !withdrawn && (reply.reply === "accepted" || reply.reply === "added");

// The texts of steps that were repeated: "JONES/1 1.3" and so on.
function repeatedTexts() {
  const repeats = journal.entries.filter((entry) => entry.command.do === "repeat" && isDone(entry));
  return new Map(repeats.map(({ command, reply }) => [`${command.clearance} ${reply.card.round}.${command.step}`, command.text]));
}

// Each entry as { entry, id, at, by, text, what, done }: `text` is that of its step, by its order; or, where that is not in
// the part that was read, by its repeat.
export const logRows = byEntries((entries) => {
  const orders = new Map(), repeated = repeatedTexts(); // record and round: the texts of its steps
  return entries.map((entry) => {
    const { command, reply } = entry, id = recordOf(entry), done = isDone(entry), round = reply.card?.round ?? 0;
    if (done && command.steps) orders.set(`${id} ${round}`, [...command.steps]);
    const texts = orders.get(`${id} ${round}`) ?? [];
    const text = command.step ? texts[command.step - 1] ?? repeated.get(`${id} ${round}.${command.step}`) ?? null : null;
    if (done && command.do === "amend" && text) texts[command.step - 1] = text.replace(/^CLOSE/, "LEAVE");
    return { entry, id, round, at: command.at ?? entry.received, by: command.by, text, done, what: wordsOf(command, text) };
  });
});

// Who gave it, with the login where that is another.
export function whoWords({ command, login }) {
  return login && login !== command.by ? `${command.by} (login ${login})` : command.by ?? "–";
}

// An accepted entry that the board lacks is not carried out yet.
export function lackingWords(entry) {
  return isLackedByBoard(entry) ? "the board lacks it: it is carried out when the register is started again" : "";
}

export function replyWords(entry) {
  const { reply, withdrawn } = entry;
  if (withdrawn) return "withdrawn: it was not carried out";
  if (isLackedByBoard(entry)) return `${reply.reply}; ${lackingWords(entry)}`;
  return reply.reply === "refused" ? `refused: ${reply.refusal}` : reply.reply;
}

// When the machine took it, where that is far from the moment that was stated.
export function lateWords({ command, received }) {
  if (command.at === undefined || Math.abs(received - command.at) <= LATE) return "";
  return `taken ${span(received - command.at)} ${received > command.at ? "later" : "earlier"}, at ${shortTime(received)}`;
}

const STEP_PARTS = { instruct: "given", repeat: "repeated", report: "reported" };

// The story of a record: for each step of each round who gave it, repeated it and reported it last, and all else that was
// done in its name. { steps: [{ round, number, text, given, repeated, reported }], others: rows }.
export function storyOf(id) {
  const steps = new Map(), others = [];
  for (const row of logRows().filter((one) => one.id === id && one.done)) {
    const { command } = row.entry, part = STEP_PARTS[command.do];
    if (!part || (command.do === "report" && !command.done)) {
      others.push(row);
      continue;
    }
    const key = `${row.round}.${command.step}`, step = steps.get(key) ?? { round: row.round, number: command.step, text: row.text };
    if (part === "given") step.repeated = step.reported = undefined;
    steps.set(key, { ...step, text: row.text ?? step.text, [part]: row });
  }
  return { steps: [...steps.values()].sort((a, b) => a.round - b.round || a.number - b.number), others };
}

const MADE = { OPEN: "open", CLOSE: "closed", LEAVE: "open" };

// How a point was moved last before this clearance opened it, { position, text, id }; null where what was read does not say.
export function movedBefore(clearance, point) {
  let last = null;
  for (const { entry, id, text, done } of logRows()) {
    const [action, name] = (text ?? "").split(" ");
    if (!done || name !== point || entry.command.do !== "report" || !entry.command.done || !MADE[action]) continue;
    if (id === clearance && action === "OPEN") return last;
    last = { position: MADE[action], text, id };
  }
  return null;
}

// The sections that were found live, { id, section, by, at }, and neither tested dead since nor given back.
export const liveByLog = byEntries(() => {
  const live = new Map();
  for (const { id, by, at, entry: { command }, done } of logRows()) {
    const { section } = command, name = `${id} ${section}`;
    if (done && command.do === "test") (command.dead ? live.delete(name) : live.set(name, { id, section, by, at }));
    if (done && command.do === "release") for (const [key, one] of live) if (one.id === id) live.delete(key);
  }
  return [...live.values()];
});

// The names of the rows of one kind that an update changed.
export const changedNames = (changes) => [...changes.go, ...changes.come].map(({ name }) => name);

// The points that an entry is about. Those of an update are rows, not names.
export function pointsIn({ entry, text }) {
  const { command } = entry;
  if (command.do === "update") return changedNames(command.points);
  return [...(command.points ?? []), ...(command.point ? [command.point] : []), ...[...(command.steps ?? []), ...(text ? [text] : [])].map((one) => one.split(" ")[1])];
}

// Those whom an entry names.
export function employeesIn({ entry }) {
  if (entry.command.do === "update") return changedNames(entry.command.staff);
  return [entry.command.by, entry.command.to, entry.reply.card?.holder].filter(Boolean);
}
