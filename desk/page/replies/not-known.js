// A command of which it is not known whether it was carried out: its reply was lost, or the register answered 503. It is
// never sent again by itself. The page waits until the register answers, looks into the log where this desk has one and
// otherwise at the board, and says what it found before it offers the command again.

import { noteGiven } from "../clearances/steps-given-out.js";
import { isLacking, isNewest } from "../log/board-lacks.js";
import { isWhole, journal, newest } from "../log/journal.js";
import { loginUsed } from "../shared/caller.js";
import { isNear } from "../shared/clocks.js";
import { dropDraftOf } from "../shared/drafts.js";
import { shortTime } from "../shared/moments.js";
import { network } from "../shared/network.js";
import { contact, noteRefused } from "../shared/register.js";
import { asOwn } from "../shared/waiting-lists.js";
import { boardLine, lookAt, lookNow, room, viewOf } from "../shared/watch.js";
import { saidOf } from "./command-words.js";
import { isAccepted, judgeJumper, judgeLogged, judgeNew, judgeRecord } from "./outcome.js";
import { addReply, changeReply, line, onReplyAct, plainLines, repliesOf } from "./replies.js";

const WAIT = 3000; // between two looks

const newestNumber = () => journal.entries.at(-1)?.number ?? 0;

const lineOf = (command) => boardLine(command.clearance)?.line ?? null;

// What is known before a command is sent, for the case that its outcome is not known afterwards.
export function knownBefore(command) {
  const view = command.clearance ? viewOf(command.clearance) ?? null : null;
  const ids = [...room.closed.keys(), ...room.board.map((row) => row.id)];
  return { view, ids, existed: network.points.has(command.point), number: newestNumber(), near: isNear(command.at), line: lineOf(command) };
}

// What is new of this caller: a request or a switch order has no name before it is answered.
async function newRecords(command, known) {
  const rows = room.board.filter((row) => row.id.startsWith(`${command.by}/`) && !known.ids.includes(row.id));
  for (const { id } of rows) if (!viewOf(id)) await lookAt(id);
  return rows.map((row) => ({ row, view: viewOf(row.id) }));
}

async function judgedByBoard(command, known) {
  if (command.do === "jumper") return judgeJumper(command, known.existed, network.points.get(command.point));
  if (!command.clearance) return judgeNew(command, await newRecords(command, known));
  const answer = await lookAt(command.clearance), isShown = answer?.body?.reply === "shown"; // otherwise the view is from before
  return judgeRecord(command, known.view, isShown ? viewOf(command.clearance) : null, boardLine(command.clearance)?.last ?? null);
}

// The entries since then; all, where another journal has begun. Null where some of them are in a part that was not read.
function entriesSince(number) {
  const from = newestNumber() < number ? 0 : number, since = journal.entries.filter((entry) => entry.number > from);
  return isWhole() || journal.entries[0]?.number <= from + 1 ? since : null;
}

// A second command of one second leaves the record's line as it was. While the register takes no command, one that was
// answered with 503 is not carried out.
function lacksUnseen({ command, known, isRefused }) {
  return isRefused && contact.refused !== null && known.line !== null && known.line === lineOf(command);
}

async function judgedByLog(asked) {
  const isRead = await newest(), entries = isRead ? entriesSince(asked.known.number) : null, login = loginUsed();
  if (!entries || login === null) return null;
  const found = judgeLogged(asked.command, entries, login);
  const lacks = found.entry && isNewest(found.entry) && (isLacking(found.entry, room) || lacksUnseen(asked));
  return lacks ? { ...found, found: "waits", text: `${found.text} The board lacks it.` } : found;
}

// What the log says, where it can: one that has nothing of what the board shows is not this register's.
async function judged(asked) {
  const { command, known, isRefused } = asked, seen = await judgedByBoard(command, known), logged = await judgedByLog(asked);
  const isOther = logged?.found === "no" && seen.found === "yes" && !logged.explains;
  return !logged || isOther ? { ...seen, by: isRefused ? "The board" : `The board at ${shortTime(room.read)}` } : { ...logged, by: "The log", isLogged: true };
}

const pause = (milliseconds) => new Promise((settle) => setTimeout(settle, milliseconds));

async function untilAnswered() {
  while (!(await lookNow())) await pause(WAIT);
}

// A reply that says so at once.
export function addLost(command, why, known) {
  return addReply({
    kind: "lost", said: saidOf(command), clearance: command.clearance, asked: { command, why: `No reply came: ${why}.`, known },
    lines: plainLines(`No reply came: ${why}.`,
      "It may have been carried out, or may still be. It is not sent again by itself; the page looks for it as soon as the register answers."),
  });
}

const REFUSES = "The register answered 503: its database, its journal or its memory refuses.";

export function addRefused(command, known) {
  return addReply({
    kind: "open", said: saidOf(command), clearance: command.clearance, asked: { command, why: REFUSES, known, isRefused: true },
    lines: plainLines(REFUSES, "Whether it is carried out is not known: a restart of the register may do it. It is not sent again by itself; the page looks for it."),
  });
}

// Looks it up once the register answers.
export async function lookUp(reply) {
  await untilAnswered();
  if (reply.kind !== "found") await sayFound(reply);
}

const FOUND = {
  yes: "So it was carried out.",
  either: "So it was carried out: this command, or another desk's like it. The register does not say which.",
  refused: "So it was not carried out.",
  no: "So far it was not carried out.",
  waits: "It is carried out when the register is started again.",
  unknown: "Whether this command was carried out cannot be known from that.",
};
const OVER = ["yes", "either", "refused"], ANSWERED = ["accepted", "refused"];
const ACTS = { waits: ["look"], no: ["look", "again", "leave"], unknown: ["look", "again", "leave"] };
const MAY_STILL = "What waits before the register may still be carried out: look once more before you give the command again.";
const MAY_RESTART = "While the register answers commands with 503 it may still be carried out, by a restart.";
const NEVER = "So it was not carried out, and no restart carries it out.";

// Whether it is to be looked up with each board: the log has it and the board does not; or there is no log, and the
// register takes no command yet.
function staysOpen(reply, { found, isLogged }) {
  return found === "waits" || (reply.asked.isRefused && !isLogged && !OVER.includes(found) && contact.refused !== null);
}

// A register that answered 503 has nothing waiting before it; and it carries out alone what the log has.
function foundLines(reply, { found, text, by, isLogged }, stays) {
  const { isRefused } = reply.asked, so = isRefused && isLogged && found === "no" ? NEVER : FOUND[found];
  const further = isRefused ? (stays && found !== "waits" ? [MAY_RESTART] : []) : found === "no" || found === "unknown" ? [MAY_STILL] : [];
  return [line(reply.asked.why), { class: "finding", parts: [{ strong: `${by}: ` }, `${text} ${so}`] }, ...plainLines(...further)];
}

// What the log, or the board, says now. What was carried out is not offered again.
async function sayFound(reply) {
  const answer = await asOwn(() => judged(reply.asked)), stays = staysOpen(reply, answer);
  if (answer.found === "yes" || answer.found === "either") noteCarriedOut(reply.asked, answer.sure === true);
  changeReply(reply, { kind: stays ? "open" : "found", lines: foundLines(reply, answer, stays), actions: ACTS[answer.found] ?? [] });
  dropAnswered();
}

// What a command is about: of commands about the same the later one counts.
function aboutOf({ clearance, section, crew, step, steps, do: what }) {
  return JSON.stringify([clearance, section ?? crew ?? step ?? steps ?? what]);
}

// Whether one about the same was answered since: here, or by the log at another desk.
function isAnswered({ number, asked: { command, known } }) {
  const isSuch = (one) => one && aboutOf(one) === aboutOf(command);
  const logged = (known.number && entriesSince(known.number)) || [];
  return ANSWERED.flatMap(repliesOf).some((reply) => reply.number > number && isSuch(reply.command))
    || logged.some((entry) => isAccepted(entry) && isSuch(entry.command));
}

// What was answered since is not offered again.
export function dropAnswered() {
  for (const reply of ["open", "found"].flatMap(repliesOf)) {
    const left = reply.actions?.filter((name) => name !== "again");
    if (left && left.length < reply.actions.length && isAnswered(reply)) changeReply(reply, { actions: left });
  }
}

// `sure`: the log says that it was this desk's.
function noteCarriedOut({ command, known }, sure) {
  dropDraftOf(command);
  if (command.do === "instruct") noteGiven({ ...command, round: viewOf(command.clearance)?.card.round }, sure && known.near);
}

async function lookAgain(reply) {
  await untilAnswered();
  await sayFound(reply);
}

onReplyAct("look", "Look again", lookAgain);
onReplyAct("leave", "Leave it", (reply) => changeReply(reply, { kind: "found" }));

let shown = null; // the board and the log since the register takes no command
let turn = 0;     // the board at which was last looked
let busy = false;

// The register takes commands again where one has come to the board, or to the log.
function noteTaken() {
  const now = JSON.stringify([room.board.map((row) => row.line), newestNumber()]);
  if (shown !== null && shown !== now) noteRefused(null);
  shown = contact.refused === null ? null : now;
}

// With each board those are looked up that are still open, in the order in which they were given.
export async function lookUpOpen() {
  dropAnswered();
  const open = repliesOf("open").reverse();
  if (busy || turn === room.turns || (!open.length && contact.refused === null)) return;
  busy = true;
  turn = room.turns;
  try {
    await newest();
    noteTaken();
    for (const reply of open) if (reply.kind === "open") await sayFound(reply);
  } finally {
    busy = false;
  }
}

// After a reload it is known from what is still open that the register took no command.
export function recallRefused() {
  const [open] = repliesOf("open");
  if (open) noteRefused(open.at);
}
