// Giving a command: its moment is looked at, it is sent once, and its reply goes to the replies.

import { viewAfter } from "../clearances/after-command.js";
import { noteGiven } from "../clearances/steps-given-out.js";
import { clockIsMeant, isNear, meantNow } from "../shared/clocks.js";
import { dropDraftOf } from "../shared/drafts.js";
import { noteTest } from "../shared/live-alarms.js";
import { secondsOfField, shortTime, span, wholeTime } from "../shared/moments.js";
import { agreed, ask } from "../shared/question.js";
import { isFresh, postCommand } from "../shared/register.js";
import { keepIn, readKept } from "../shared/storage.js";
import { asOwn } from "../shared/waiting-lists.js";
import { boardLine, isOldView, lookAt, lookNow, putView, room, viewOf } from "../shared/watch.js";
import { saidOf } from "./command-words.js";
import { giveAgain } from "./give-again.js";
import { addLost, addRefused, dropAnswered, knownBefore, lookUp } from "./not-known.js";
import { addReply, changeReply, onReplyAct, plainLines, repliesOf, replyOf } from "./replies.js";
import { isStillMeant } from "./still-meant.js";

const FAR = 120;     // seconds off the clock that are asked about
const PENDING = "gridclear-pending";
const TIMELESS = new Set(["jumper"]); // commands without a moment
const HALF = "The moment at the top is half written. Complete it, or use the clock.";
const DOUBLE = 1000; // milliseconds within which a second press is none

let caller = null;
let momentField = null;
let sending = false;
let since = 0; // when what is being sent was begun
const listeners = [];

export const setCaller = (name) => { caller = name; };

export const setMomentField = (input) => { momentField = input; };

// Listeners are called when a command goes out and when it is over.
export const onSending = (listener) => { listeners.push(listener); };

export const isSending = () => sending;

function noteSending(value) {
  sending = value;
  since = Date.now();
  for (const listener of listeners) listener();
}

// The moment that the operator has set, or that of the clock; null where the operator does not say which clock.
async function statedMoment() {
  const set = momentField?.value ? secondsOfField(momentField.value) : null;
  if (set !== null) return set;
  return (await clockIsMeant()) ? meantNow() : null;
}

// The register's last moment of the clearance is later: by how much, and which moment is to be sent.
async function notBeforeLast(command, at) {
  const last = command.clearance ? boardLine(command.clearance)?.last ?? null : null;
  if (last === null || last <= at) return { at, asked: false };
  const far = last - meantNow() > FAR;
  const answer = await ask("The register is ahead of this moment", [
    `The last moment of ${command.clearance} in the register is ${wholeTime(last)}.`,
    `The moment of this command is ${wholeTime(at)}, ${span(last - at)} before it: it would be refused (EARLIER).`,
    far ? `That last moment is ${span(last - meantNow())} after the clock. Is the clock right, or was a moment mistyped?` : "",
  ].filter(Boolean), [
    ["last", `Give it with ${shortTime(last)}`],
    ["same", "Give it as it is"],
    [null, "Do not give it"],
  ]);
  return answer === null ? null : { at: answer === "last" ? last : at, asked: far && answer === "last" };
}

async function nearTheClock(at) {
  const off = at - meantNow();
  if (isNear(at)) return true;
  return agreed("The moment is far from the clock", [
    `The moment of this command is ${wholeTime(at)}.`,
    `That is ${span(off)} ${off < 0 ? "before" : "after"} this desk's clock, ${wholeTime(meantNow())}.`,
    "The register takes it as it is, and takes nothing earlier for this clearance afterwards.",
  ], "Give it with this moment", "Do not give it");
}

async function momentFor(command) {
  const stated = await statedMoment();
  if (stated === null) return null;
  const found = await notBeforeLast(command, stated);
  if (!found) return null;
  if (!found.asked && !(await nearTheClock(found.at))) return null;
  return found.at;
}

function noteUnsent(command, text) {
  addReply({ kind: "unsent", said: saidOf(command), clearance: command.clearance, lines: plainLines(text) });
  return { accepted: false };
}

// Why it is not to be sent: its moment is none yet, or the record is another one than its control was made from. Where it was
// not looked at for a while it is looked at first. Null where it may be sent.
async function whyNot(command, seen) {
  const { clearance } = command;
  if (!TIMELESS.has(command.do) && momentField?.validity?.badInput) return HALF;
  if (!clearance || !seen) {
    if (!isFresh()) await asOwn(lookNow); // for the server's clock: this desk's may have been set meanwhile
    return null;
  }
  const answer = isOldView(clearance) ? await asOwn(() => lookAt(clearance)) : null;
  if (isOldView(clearance)) return `What is shown of ${clearance} is old, and no newer answer came${answer?.why ? `: ${answer.why}` : ""}.`;
  return isStillMeant(command, seen, viewOf(clearance)) ? null : `${clearance} has changed since this was shown. Look at it, and give the command then.`;
}

// Gives the command; the answer is whether it was accepted, with the clearance's name. `seen` is the view that its control
// was made from, if it was made from one.
export async function give(parts, seen = null) {
  const command = { by: caller, ...parts };
  if (sending) {
    if (Date.now() - since > DOUBLE) noteUnsent(command, "Another command still waits for its reply. Look at the replies, and give this one when that is over.");
    return { accepted: false };
  }
  noteSending(true);
  try {
    const why = await whyNot(command, seen);
    if (why) return noteUnsent(command, why);
    const at = TIMELESS.has(command.do) ? undefined : await momentFor(command);
    if (at === null) return noteUnsent(command, "You did not let it be sent. The register is as it was.");
    return await send({ ...command, at });
  } finally {
    noteSending(false);
  }
}

// What is given again is a command of its own: the first is not looked for any more.
onReplyAct("again", "Give it again", (reply) => {
  changeReply(reply, { kind: "found" });
  giveAgain(reply.asked.command, (parts) => give(parts, reply.asked.known.view));
});

// The command that is under way is kept in the tab's storage, so that a page that is loaded again meanwhile knows of it.
const keepPending = (pending) => { keepIn("sessionStorage", PENDING, pending); };

// What was under way when the page was loaded again: its reply is lost, or was lost before that.
export async function takeUpPending() {
  const pending = readKept("sessionStorage", PENDING);
  if (pending) addLost(pending.command, "the page was loaded again before it", pending.known);
  keepPending(null);
  if (!repliesOf("lost").length) return;
  noteSending(true);
  try {
    for (const reply of repliesOf("lost").reverse()) await lookUp(reply);
  } finally {
    noteSending(false);
  }
}

async function send(command) {
  const known = knownBefore(command);
  keepPending({ command, known });
  const answer = await postCommand(command), isKnown = answer.kind !== "lost" && answer.status !== 503;
  const isRefused = answer.body?.reply === "refused" && command.clearance;
  if (isRefused) await asOwn(() => lookAt(command.clearance)); // the sentence says what is there now
  const reply = isKnown ? addReply(await replyOf(command, answer)) : noteUnknown(command, answer, known);
  keepPending(null);
  dropAnswered();
  if (isKnown) return noteKnown(command, answer.body ?? {});
  await lookUp(reply);
  return { accepted: false };
}

function noteUnknown(command, { kind, why }, known) {
  noteTest(command, false, room);
  return kind === "lost" ? addLost(command, why, known) : addRefused(command, known);
}

async function noteKnown(command, body) {
  if (momentField) momentField.value = "";
  const accepted = ["accepted", "added"].includes(body.reply);
  if (accepted) noteAccepted(command, body.card);
  const id = body.card?.clearance ?? command.clearance, isShown = accepted && showAccepted(command, body.card);
  const look = id && accepted ? asOwn(() => lookAt(id)) : null;
  if (!isShown) await look;
  asOwn(lookNow);
  return { accepted, id };
}

// Whether what was accepted is shown without another answer of the register.
function showAccepted(command, card) {
  const view = viewOf(command.clearance), after = view && viewAfter(view, command, card);
  if (after) asOwn(() => putView(after));
  return Boolean(after);
}

function noteAccepted(command, card) {
  if (command.do === "instruct") noteGiven({ ...command, round: card.round }, isNear(command.at));
  noteTest(command, true, room);
  dropDraftOf(command);
}
