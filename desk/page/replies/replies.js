// The last twenty replies, in words, with their moments. The tab keeps them through a reload, so a reply is plain data: its
// lines are { class, parts }, a part is a text or { strong }, and what may be done about it is named.

import { el, button, panel } from "../shared/elements.js";
import { now, shortTime, wholeTime } from "../shared/moments.js";
import { keepIn, readKept } from "../shared/storage.js";
import { saidOf } from "./command-words.js";
import { cardWords, faultWords, refusalWords } from "./words.js";

const STORED = "gridclear-replies", MOST = 20;
const replies = readKept("sessionStorage", STORED) ?? [];
const acts = new Map(); // name: { text, does }
let node = null;
let count = replies[0]?.number ?? 0;

export function showReplies(where) {
  node = where;
  draw();
}

// What is done about a reply: `does` gets it.
export const onReplyAct = (name, text, does) => { acts.set(name, { text, does }); };

// What a reply is called, beside its colour and its sign.
const HEADS = {
  accepted: ["✓", "Accepted"],
  refused: ["✗", "Refused"],
  fault: ["✗", "Not carried out"],
  lost: ["?", "Reply lost"],
  open: ["?", "Not known"],
  found: ["?", "Not known, then looked up"],
  unsent: ["–", "Not sent"],
};

const linkTo = (id) => el("a", { href: `#/clearance/${id}` }, id);

export const line = (...parts) => ({ parts });

export const plainLines = (...texts) => texts.map((text) => line(text));

function refusedLines({ name, means, todo }) {
  return [{ class: "refusal", parts: [{ strong: means }] }, line({ strong: "What to do: " }, todo), { class: "hint", parts: [name] }];
}

function drawnLine({ class: kind, parts }) {
  return el("p", { class: kind }, parts.map((part) => (part.strong ? el("strong", {}, part.strong) : part)));
}

function act(reply, name) {
  changeReply(reply, { actions: [] });
  acts.get(name).does(reply);
}

function actionsOf(reply) {
  return el("div", { class: "answers" }, reply.actions.map((name) =>
    button(acts.get(name).text, () => act(reply, name), { "data-name": `${reply.number} ${acts.get(name).text}` })));
}

function item(reply) {
  const [sign, head] = HEADS[reply.kind];
  return el("li", { class: `reply ${reply.kind}`, "data-kind": reply.kind, "data-number": reply.number },
    el("h3", {}, el("span", { class: "sign", "aria-hidden": "true" }, sign), ` ${head} `,
      el("time", { title: wholeTime(reply.at) }, shortTime(reply.at))),
    el("p", { class: "said" }, reply.said),
    reply.lines.map(drawnLine),
    reply.actions?.length ? actionsOf(reply) : null,
    reply.clearance ? el("p", { class: "where" }, "Show ", linkTo(reply.clearance)) : null);
}

function draw() {
  if (!node) return;
  panel(node, replies.map((reply) => [reply.number, reply.version]), () =>
    replies.length ? replies.map(item) : [el("li", { class: "none" }, "No replies yet.")]);
}

function keep() {
  keepIn("sessionStorage", STORED, replies);
  draw();
}

// Of more replies than are kept, those are dropped that have the longest been settled.
function dropOldest() {
  const place = replies.findLastIndex(({ kind }) => kind !== "lost" && kind !== "open");
  replies.splice(place < 0 ? MOST : place, 1);
}

// Puts a reply on top; gives it back, so that it can be changed when more is known.
export function addReply(reply) {
  replies.unshift({ number: ++count, version: 0, at: now(), ...reply });
  if (replies.length > MOST) dropOldest();
  keep();
  return replies[0];
}

// What is found again as it was is not drawn, nor spoken, again.
export function changeReply(reply, changes) {
  if (Object.entries(changes).every(([name, value]) => JSON.stringify(reply[name]) === JSON.stringify(value))) return;
  Object.assign(reply, changes);
  reply.version += 1;
  keep();
}

export const repliesOf = (kind) => replies.filter((reply) => reply.kind === kind);

// What the register answered to a command, or the proxy in its place.
export async function replyOf(command, answer) {
  const clearance = answer.body?.card?.clearance ?? command.clearance;
  return { said: saidOf(command), clearance, command, ...await answered(command, answer) };
}

async function answered(command, { kind, status, body }) {
  if (kind === "barred") return { kind: "fault", lines: refusedLines(await faultWords(status)) };
  if (body.reply === "accepted") return { kind: "accepted", lines: plainLines(cardWords(body.card)) };
  if (body.reply === "added") return { kind: "accepted", lines: plainLines(`Jumper ${body.point} is in the register, open.`) };
  if (body.reply === "refused") return { kind: "refused", lines: refusedLines(await refusalWords(command, body)) };
  return { kind: "fault", lines: refusedLines(await faultWords(status, body)) };
}
