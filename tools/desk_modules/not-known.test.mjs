// What is found of a command without a reply: by answers of the register and of the log that came after it, and by no older ones.

import assert from "node:assert/strict";
import test from "node:test";

globalThis.document = { hidden: false, getElementById: () => ({ textContent: "" }) };
globalThis.window = {}; // nothing is kept
const wait = globalThis.setTimeout;
globalThis.setTimeout = (...parts) => wait(...parts).unref(); // the watch goes on for ever

const { addLost, addRefused, knownBefore, lookUp } = await import("../../desk/page/replies/not-known.js");
const { lookNow, watchAs } = await import("../../desk/page/shared/watch.js");
const { journal, newest } = await import("../../desk/page/log/journal.js");

const CARD = { clearance: "KIM/1", phase: "Ordered", holder: "KIM", round: 1, done: 0, steps: 1 };
const INSTRUCT = { at: 1795503600, by: "NG", clearance: "KIM/1", do: "instruct", step: 1 };
const pad = (text, size) => text.padEnd(size);
const boardOf = (last) => `head\n${pad("KIM/1", 29)} ${pad("Ordered", 9)} ${pad("L2", 24)} 2026-11-24 ${last}:00 +00:00 KIM\n`;
const viewOf = (state) => ({ card: CARD, crews: [], fence: ["L2"], holds: [], points: [], work: "L2", steps: [{ text: "OPEN S1", state, reader: null }] });
const line = (number, command) => `${JSON.stringify({ command, login: null, number, received: command.at, reply: { card: CARD, reply: "accepted" }, sum: `s${number}` })}\n`;

// What is answered at each address: a text, JSON, or nothing.
const answers = new Map([["network", { sections: [], points: [], staff: [] }], ["board", boardOf("06:59")], ["clearance/NG/KIM/1", { reply: "shown", view: viewOf("Waiting") }]]);

function ranged(text, range) {
  const whole = new TextEncoder().encode(text), [, begin, end] = /^bytes=(\d*)-(\d*)$/.exec(range), from = begin === "" ? Math.max(0, whole.length - Number(end)) : Number(begin);
  if (from >= whole.length) return new Response("", { status: 416, headers: { "Content-Range": `bytes */${whole.length}` } });
  return new Response(whole.slice(from), { status: 206, headers: { "Content-Range": `bytes ${from}-${whole.length - 1}/${whole.length}` } });
}

globalThis.fetch = async (path, { headers = {} } = {}) => {
  const answer = answers.get(path);
  if (answer === null) throw new TypeError("no answer");
  if (answer === undefined) return new Response("", { status: 404 });
  if (headers.Range) return ranged(answer, headers.Range);
  return typeof answer === "string" ? new Response(answer, { headers: { "Content-Type": "text/plain" } }) : Response.json(answer);
};

async function found(reply) {
  await lookUp(reply);
  return [reply.kind, reply.lines.flatMap(({ parts }) => parts.map((part) => part.strong ?? part)).join(" "), reply.actions];
}

answers.set("journal", line(1, { ...INSTRUCT, do: "switch" }));
await newest();
await lookNow();
watchAs("NG");
await lookNow();

test("a log that could not be read since is no log without a line", async () => {
  assert.equal(journal.state, "read");
  const reply = addRefused(INSTRUCT, knownBefore(INSTRUCT));
  answers.set("journal", null);
  const [, text] = await found(reply);
  assert.doesNotMatch(text, /The log|no restart carries it out/);
});

test("a record that could not be looked at again is not judged by what was shown before", async () => {
  const reply = addLost(INSTRUCT, "lost", knownBefore(INSTRUCT));
  answers.set("clearance/NG/KIM/1", null);
  answers.set("board", boardOf("07:00"));
  answers.set("journal", undefined);
  const [, text] = await found(reply);
  assert.match(text, /could not be looked at/);
  assert.doesNotMatch(text, /not carried out/);
});
