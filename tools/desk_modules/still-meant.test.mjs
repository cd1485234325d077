// A command is not sent where the record is another one by now than its control was made from, as after a sleep of the machine.

import assert from "node:assert/strict";
import test from "node:test";

globalThis.document = { hidden: false, getElementById: () => ({ textContent: "" }), querySelectorAll: () => [] };
globalThis.window = {}; // nothing is kept
const wait = globalThis.setTimeout;
globalThis.setTimeout = (...parts) => wait(...parts).unref(); // the watch goes on for ever

const { give, setCaller, setMomentField } = await import("../../desk/page/replies/commands.js");
const { repliesOf } = await import("../../desk/page/replies/replies.js");
const { isStillMeant } = await import("../../desk/page/replies/still-meant.js");
const { lookAt, lookNow, viewOf, watchAs } = await import("../../desk/page/shared/watch.js");

const card = (phase, round, holder = "KIM") => ({ clearance: "KIM/1", phase, holder, round, done: 0, steps: 1 });
const viewWith = (text, phase = "Ordered", round = 1) => ({ card: card(phase, round), crews: [], fence: ["L2"], holds: [], points: [], work: "L2", steps: [{ text, state: "Waiting", reader: null }] });
const INSTRUCT = { do: "instruct", clearance: "KIM/1", step: 1 };

let view = viewWith("OPEN S1"), sent = [], asked = [];
globalThis.fetch = async (path, { body } = {}) => {
  asked.push(path);
  if (path === "command") sent.push(JSON.parse(body));
  if (path === "command") return Response.json({ reply: "accepted", card: view.card });
  if (path === "board") return new Response("head\n", { headers: { "Content-Type": "text/plain" } });
  if (path === "network") return Response.json({ sections: [], points: [], staff: [] });
  if (!path.startsWith("clearance/")) return new Response("", { status: 404 });
  if (view === null) throw new TypeError("no answer");
  return Response.json({ reply: "shown", view });
};

// As if the machine had slept for a minute, in which one of its clocks went on.
let slept = 0;
const clock = Date.now;
Date.now = () => clock() + slept;
const sleep = () => { slept += 60000; };

const unsent = () => repliesOf("unsent").map(({ lines }) => lines[0].parts[0]);

await lookNow();
watchAs("NG");
setCaller("NG");
await lookAt("KIM/1");

test("a step of the same number in another round, or amended, is another step", () => {
  const seen = viewWith("CLOSE S1", "Restoring", 2);
  assert.equal(isStillMeant(INSTRUCT, seen, seen), true);
  assert.equal(isStillMeant(INSTRUCT, viewWith("OPEN S1"), viewWith("OPEN S1", "Restoring", 2)), false);
  assert.equal(isStillMeant({ ...INSTRUCT, do: "report" }, seen, viewWith("LEAVE S1", "Restoring", 2)), false);
  assert.equal(isStillMeant({ do: "grant" }, { card: card("Ordered", 1) }, { card: card("Ordered", 1, "LEE") }), false);
  assert.equal(isStillMeant({ do: "cancel" }, { card: card("Requested", 0) }, { card: card("Ordered", 1) }), false);
  assert.equal(isStillMeant({ do: "sign_off" }, seen, viewWith("OPEN S1")), true);
});

test("after a sleep the record is looked at first; where it has changed nothing is sent", async () => {
  const seen = viewOf("KIM/1");
  view = viewWith("UNTAG S1", "Restoring", 2);
  sleep();
  assert.equal((await give(INSTRUCT, seen)).accepted, false);
  assert.deepEqual([sent, unsent()], [[], ["KIM/1 has changed since this was shown. Look at it, and give the command then."]]);
  assert.equal(viewOf("KIM/1").steps[0].text, "UNTAG S1");
});

test("where it cannot be looked at nothing is sent", async () => {
  const seen = viewOf("KIM/1"), kept = view;
  view = null;
  sleep();
  await give(INSTRUCT, seen);
  assert.equal(sent.length, 0);
  assert.match(unsent()[0], /^What is shown of KIM\/1 is old, and no newer answer came/);
  view = kept;
});

test("where it is as it was the command is sent", async () => {
  const seen = viewOf("KIM/1");
  sleep();
  assert.equal((await give(INSTRUCT, seen)).accepted, true);
  assert.deepEqual(sent.map(({ do: what, step, by }) => [what, step, by]), [["instruct", 1, "NG"]]);
});

test("with a moment that is half written nothing is sent: a browser has no value of it", async () => {
  sent = [];
  setMomentField({ value: "", validity: { badInput: true } });
  await give(INSTRUCT, viewOf("KIM/1"));
  assert.deepEqual([sent, /half written/.test(unsent()[0])], [[], true]);
  setMomentField(null);
});

test("a request is sent after a look, for the server's clock, where the last one is long ago or the clock was set back", async () => {
  const setBack = () => { slept -= 3600000; };
  for (const pause of [null, sleep, setBack]) {
    pause?.();
    asked = [];
    await give({ do: "request", section: "L2" });
    assert.equal(asked.indexOf("board") >= 0 && asked.indexOf("board") < asked.indexOf("command"), pause !== null);
    await lookNow();
  }
});
