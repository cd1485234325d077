// What the page keeps of the register's answers, where the register is another one by now, or did not answer.

import assert from "node:assert/strict";
import test from "node:test";

globalThis.document = { hidden: false };
const wait = globalThis.setTimeout;
globalThis.setTimeout = (...parts) => wait(...parts).unref(); // the watch goes on for ever

const { choose, lookAt, lookNow, room, viewOf, watchAs } = await import("../../desk/page/shared/watch.js");

const { network } = await import("../../desk/page/shared/network.js");
const { recordRows } = await import("../../desk/page/board/board-page.js");

const viewWith = (phase) => ({ card: { clearance: "KIM/1", phase, holder: "KIM", round: 0, done: 0, steps: 0 }, crews: [], fence: [], holds: [], points: [], work: "L2", steps: [] });
const row = (phase, time) => `${"KIM/1".padEnd(29)} ${phase.padEnd(9)} ${"L2".padEnd(24)} 2026-11-24 ${time} +00:00 KIM\n`;

let board = row("Granted", "07:00:00"), shown = { reply: "shown", view: viewWith("Granted") }, status = 200, sections = [], late = 0, isCut = false;
globalThis.fetch = async (path) => {
  if (path === "board") return new Response(`head\n${board}`, { headers: { "Content-Type": "text/plain" } });
  if (path === "network") {
    if (late) await new Promise((settle) => { wait(settle, late); });
    if (isCut) throw new TypeError("cut off");
    return Response.json({ sections, points: [], staff: [] });
  }
  return path.startsWith("clearance/") ? Response.json(shown, { status }) : new Response("", { status: 404 });
};

await lookNow();
watchAs("NG");
await lookNow();

test("a view that was answered with 503 is asked for again", async () => {
  board = row("Released", "07:01:00");
  [shown, status] = [{ fault: "Unavailable" }, 503];
  await lookNow();
  assert.equal(viewOf("KIM/1").card.phase, "Granted");
  [shown, status] = [{ reply: "shown", view: viewWith("Released") }, 200];
  await lookNow();
  assert.equal(viewOf("KIM/1").card.phase, "Released");
});

test("a record that is open again, in a register that was restored, is no longer over", async () => {
  board = "";
  shown = { reply: "shown", view: viewWith("Closed") };
  await lookNow();
  assert.deepEqual([room.views.size, viewOf("KIM/1").card.phase], [0, "Closed"]);
  board = row("Granted", "07:00:00");
  shown = { reply: "shown", view: viewWith("Granted") };
  await lookNow();
  assert.deepEqual([room.closed.size, viewOf("KIM/1").card.phase], [0, "Granted"]);
});

test("a record that the register does not have any more is not shown", async () => {
  board = "";
  shown = { reply: "refused", refusal: "UNKNOWN_CALLER", number: 1 };
  await lookNow();
  assert.deepEqual([viewOf("KIM/1").card.phase, room.barred], ["Granted", "NG"]);
  shown = { reply: "refused", refusal: "UNKNOWN_CLEARANCE", number: 5 };
  await lookNow();
  assert.equal(viewOf("KIM/1"), undefined);
  shown = { reply: "shown", view: viewWith("Closed") };
  await lookAt("KIM/1");
  shown = { reply: "refused", refusal: "UNKNOWN_CLEARANCE", number: 5 };
  await lookAt("KIM/1");
  assert.equal(viewOf("KIM/1"), undefined);
});

test("a record that was not read is no record without work on the sheet of a hand-over", async () => {
  board = row("Granted", "07:02:00");
  await lookNow();
  assert.deepEqual(recordRows()[0].slice(0, 5), ["KIM/1", "Granted", "L2", "not read", "not read"]);
  shown = { reply: "shown", view: { ...viewWith("Granted"), crews: ["C1"] } };
  await lookAt("KIM/1");
  assert.deepEqual(recordRows()[0].slice(3, 5), ["no steps", "crews C1"]);
});

test("a second command of one second, which leaves the line as it was, is seen with the next board", async () => {
  board = row("Granted", "07:03:00");
  shown = { reply: "shown", view: { ...viewWith("Granted"), crews: ["C1"] } };
  await lookNow();
  shown = { reply: "shown", view: { ...viewWith("Granted"), crews: ["C1", "C2"] } };
  await lookNow();
  assert.deepEqual(viewOf("KIM/1").crews, ["C1", "C2"]);
});

test("the network is asked for where the chosen record has changed, though the board has not and it takes long", async () => {
  late = 60;
  choose("KIM/1");
  for (let turn = 0; turn < 3; turn++) await lookNow();
  sections = [{ section: "L2", source: false, live: false, holds: [] }];
  await lookNow();
  assert.equal(network.sections.size, 0);
  shown = { reply: "shown", view: { ...viewWith("Granted"), crews: [] } };
  for (let turn = 0; turn < 2; turn++) await lookNow();
  assert.equal(network.sections.size, 1);
});

test("a network that did not come is asked for with the next board, though that is the same and it takes long", async () => {
  late = 60;
  for (let turn = 0; turn < 3; turn++) await lookNow();
  room.turns = 9; // with the tenth it is asked for in any case
  isCut = true;
  await lookNow();
  assert.notEqual(room.unread, null);
  isCut = false;
  await lookNow();
  assert.equal(room.unread, null);
});
