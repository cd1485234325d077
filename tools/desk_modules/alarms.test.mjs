// The alarm of a section that was tested live.

import assert from "node:assert/strict";
import test from "node:test";

globalThis.window = {}; // nothing is kept

const { alarms, noteRoom, noteTest } = await import("../../desk/page/shared/live-alarms.js");

const LIVE = { do: "test", clearance: "KIM/1", section: "L2", dead: false };
const hold = (kind) => ({ kind, place: "L2", by: "KIM/1" });
const viewWith = (...kinds) => ({ card: { clearance: "KIM/1", phase: "Granted", holder: "KIM" }, crews: [], fence: ["L2"], holds: kinds.map(hold), steps: [] });
const roomWith = (view) => ({ read: 1, board: [{ id: "KIM/1", phase: "Granted" }], views: new Map([["KIM/1", view]]) });

test("a view from before a test that was found live does not end its alarm, and one with a later test does", () => {
  noteRoom(roomWith(viewWith()));
  const before = roomWith(viewWith("Tested")); // it came before the reply, and is looked at after it
  noteTest(LIVE, true, before);
  noteRoom(before);
  assert.deepEqual(alarms().map(({ section, at }) => [section, at > 0]), [["L2", true]]);
  noteRoom(roomWith(viewWith()));
  assert.equal(alarms().length, 1);
  noteRoom(roomWith(viewWith("Tested")));
  assert.deepEqual(alarms(), []);
});
