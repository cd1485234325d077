// What is shown once a command was accepted, before the register's own view comes.

import assert from "node:assert/strict";
import test from "node:test";

import { viewAfter } from "../../desk/page/clearances/after-command.js";

const card = (phase, round, steps = 1) => ({ clearance: "KIM/1", phase, holder: "KIM", round, done: 0, steps });
const view = (phase, round, text) => ({ card: card(phase, round), crews: [], holds: [], fence: [], steps: [{ text, state: "Waiting", reader: null }] });
const INSTRUCT = { do: "instruct", step: 1 };

test("the text of a step that was given out is the register's where it may be another by now", () => {
  assert.equal(viewAfter(view("Restoring", 2, "CLOSE S1"), INSTRUCT, card("Restoring", 2)), null); // amended at another desk
  assert.equal(viewAfter(view("Ordered", 1, "OPEN S1"), INSTRUCT, card("Restoring", 2)), null);    // shown before a machine slept
  assert.equal(viewAfter(view("Ordered", 1, "OPEN S1"), INSTRUCT, card("Ordered", 1, 2)), null);
  assert.equal(viewAfter(view("Switching", 1, "CLOSE S1"), INSTRUCT, card("Switching", 1)).steps[0].state, "Instructed");
  assert.equal(viewAfter(view("Ordered", 1, "OPEN S1"), INSTRUCT, card("Ordered", 1)).steps[0].state, "Instructed");
});

test("an order makes a round", () => {
  assert.equal(viewAfter({ ...view("Released", 1, "OPEN S1") }, { do: "restore", steps: ["CLOSE S1"] }, card("Restoring", 2)).steps[0].text, "CLOSE S1");
});
