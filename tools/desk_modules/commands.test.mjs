// The words of each command, what is shown after one, what the board lacks of the log, who is offered what, who gives at a
// desk that speaks for several, and the title of the tab.

import assert from "node:assert/strict";
import { readFileSync } from "node:fs";
import test from "node:test";

import { viewAfter } from "../../desk/page/clearances/after-command.js";
import { momentInOrder } from "../../desk/page/clearances/last-moment.js";
import { giverUnder, keepGiver } from "../../desk/page/clearances/several-names.js";
import { offersOf, presentStep } from "../../desk/page/clearances/offers.js";
import { isLacking } from "../../desk/page/log/board-lacks.js";
import { COMMANDS } from "../../desk/page/replies/command-words.js";

const STAFF = new Map([["NG", { name: "NG", role: "operator" }], ["KIM", { name: "KIM", role: "charge" }], ["REED", { name: "REED", role: "field" }]]);
const card = (phase) => ({ clearance: "KIM/1", phase, holder: "KIM", round: 1, done: 0, steps: 2 });
const view = (phase, state) => ({ card: card(phase), crews: [], holds: [], fence: [], steps: [{ text: "OPEN S1", state, reader: null }, { text: "TAG S1", state: "Waiting", reader: null }] });

test("the page has words for each command of RULES but show", () => {
  const rules = readFileSync(new URL("../../docs/RULES.md", import.meta.url), "utf8");
  const names = [...rules.matchAll(/^\| \*\*`(\w+)/gm)].map(([, name]) => name).filter((name) => name !== "show");
  assert.deepEqual(Object.keys(COMMANDS).sort(), names.sort());
  for (const name of names) assert.ok(COMMANDS[name].said && COMMANDS[name].logged, name);
});

test("a cancel is offered while no step is out", () => {
  const offered = (phase, state) => offersOf(view(phase, state), STAFF).map(({ does }) => does);
  for (const phase of ["Ordered", "Switching"]) {
    assert.ok(offered(phase, "Waiting").includes("cancel"));
    for (const state of ["Instructed", "Repeated"]) assert.ok(!offered(phase, state).includes("cancel"));
  }
});

test("a step goes on by its own command, and nothing else changes", () => {
  const states = [["instruct", {}, "Instructed"], ["repeat", { by: "REED" }, "Repeated"], ["report", { done: true }, "Done"], ["report", { done: false }, "Waiting"]];
  for (const [what, more, state] of states) {
    const after = viewAfter(view("Ordered", "Waiting"), { do: what, step: 1, ...more }, card("Ordered"));
    assert.equal(after.steps[0].state, state);
    assert.deepEqual(after.steps[1], view("Ordered", "Waiting").steps[1]);
  }
});

test("an order that was given has its steps, so that no grant is offered", () => {
  const after = viewAfter({ ...view("Requested"), steps: [] }, { do: "order", steps: ["OPEN S1"] }, card("Ordered"));
  assert.deepEqual(offersOf(after, STAFF).map(({ does }) => does).filter((does) => does === "grant"), []);
});

test("a test is shown only once the register shows it", () => {
  assert.equal(viewAfter(view("Granted"), { do: "test", section: "A", dead: true }, card("Granted")), null);
});

test("what the board lacks of the newest accepted entry", () => {
  const entry = { command: { at: 1000, do: "sign_off" }, reply: { card: card("Granted") } };
  const row = { id: "KIM/1", last: 1000, phase: "Granted", holder: "KIM" };
  const lacks = (board, one = entry) => isLacking(one, { board, jumpers: [] });
  assert.equal(lacks([row]), false);
  assert.equal(lacks([{ ...row, last: 999 }]), true);
  assert.equal(lacks([]), true);
  const closing = { ...entry, reply: { card: card("Closed") } };
  assert.deepEqual([lacks([row], closing), lacks([], closing)], [true, false]);
  assert.equal(isLacking({ command: { do: "jumper", point: "J1" }, reply: {} }, { board: [], jumpers: [{ point: "J1" }] }), false);
});

test("the last moment of a printed order", () => {
  assert.equal(momentInOrder("ORDER KIM/1 ROUND 1\nLAST 2026-11-24 07:02:00 +00:00\n  1 OPEN S1"), 1795503720);
  assert.equal(momentInOrder("none"), null);
});

test("nobody gives in a name that was chosen before another came to the top", () => {
  assert.equal(giverUnder("NG"), "NG");
  keepGiver("DISP2", "NG");
  assert.deepEqual([giverUnder("NG"), giverUnder("BERT")], ["DISP2", "BERT"]);
  keepGiver("", "NG");
  assert.equal(giverUnder("NG"), "");
});

test("what a cancel has left of an order is no step to be done", () => {
  for (const phase of ["Ordered", "Restoring", "Switching"]) assert.equal(presentStep(view(phase, "Waiting")).number, 1);
  for (const phase of ["Released", "Closed"]) assert.equal(presentStep(view(phase, "Waiting")), null);
});
