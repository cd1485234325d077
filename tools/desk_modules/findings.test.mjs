// Ways, what is fed, and what is asked about a step.

import assert from "node:assert/strict";
import test from "node:test";

import { findingsAt } from "../../desk/page/orders/findings.js";
import { span } from "../../desk/page/shared/moments.js";
import { closingOf, fenceOf } from "../../desk/page/shared/ways.js";
import { Reckoning } from "../../desk/page/shared/feeding.js";
import { networkOf, ROW, statesOf } from "./network.mjs";

function found(rows, action, name, own = null) {
  const network = networkOf(rows), known = statesOf(network);
  return findingsAt({ network, states: () => known }, name, { action, own });
}

test("what becomes dead, and where more is than is named it asks with all names", () => {
  const [few] = found(ROW, "OPEN", "S3");
  assert.deepEqual([few.asks, few.text], [false, "makes C, D, E, F, H dead (this page's reckoning)"]);
  const [many] = found(ROW, "OPEN", "S1");
  assert.equal(many.asks, true);
  assert.match(many.text, /makes A, B, C, D, E, F and 1 more dead/);
  assert.match(many.asked, /makes A, B, C, D, E, F, H dead/);
});

test("where a step is given out at one of them it asks", () => {
  const rows = ROW.map(([name, ...rest]) => (name === "S7" ? [name, "F", "H", "closed", "LEE/1"] : [name, ...rest]));
  const [dead] = found(rows, "OPEN", "S5");
  assert.deepEqual([dead.asks, /where people are under LEE\/1/.test(dead.text)], [true, true]);
  assert.equal(found(rows, "OPEN", "S5", "LEE/1")[0].asks, false);
});

test("a harmless loop is said, and two sources that meet are asked about", () => {
  const [loop] = found(ROW, "CLOSE", "LOOP"), [joins] = found(ROW, "CLOSE", "TIE");
  assert.deepEqual([loop.asks, loop.loops, joins.asks], [false, true, true]);
  assert.match(joins.text, /joins the sources G and L|joins the sources L and G/);
});

test("a fence, and the way to a source", () => {
  const network = networkOf(ROW);
  const { sections, sources } = fenceOf(network, "D", new Set(["S4", "S5"]));
  assert.deepEqual([[...sections], sources], [["D"], []]);
  assert.deepEqual(fenceOf(network, "D", new Set(["S5"])).sources.map(({ source }) => source), ["G"]);
  const closing = (name) => closingOf(network, (one) => network.points.get(one).position, network.points.get(name));
  assert.deepEqual([closing("LOOP").loop, closing("TIE").joins], [["A", "S2", "B", "S3", "C", "LOOP", "A"], ["G", "L"]]);
});

test("moves one after another", () => {
  const network = networkOf(ROW), reckoning = new Reckoning(network, statesOf(network));
  reckoning.move("S7", "open");
  assert.deepEqual(reckoning.turned(), { live: [], dead: ["H"] });
  reckoning.move("TIE", "closed");
  assert.deepEqual(reckoning.turned(), { live: [], dead: [] });
});

test("how long", () => {
  assert.deepEqual([span(7), span(-200), span(7500), span(0)], ["7 seconds", "3 minutes 20 seconds", "2 hours 5 minutes", "0 seconds"]);
});

test("a step at a point that has that position already asks", () => {
  for (const [action, name, text] of [["CLOSE", "S3", "is closed already"], ["OPEN", "TIE", "is open already"]]) {
    const [first] = found(ROW, action, name);
    assert.deepEqual(first, { text, asks: true });
  }
  for (const [action, name] of [["OPEN", "S3"], ["CLOSE", "TIE"], ["LEAVE", "TIE"]]) assert.equal(found(ROW, action, name).some(({ text }) => /already/.test(text)), false);
});
