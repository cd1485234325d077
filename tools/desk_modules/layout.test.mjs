// The diagram's layout: a function of the file's network alone.

import assert from "node:assert/strict";
import test from "node:test";

import { partsOf, pointBox, sectionBox } from "../../desk/page/diagram/boxes.js";
import { layOut } from "../../desk/page/diagram/layout.js";
import { networkOf, ROW } from "./network.mjs";

const placesOf = ({ spots, edges }) => [Object.fromEntries([...spots].map(([name, { x, y }]) => [name, [x, y]])), Object.fromEntries(edges.map(({ point, x, y, path }) => [point.name, [x, y, path]]))];
const laid = (rows, change = () => {}) => {
  const network = networkOf(rows);
  for (const point of network.points.values()) point.jumper = point.name.startsWith("JUMPER");
  change(network);
  return placesOf(layOut(network));
};
const normally = (positions) => (network) => { for (const point of network.points.values()) if (!point.jumper) point.normal = positions[point.name] ?? "closed"; };
const JUMPERS = [["JUMPER1", "B", "K", "closed"], ["JUMPER2", "E", "NEW", "open"], ["JUMPER3", "B", "K", "open"]];

test("positions of now move nothing, whether a normal one is known or not", () => {
  const turned = ROW.map(([name, from, to, position]) => [name, from, to, position === "open" ? "closed" : "open"]);
  assert.deepEqual(laid(turned), laid(ROW));
  const normal = normally({ TIE: "open", LOOP: "open" });
  assert.deepEqual(laid(turned, normal), laid(ROW, normal));
});

test("jumpers move nothing, and what they alone join lies below", () => {
  const [sections, points] = laid(ROW), [more, lines] = laid([...ROW, ...JUMPERS]);
  for (const name of Object.keys(sections)) assert.deepEqual(more[name], sections[name]);
  for (const name of Object.keys(points)) assert.deepEqual(lines[name], points[name]);
  assert.equal(more.NEW[1] > Math.max(...Object.values(sections).map(([, y]) => y)), true);
  assert.notDeepEqual(lines.JUMPER1, lines.JUMPER3);
});

test("a network of jumpers alone is laid out too", () => {
  const [sections] = laid([["JUMPER1", "G", "L", "open"]]);
  assert.deepEqual(Object.keys(sections).sort(), ["G", "L"]);
  assert.notDeepEqual(sections.G, sections.L);
});

test("a feeder keeps its row over the points that are normally closed", () => {
  const [sections] = laid(ROW, normally({ TIE: "open", LOOP: "open" }));
  assert.equal(new Set(["G", "A", "B", "C", "D", "E", "F", "H"].map((name) => sections[name][1])).size, 1);
  assert.notEqual(sections.K[1], sections.G[1]);
});

test("a generator at the end of a feeder is drawn there, and the breaker of its feeder on the feeder's row", () => {
  const rows = [["G-CB", "GEN", "A3"], ["HD", "HV", "BUS"], ["CB-A", "BUS", "A1"], ["A12", "A1", "A2"], ["A23", "A2", "A3"],
    ["CB-B", "BUS", "B1"], ["B12", "B1", "B2"], ["B23", "B2", "B3"], ["CB-C", "BUS", "C1"], ["C12", "C1", "C2"], ["C23", "C2", "C3"]];
  const network = networkOf(rows.map((row) => [...row, "closed"]), ["GEN", "HV"]);
  const [sections, points] = placesOf(layOut(network)), across = ["HV", "BUS", "A1", "A2", "A3", "GEN"].map((name) => sections[name]);
  assert.deepEqual(across.map(([x]) => x), across.map(([x]) => x).sort((a, b) => a - b));
  assert.equal(new Set(across.slice(2).map(([, y]) => y)).size, 1);
  assert.equal(points["CB-A"][1], sections.A1[1]);
});

test("the line of a jumper runs through no section and no point, whatever it joins", () => {
  const names = ["G", "A", "B", "C", "D", "E", "F", "H", "K", "L"];
  const overlap = (one, other) => one[0] < other[2] && other[0] < one[2] && one[1] < other[3] && other[1] < one[3];
  for (const one of names) {
    for (const other of names.filter((name) => name > one)) {
      const network = networkOf([...ROW, ["JUMPER1", one, other, "open"]]);
      network.points.get("JUMPER1").jumper = true;
      const { spots, edges } = layOut(network), line = edges.find(({ point }) => point.jumper);
      const boxes = [...[...spots.values()].map((spot) => [spot.name, sectionBox(spot)]), ...edges.filter((edge) => edge !== line).map((edge) => [edge.point.name, pointBox(edge)])];
      const through = boxes.filter(([, box]) => partsOf(line.path).some((part) => overlap(part, box))).map(([name]) => name);
      assert.deepEqual(through, [], `${one} to ${other}`);
    }
  }
});
