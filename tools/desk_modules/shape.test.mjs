// The network as the register answers it: where the diagram has to be drawn again.

import assert from "node:assert/strict";
import test from "node:test";

import { network, takeNetwork } from "../../desk/page/shared/network.js";

let normal = null;
globalThis.fetch = async () => new Response(normal ?? "", { status: normal === null ? 404 : 200 });

const section = (name, source = false) => ({ section: name, source, live: source, holds: [] });
const point = (more = {}) => ({ point: "S1", from: "A", to: "B", lockable: true, remote: false, jumper: false, position: "closed", hand: null, holds: [], ...more });
const body = (points, source = true) => ({ sections: [section("A", source), section("B"), section("C")], points, staff: [] });

async function shapeOf(...parts) {
  await takeNetwork(body(...parts));
  return network.shape;
}

test("other ends, another source or a jumper that is one no longer give another shape, and positions the same", async () => {
  const first = await shapeOf([point()]);
  assert.equal(await shapeOf([point({ position: "open", hand: "KIM/1" })]), first);
  for (const other of [[[point({ to: "C" })]], [[point({ jumper: true })]], [[point()], false], [[]]]) assert.notEqual(await shapeOf(...other), first);
});

test("what comes with an update has the normal position that comes with it", async () => {
  const header = "point,from,to,lockable,remote,position\nS1,A,B,yes,no,closed\n";
  normal = header;
  await shapeOf([point({ to: "C" })]);
  await shapeOf([point()]);
  assert.equal(network.points.get("S1").normal, "closed");
  normal = `${header}S2,B,C,yes,no,open\n`;
  await shapeOf([point(), point({ point: "S2", from: "B", to: "C" })]);
  assert.deepEqual([...network.points.values()].map((one) => one.normal), ["closed", "open"]);
});
