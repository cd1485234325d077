// What the top of the page says where something is amiss.

import assert from "node:assert/strict";
import test from "node:test";

globalThis.document = { hidden: true }; // which may have its last answer from earlier

const wait = globalThis.setTimeout;
globalThis.setTimeout = (...parts) => wait(...parts).unref(); // the watch goes on for ever

const { noteDrawn, titleOf, troubleWords } = await import("../../desk/page/shared/top.js");
const { getBoard } = await import("../../desk/page/shared/register.js");
const { lookNow } = await import("../../desk/page/shared/watch.js");

test("the title of the tab", () => {
  assert.equal(titleOf({ page: "Board", live: "", contact: "" }), "Board · gridclear desk");
  assert.equal(titleOf({ page: "Board", live: "TESTED LIVE A", contact: "NO ANSWER" }), "⚠ TESTED LIVE A; NO ANSWER · Board · gridclear desk");
});

test("what a fault of the page has left undrawn is not green", () => {
  assert.equal(troubleWords(), null);
  noteDrawn(false);
  assert.match(troubleWords().text, /what is shown may be old/);
  noteDrawn(true);
  assert.equal(troubleWords(), null);
});

test("a board that comes without the network is not green", async () => {
  const answers = { board: () => new Response("head\n", { headers: { "Content-Type": "text/plain" } }), normal: () => new Response("", { status: 404 }) };
  const network = () => Response.json({ sections: [], points: [], staff: [] }), cut = () => { throw new TypeError("cut off"); };
  globalThis.fetch = async (path) => answers[path]();
  for (const [answer, found] of [[network, null], [cut, /^The network could not be read since .* are those of /], [network, null]]) {
    answers.network = answer;
    await lookNow();
    await getBoard();
    if (found) assert.match(troubleWords().text, found);
    else assert.equal(troubleWords(), null);
  }
});
