// Whether the register takes commands, as far as the page knows.

import assert from "node:assert/strict";
import test from "node:test";

import { contact, getBoard, postCommand } from "../../desk/page/shared/register.js";

const html = (status, title) => new Response(`<html><head><title>${title}</title></head></html>`, { status, headers: { "Content-Type": "text/html" } });
const board = () => new Response("head\n", { headers: { "Content-Type": "text/plain" } });

async function asked(answer) {
  globalThis.fetch = async () => answer();
  return getBoard();
}

async function refused() {
  globalThis.fetch = async () => Response.json({ fault: "Unavailable" }, { status: 503 });
  await postCommand({ do: "grant" });
  assert.notEqual(contact.refused, null);
}

test("a register that takes no command still takes none after an answer that was lost on the way", async () => {
  await refused();
  for (const lost of [() => { throw new TypeError("lost"); }, () => html(504, "504 Gateway Time-out")]) {
    assert.equal((await asked(lost)).kind, "lost");
    await asked(board);
    assert.notEqual(contact.refused, null);
  }
});

test("once nothing was there it was started again", async () => {
  await refused();
  await asked(() => html(502, "502 Bad Gateway"));
  assert.notEqual(contact.refused, null);
  await asked(board);
  assert.equal(contact.refused, null);
});

test("what the proxy says in words, where no register is there, is shown", async () => {
  const words = "502: no register answers. After a fault it starts again by itself";
  const answer = await asked(() => new Response(`${words}\n`, { status: 502, headers: { "Content-Type": "text/plain; charset=utf-8" } }));
  assert.deepEqual([answer.kind, answer.status, answer.why], ["lost", 502, `the proxy said ${words}`]);
  assert.equal((await asked(() => html(504, "504 Gateway Time-out"))).why, "the proxy said 504, Gateway Time-out");
});
