// The journal, read from its end backwards and through its parts; how old a record is.

import assert from "node:assert/strict";
import test from "node:test";

import { ageWords } from "../../desk/page/board/ages.js";
import { dueOn, lacking, noteLacking } from "../../desk/page/log/board-lacks.js";
import { earlier, hasEarlier, isWhole, journal, newest } from "../../desk/page/log/journal.js";
import { sectionsIn } from "../../desk/page/log/log-search.js";
import { employeesIn, logRows, pointsIn, replyWords, whoWords } from "../../desk/page/log/log-words.js";
import { isBegun, readBackTo } from "../../desk/page/log/reading-back.js";

const files = new Map(); // path: text, as a proxy serves it

// A proxy that serves these files by ranges, and the list of the parts.
globalThis.fetch = async (path, { headers = {} } = {}) => {
  if (path === "journals/") return Response.json([...files.keys()].filter((name) => name !== "journal").map((name) => ({ name: name.slice(9), type: "file" })));
  const whole = new TextEncoder().encode(files.get(path) ?? ""), [, begin, end] = /^bytes=(\d*)-(\d*)$/.exec(headers.Range);
  if (!files.has(path)) return new Response("", { status: 404 });
  const from = begin === "" ? Math.max(0, whole.length - Number(end)) : Number(begin), to = begin === "" || end === "" ? whole.length : Number(end) + 1;
  if (from >= whole.length) return new Response("", { status: 416, headers: { "Content-Range": `bytes */${whole.length}` } });
  return new Response(whole.slice(from, to), { status: 206, headers: { "Content-Range": `bytes ${from}-${Math.min(to, whole.length) - 1}/${whole.length}` } });
};

// A sum that is another for the line of another register.
const sum = (number, at) => `${at}-${number}`;
const line = (number, at = 1000) => `${JSON.stringify({ command: { at: at + number, by: "OPS", do: "switch", steps: ["OPEN S1"] }, login: null, number, received: at + number, reply: { card: { clearance: `OPS/${number}`, round: 1 }, reply: "accepted" }, sum: sum(number, at) })}\n`;
const first = (number, at = 1000) => `${JSON.stringify({ journal: `id ${at}`, number, rules: 1, sum: sum(number, at) })}\n`;
// A part with these numbers, after its first line.
const part = (begin, end, at) => first(begin - 1, at) + Array.from({ length: end - begin + 1 }, (_, place) => line(begin + place, at)).join("");
const numbers = () => journal.entries.map(({ number }) => number);
const upTo = (last, first = 1) => Array.from({ length: last - first + 1 }, (_, place) => first + place);

test("a journal that is rotated while it is read, and one that is read after", async () => {
  files.set("journal", part(1, 20));
  await newest();
  assert.deepEqual([numbers(), isWhole(), journal.last.number, journal.last.sum], [upTo(20), true, 20, sum(20, 1000)]);
  files.set("journals/journal-2026-01-01T000000Z", part(1, 20));
  files.set("journal", first(20));
  await newest();
  assert.deepEqual([numbers(), isWhole(), journal.last.sum], [upTo(20), true, sum(20, 1000)]);
  files.set("journal", part(21, 23));
  await newest();
  assert.deepEqual([numbers(), isWhole()], [upTo(23), true]);
  files.set("journal", part(21, 24) + line(25).slice(0, 9));
  await newest();
  assert.deepEqual([numbers(), journal.last.number], [upTo(24), 24]);
});

test("a new register, whose journal has no command yet", async () => {
  files.clear();
  files.set("journal", first(0, 3000));
  await newest();
  assert.deepEqual([numbers(), isWhole(), hasEarlier(), journal.last.number], [[], true, false, 0]);
});

test("another register's journal is read from its end, and back as far as a record needs it", async () => {
  files.clear();
  files.set("journals/journal-2026-01-01T000000Z", part(1, 3, 5000));
  files.set("journals/journal-2026-01-02T000000Z", `${part(4, 8, 5000)}{"number":8,"sum":"s","withdrawn":true}\n`);
  files.set("journals/journal-2026-01-02T000000Z-wal", "none of the parts");
  files.set("journals/room.db", "none of the parts");
  files.set("journal", part(9, 10, 5000));
  await newest();
  assert.deepEqual([numbers(), isWhole(), hasEarlier()], [[9, 10], false, true]);
  await readBackTo(["OPS/6"]);
  assert.deepEqual([numbers(), isBegun("OPS/6"), isBegun("OPS/2")], [upTo(10, 4), true, false]);
  assert.equal(journal.entries.find(({ number }) => number === 8).withdrawn, true);
  await earlier();
  assert.deepEqual([numbers(), isWhole(), hasEarlier()], [upTo(10), true, false]);
});

test("an update and an archive are entries, between commands and as the last lines of a part", async () => {
  const none = { come: [], go: [] }, updated = { points: { come: [{ name: "S7" }], go: [{ name: "S7" }] }, sections: { come: [{ name: "X9", source: false }], go: [] }, staff: { come: [{ name: "KIM" }], go: [{ name: "KIM" }, { name: "DALE" }] } };
  const changed = (number, what) => `${JSON.stringify({ ...what, number, received: 7000, sum: sum(number, 6000) })}\n`;
  files.clear();
  files.set("journal", first(0, 6000) + changed(1, { updated }) + line(2, 6000));
  await newest();
  assert.deepEqual([numbers(), isWhole()], [upTo(2), true]);
  files.set("journal", files.get("journal") + changed(3, { archived: { before: 6000 } }) + line(4, 6000) + changed(5, { updated: { points: none, sections: none, staff: none } }));
  await newest();
  assert.deepEqual([numbers(), isWhole(), journal.last.number], [upTo(5), true, 5]);
  for (let board = 0; board < 2; board++) noteLacking(dueOn({ board: [], jumpers: [] }));
  assert.equal(lacking.entry, null);
  files.set("journals/journal-2026-01-01T000000Z", files.get("journal"));
  files.set("journal", first(5, 6000) + line(6, 6000));
  await newest();
  assert.deepEqual([numbers(), isWhole()], [upTo(6), true]);
  const rows = logRows();
  assert.deepEqual([rows[0].what, rows[4].what], ["update: section X9 comes, point S7 changes, employee KIM changes, employee DALE goes", "update: nothing changes"]);
  assert.match(rows[2].what, /^archive of what was closed before /);
  assert.deepEqual([rows[0].id, rows[0].at, whoWords(rows[0].entry), replyWords(rows[0].entry)], [null, 7000, "–", "accepted"]);
  assert.deepEqual([pointsIn(rows[0]), employeesIn(rows[0]), sectionsIn(rows[0])], [["S7", "S7"], ["KIM", "DALE", "KIM"], ["X9"]]);
  for (const row of rows) assert.ok([pointsIn(row), employeesIn(row), sectionsIn(row)].every(Array.isArray), row.what);
});

test("a board lacks the newest accepted entry alone, and only where nothing was accepted since", async () => {
  const row = (id, last) => ({ id, last, phase: "Switching", holder: "OPS" }), card = (id) => ({ clearance: id, round: 1, phase: "Switching", holder: "OPS" });
  const moved = (number) => `${JSON.stringify({ command: { at: number, by: "OPS", clearance: "OPS/1", do: "instruct", step: 1 }, login: null, number, received: number, reply: { card: card("OPS/1"), reply: "accepted" }, sum: sum(number, 7500) })}\n`;
  files.clear();
  files.set("journal", first(0, 7500) + moved(1));
  await newest();
  const looked = async (last) => {
    const due = dueOn({ board: [row("OPS/1", last)], jumpers: [] });
    await newest();
    noteLacking(due);
    return lacking.entry?.number ?? null;
  };
  assert.deepEqual([await looked(1), await looked(1)], [null, null]);
  files.set("journal", files.get("journal") + moved(2)); // by another desk, before the next board
  assert.equal(await looked(2), null);
  assert.deepEqual([await looked(2), await looked(2)], [null, null]);
  files.set("journal", files.get("journal") + moved(3)); // and this one is not carried out
  assert.deepEqual([await looked(2), await looked(2)], [null, null]);
  assert.equal(await looked(2), 3);
});

test("the line of an update that is longer than a piece", async () => {
  const go = [], come = Array.from({ length: 40000 }, (_, place) => ({ name: `SECTION${place}`, source: false }));
  const updated = { points: { come: [], go }, sections: { come, go }, staff: { come: [], go } };
  files.clear();
  files.set("journal", `${part(1, 3, 8000)}${JSON.stringify({ number: 4, received: 8004, sum: sum(4, 8000), updated })}\n`);
  await newest();
  assert.deepEqual([numbers().at(-1), journal.last.number], [4, 4]);
  files.set("journal", files.get("journal") + line(5, 8000));
  await newest();
  await readBackTo(["OPS/1"]);
  assert.deepEqual([numbers(), isBegun("OPS/1"), isWhole()], [upTo(5), true, true]);
  files.clear();
  files.set("journal", `${part(1, 3, 9000)}${JSON.stringify({ number: 4, received: 9004, sum: sum(4, 9000), updated })}\n${line(5, 9000)}`);
  await newest();
  await readBackTo(["OPS/1"]);
  assert.deepEqual([numbers(), isBegun("OPS/1"), isWhole()], [upTo(5), true, true]);
});

test("a part that is gone", async () => {
  files.clear();
  files.set("journal", part(30, 31));
  await newest();
  await readBackTo(["OPS/6"]);
  assert.deepEqual([numbers(), isWhole(), hasEarlier()], [[30, 31], false, false]);
});

test("ages", () => {
  assert.deepEqual([ageWords(59), ageWords(3599), ageWords(3661), ageWords(172800)], ["0 min", "59 min", "1 h 1 min", "2 days"]);
});
