// What the top says of standby, backup and disk; and of a server's clock that was set.

import assert from "node:assert/strict";
import test from "node:test";

globalThis.window = {}; // nothing is kept

const { keepingWords } = await import("../../desk/page/shared/keeping.js");
const { clockWords, noteDate } = await import("../../desk/page/shared/clocks.js");
const { journal } = await import("../../desk/page/log/journal.js");

const now = () => Math.floor(Date.now() / 1000);
const dateOf = (seconds) => new Date((now() + seconds) * 1000).toUTCString();
const row = (what, ago, limit, says, alarm = false) => ({ what, at: ago === null ? null : now() - ago, limit, says, alarm });
const said = (written, ...rows) => keepingWords({ written: now() - written, rows }).map(({ text, isAlarm }) => [text, isAlarm]);

test("each row is short while it is well", () => {
  assert.deepEqual(keepingWords(null), []);
  assert.deepEqual(said(5, row("standby", 12, 60, "has line 7"), row("disk", 20, 600, "4.2 GB free of 20 GB"), row("queue", 70, 600, "2 wait")), [
    ["standby 12 s ago", false], ["disk 4.2 GB free of 20 GB", false], ["queue 1 min ago, 2 wait", false]]);
  assert.match(said(5, row("backup", 7200, 93600, "verified 27 commands"))[0][0], /^backup .*[0-9]{2}:[0-9]{2}, verified 27 commands$/);
});

test("a row is an alarm where it says so, is older than its limit, or never was good; and so is an old file", () => {
  assert.deepEqual(said(5, row("standby", 61, 60, "has line 7"), row("backup", null, 93600, "none"), row("disk", 5, 600, "0 GB free", true)), [
    ["⚠ standby: last good 1 min ago; has line 7", true], ["⚠ backup: last good never; none", true], ["⚠ disk: last good 5 s ago; 0 GB free", true]]);
  assert.deepEqual(said(181)[0], ["⚠ standby, backup and disk were last looked at 3 min ago", true]);
  assert.deepEqual(said(179), []);
});

test("a server's clock that was set is said, with those who agree with this desk", () => {
  noteDate(dateOf(0));
  assert.equal(clockWords(), "");
  journal.last = { number: 7 };
  noteDate(dateOf(-600));
  assert.match(clockWords(), /10 minutes ahead of the server's. The server's was set back by 10 minutes at .*; nobody has given/);
  const entry = (number, by, ahead) => ({ number, received: now() - 600, command: { at: now() - 600 + ahead, by, do: "grant" } });
  journal.entries = [entry(7, "OLD", 600), entry(8, "KIM", 600), entry(9, "REED", 601), entry(10, "LEE", 0)];
  assert.match(clockWords(), /since then KIM, REED gave commands by a clock like this desk's$/);
  noteDate(dateOf(0));
  assert.equal(clockWords(), "");
});
