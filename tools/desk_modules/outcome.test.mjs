// What became of a command without a reply, by the log and by the record.

import assert from "node:assert/strict";
import test from "node:test";

import { judgeLogged, judgeRecord } from "../../desk/page/replies/outcome.js";

const INSTRUCT = { at: 1000, by: "NG", clearance: "KIM/1", do: "instruct", step: 8 };
const CARD = { clearance: "KIM/1", phase: "Granted", holder: "KIM", round: 1, done: 9, steps: 9 };
const accepted = (number, login, command = INSTRUCT) => ({ number, login, command, reply: { reply: "accepted", card: CARD } });
const refused = (number, login, command = INSTRUCT) => ({ number, login, command, reply: { reply: "refused", refusal: "STEP_STATE" } });

test("another login's act in the same second is not this desk's", () => {
  const found = judgeLogged(INSTRUCT, [accepted(7, "bert"), refused(8, "anna")], "anna");
  assert.equal(found.found, "refused");
  assert.match(found.text, /Number 8 was refused \(STEP_STATE\)/);
});

test("this desk's own line, however its keys are ordered", () => {
  const { step, ...rest } = INSTRUCT;
  const found = judgeLogged({ step, ...rest, emergency: undefined }, [accepted(7, "anna")], "anna");
  assert.equal(found.found, "yes");
  assert.equal(found.sure, true);
  assert.equal(judgeLogged(INSTRUCT, [accepted(7, null)], "").sure, false);
});

test("two like lines without logins are not distinguished", () => {
  assert.equal(judgeLogged(INSTRUCT, [accepted(7, null), refused(8, null)], "").found, "either");
  assert.equal(judgeLogged(INSTRUCT, [refused(7, null), refused(8, null)], "").found, "refused");
});

test("no line: not carried out, and whether another's act explains what is seen", () => {
  assert.deepEqual([judgeLogged(INSTRUCT, [], "anna").found, judgeLogged(INSTRUCT, [], "anna").explains], ["no", false]);
  assert.equal(judgeLogged(INSTRUCT, [accepted(7, "bert", { ...INSTRUCT, by: "HALL" })], "anna").explains, true);
});

test("a line that was withdrawn was not carried out", () => {
  assert.equal(judgeLogged(INSTRUCT, [{ ...accepted(7, "anna"), withdrawn: true }], "anna").found, "refused");
});

test("a crew that is off by the record", () => {
  const command = { at: 1000, by: "KIM", clearance: "KIM/1", crew: "C1", do: "sign_off" };
  const view = (crews) => ({ card: CARD, crews, holds: [], steps: [] });
  assert.equal(judgeRecord(command, view(["C1"]), view([]), 1000).found, "yes");
  assert.equal(judgeRecord(command, view(["C1"]), view([]), 1001).found, "either");
  assert.equal(judgeRecord(command, view(["C1"]), view(["C1"]), 1000).found, "no");
  assert.equal(judgeRecord(command, null, view([]), 1000).found, "unknown");
});
