// What the diagram says at a point and at a section, in shorter and shorter forms.

import assert from "node:assert/strict";
import test from "node:test";

import { formsOf, holdMarks } from "../../desk/page/diagram/mark-words.js";

const textsOf = (form) => form.map(({ text }) => text).join(" ");

test("an owner's name may go, the letters of its holds never do", () => {
  const holds = ["HeldOpen", "Block", "Control", "Tag"].map((kind) => ({ by: "OWENS/1", kind }));
  const held = holdMarks({ holds: [...holds, { by: "KIM/12", kind: "HeldOpen" }], hand: "LEE/1" });
  const forms = formsOf(held.map((text) => ({ text, kind: "" }))).map(textsOf);
  assert.equal(forms[0], "LEE/1 hand OWENS/1 O B C T KIM/12 O");
  assert.equal(forms.at(-1), "… hand … O B C T … O");
  for (const form of forms) assert.deepEqual(form.match(/\b(O B C T|O|hand)\b/g), ["hand", "O B C T", "O"]);
});

test("of a section's state only that it is dead by position goes, which its box shows", () => {
  const marks = [{ text: "⚠ KIM/1 TESTED LIVE", kind: "live" }, { text: "OWENS/1 Granted, grounded", kind: "plain" }, { text: "dead", kind: "dead" }];
  const forms = formsOf(marks).map(textsOf);
  assert.equal(forms[0], "⚠ KIM/1 TESTED LIVE OWENS/1 Granted, grounded dead");
  assert.equal(forms.at(-1), "⚠ … TESTED LIVE … Granted, grounded");
  for (const form of forms) assert.match(form, /TESTED LIVE.*Granted, grounded/);
  assert.deepEqual(formsOf([marks[2]]), [[marks[2]]]);
});
