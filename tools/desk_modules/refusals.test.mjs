// What the page says of each refusal, by docs/refusals.csv: one sentence for each command that RULES lets get it.

import assert from "node:assert/strict";
import { readFileSync } from "node:fs";
import test from "node:test";

globalThis.document = { hidden: false, getElementById: () => ({ textContent: "" }) };
globalThis.window = {}; // nothing is kept
const wait = globalThis.setTimeout;
globalThis.setTimeout = (...parts) => wait(...parts).unref(); // the watch goes on for ever

const { readRefusals, sentenceOf, textsOf } = await import("../../desk/page/replies/refusals.js");
const { faultWords, refusalWords } = await import("../../desk/page/replies/words.js");

const read = (path) => readFileSync(new URL(path, import.meta.url), "utf8");
const RULES = read("../../docs/RULES.md"), TABLE = read("../../docs/refusals.csv"), FAULTS = read("../../desk/page/replies/faults.csv");
const NAMES = [...RULES.matchAll(/^\| \d+ \| ([A-Z_]+) \|/gm)].map(([, name]) => name);
const FIRST = ["UNKNOWN_CALLER", "WRONG_ROLE", "UNKNOWN_CLEARANCE", "EARLIER", "WRONG_PHASE"]; // of "by an operator" and "by the field"

// Each command with the refusals that its row in RULES has.
function pairs() {
  return [...RULES.matchAll(/^\| \*\*`(\w+).*?\| (.*?) \| (.*?) \| .* \|$/gm)].flatMap(([, command, given, further]) => {
    const first = given === "as its checks say" ? [] : given.startsWith("by the holder") ? [...FIRST, "NOT_HOLDER"] : FIRST;
    return [...new Set([...first, ...further.match(/[A-Z_]{4,}/g)])].filter((name) => NAMES.includes(name)).map((name) => [command, name]);
  });
}

// A command with all its keys.
const commandOf = (what) => ({ do: what, by: "KIM", at: 1795503600, clearance: "KIM/1", section: "L2", point: "S1", crew: "C1", to: "JONES", step: 1, text: "OPEN S1", from: "L2", steps: ["OPEN S1"], points: ["S1"] });

test("each command has one sentence of each refusal that it can get, and no place in it is left open", async () => {
  globalThis.fetch = async (address) => ({ ok: true, text: async () => (String(address).endsWith("refusals.csv") ? TABLE : FAULTS) });
  const all = pairs();
  assert.equal(all.length, 141);
  assert.equal(new Set(all.map(([command]) => command)).size, 19);
  for (const [what, refusal] of all) {
    const { means, todo } = await refusalWords(commandOf(what), { refusal, number: 1, by: "LEE/2", kind: "Block", section: "L2", point: "S1" });
    assert.match(means, /^You cannot [^{}?`|]+: [^{}?`|]+\.$/, `${what} ${refusal}`);
    assert.doesNotMatch(means, /undefined|null|The register refused/, `${what} ${refusal}`);
    assert.match(todo, /^[^`|[\]]+\.\)?$/, refusal);
  }
});

test("what no command can get has no sentence", () => {
  const texts = textsOf(TABLE), known = new Set(pairs().map(([command, name]) => `${name} ${command}`));
  for (const key of texts.keys()) {
    const [name, use] = key.split(" ");
    if (name && !["means", "names", "todo", "all"].includes(use)) assert.ok(known.has(key), key);
  }
});

test("a sentence says what was refused, and why, at each command its own", async () => {
  const said = async (command, body) => (await refusalWords({ by: "KIM", at: 1795503600, clearance: "KIM/1", ...command }, { number: 1, ...body })).means;
  assert.equal(await said({ do: "ground", section: "NOR-5C" }, { refusal: "NOT_TESTED" }), "You cannot ground NOR-5C: it is not tested dead under KIM/1.");
  assert.equal(await said({ do: "sign_on", crew: "C1" }, { refusal: "NOT_TESTED" }), "You cannot sign C1 on: its work section is not tested dead under KIM/1.");
  assert.equal(await said({ do: "unground", section: "L2" }, { refusal: "CREWS_ON" }), "You cannot take the ground off L2: crews are on under KIM/1: at least one.");
  assert.equal(await said({ do: "instruct", step: 3 }, { refusal: "HELD", by: "LEE/2", kind: "HeldOpen" }), "You cannot instruct step 3 of KIM/1: LEE/2 has its point held open.");
});

test("links and code lose their marks", () => {
  assert.equal(textsOf(TABLE).get("EARLIER todo"), "The board has the last moment. Give it again with a moment that is not before it (a wrong at).");
  assert.equal(sentenceOf(new Map(), "HELD", { do: "instruct" }, {}), "The register refused it.");
});

test("a fault of the register, and a status of the proxy", async () => {
  assert.equal((await faultWords(403, { fault: "NotCaller" })).means, "Your login may not speak in this name.");
  assert.equal((await faultWords(413)).means, "The command is too long for the proxy.");
  assert.match((await faultWords(418)).means, /^The proxy answered with the status 418/);
});

test("the tables are asked for again where no answer came, and once where one did", async () => {
  const again = await import("../../desk/page/replies/refusals.js?again");
  globalThis.fetch = async () => { throw new TypeError("no answer"); };
  assert.equal((await again.readRefusals()).size, 0);
  globalThis.fetch = async () => ({ ok: true, text: async () => TABLE });
  assert.ok((await again.readRefusals()).size > 100);
  globalThis.fetch = async () => ({ ok: true, text: async () => "" });
  assert.ok((await again.readRefusals()).size > 100);
  assert.ok((await readRefusals()).size > 100);
});
