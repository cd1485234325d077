// What is said of each refusal at each command, by docs/refusals.csv, which nginx gives beside this file; and of each fault
// of the register and status of the proxy, by faults.csv.

const ROW = /^(?:\d+,)?(\w*),([a-z_ ]+),"(.*)"$/gm; // perhaps a number; a name; for what, or for which commands; the text
const FILES = ["refusals.csv", "faults.csv"], PATIENCE = 10000; // milliseconds

const reading = new Map();

// A text without the marks of Markdown.
const plain = (text) => text.replace(/\[([^\]]*)\]\([^)]*\)/g, "$1").replaceAll("`", "");

// The texts of such a table by name and what they are for: "HELD todo"; " ground" has what was refused.
export function textsOf(table) {
  return new Map([...table.matchAll(ROW)].flatMap(([, name, uses, text]) =>
    uses.split(" ").map((use) => [`${name} ${use}`, plain(text)])));
}

async function read(file) {
  try {
    const answer = await fetch(new URL(file, import.meta.url), { signal: AbortSignal.timeout(PATIENCE) });
    if (answer.ok) return textsOf(await answer.text());
  } catch {
    // What was answered is shown without these words then.
  }
  reading.delete(file);
  return new Map();
}

// Both tables: each is read once, and again where no answer came; it is empty then.
export async function readRefusals() {
  for (const file of FILES) if (!reading.has(file)) reading.set(file, read(file));
  return new Map((await Promise.all(reading.values())).flatMap((texts) => [...texts]));
}

// One sentence of what was refused, and why; `places` are what it may name.
export function sentenceOf(texts, refusal, command, places) {
  const begin = texts.get(` ${command.do}`), why = texts.get(`${refusal} ${command.do}`) ?? texts.get(`${refusal} all`);
  if (!begin || !why) return "The register refused it.";
  return `${begin}: ${why}.`.replace(/\{(\w+)\}/g, (_, place) => places[place] ?? "?");
}
