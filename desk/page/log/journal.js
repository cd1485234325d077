// The register's journal, as the proxy serves it where this desk has one: read by ranges of bytes, from its end backwards, a
// piece at a time, and on through the parts that were put aside when it was rotated. Each entry is a line of it: { command,
// login, number, received, reply, sum }, and `withdrawn` where a later line says so. An update and an archive are entries
// too, as commands of nobody that were accepted. The first line of each part has the number and the sum of the line before
// it, and is no entry.

import { parsed } from "../shared/storage.js";

const NEWEST = "journal";
const PARTS = "journals/", PART = /^journal-2[0-9T:-]+Z$/;
const PIECE = 1 << 20; // bytes
const LINE_FEED = 10;
const PATIENCE = 60000; // milliseconds: what became of a command waits for it
const AGAIN = 30000;    // milliseconds after which a journal that was not there is asked for again

// `state`: "new" until it was asked for, "read", "none" where there is no journal, or "failed". `end` is where the newest file
// ends; `file` is the one that is being read backwards, as far as `begin`; `older` are the parts before that one, null while
// they are not known. `last` is the last line, null while none was read.
export const journal = { state: "new", entries: [], begin: 0, end: 0, file: NEWEST, older: null, last: null };

// { bytes, from, size } of a range: its bytes, where they begin, and the size of the whole; `from` is null where there are no
// more. { status } where the file cannot be read: 0 without an answer.
async function bytesOf(file, range) {
  const answer = await fetch(file, { headers: { Range: `bytes=${range}` }, cache: "no-store", signal: AbortSignal.timeout(PATIENCE) }).catch(() => null);
  if (answer?.status === 416) return { bytes: new Uint8Array(), from: null, size: Number(/\/(\d+)$/.exec(answer.headers.get("Content-Range") ?? "")?.[1] ?? 0) };
  const body = answer?.ok ? await answer.arrayBuffer().catch(() => null) : null;
  if (!body) return { status: answer?.status ?? 0 };
  const bytes = new Uint8Array(body);
  const [, from = 0, size = bytes.length] = /^bytes (\d+)-\d+\/(\d+)$/.exec(answer.headers.get("Content-Range") ?? "") ?? [];
  return { bytes, from: Number(from), size: Number(size) };
}

// The parts, the oldest first; none where no list of them is served, null where no answer came.
async function partFiles() {
  const answer = await fetch(PARTS, { cache: "no-store", signal: AbortSignal.timeout(PATIENCE) }).catch(() => null);
  if (answer && !answer.ok) return answer.status < 500 ? [] : null;
  const found = await answer?.json().catch(() => null);
  return Array.isArray(found) ? found.map(({ name }) => name).filter((name) => PART.test(name)).sort().map((name) => PARTS + name) : null;
}

// Something that is worked out of the entries, again only where others were read.
export function byEntries(work) {
  let entries = null, found = null;
  return () => {
    if (entries !== journal.entries) [entries, found] = [journal.entries, work(journal.entries)];
    return found;
  };
}

let withdrawn = new Set();
let turn = Promise.resolve();
let missed = -AGAIN; // when it was not there

// The entry that a line is, if it is one.
function entryOf(line) {
  const { updated, archived } = line;
  if (updated) return { ...line, command: { do: "update", ...updated }, login: null, reply: { reply: "accepted" } };
  if (archived) return { ...line, command: { do: "archive", ...archived }, login: null, reply: { reply: "accepted" } };
  return line.command ? line : null;
}

// What whole lines say: their entries, the first line of a part where that is among them, the last of them, and whether one
// does not read. A withdrawal is put to what it withdraws.
function saidBy(bytes) {
  const texts = new TextDecoder().decode(bytes).split("\n").filter(Boolean), lines = texts.map((line) => parsed(() => line)).filter(Boolean);
  for (const { number } of lines.filter((one) => one.withdrawn)) withdrawn.add(number);
  return { found: lines.map(entryOf).filter(Boolean), head: lines.find((one) => one.journal) ?? null, last: lines.at(-1) ?? null, isTorn: lines.length < texts.length };
}

function keep(entries) {
  for (const entry of entries) entry.withdrawn = withdrawn.has(entry.number);
  journal.entries = entries;
  journal.state = "read";
}

// What was read goes on with these lines: they have an entry of it, by its sum, or follow it. Otherwise they are of another
// journal.
function joins(known, { found: [first], head }) {
  const last = known.at(-1);
  if (!last || (!first && !head)) return true;
  if (!first) return head.number === last.number;
  const same = known.findLast(({ number }) => number === first.number);
  return same ? same.sum === first.sum : first.number === last.number + 1;
}

// What the whole lines of a range say, and where they begin and end.
function linesOf({ bytes, from }, isBegin) {
  const skip = isBegin || !from ? 0 : bytes.indexOf(LINE_FEED) + 1, end = Math.max(bytes.lastIndexOf(LINE_FEED) + 1, skip);
  return { ...saidBy(bytes.slice(skip, end)), begin: (from ?? 0) + skip, end: (from ?? 0) + end };
}

// A piece of a file, with a whole line in it unless it begins where the file does: the line of an update may be longer than a
// piece, and then twice as much is read. `range` has the bytes, by how many there are to be.
async function pieceOf(file, range) {
  for (let size = PIECE; ; size *= 2) {
    const answer = await bytesOf(file, range(size));
    if (!answer.bytes || !answer.from || answer.bytes.indexOf(LINE_FEED) < answer.bytes.lastIndexOf(LINE_FEED)) return answer;
  }
}

// The newest file from its end, at first and where it is another one than before, as after a rotation. Whether it was read.
async function readFromEnd() {
  const answer = await pieceOf(NEWEST, (size) => `-${size}`);
  if (!answer.bytes) {
    journal.state = answer.status === 404 ? "none" : "failed";
    missed = performance.now();
    return false;
  }
  const before = withdrawn;
  withdrawn = new Set();
  const lines = linesOf(answer, false), { found, begin, end, last } = lines;
  if (joins(journal.entries, lines)) withdrawn = new Set([...before, ...withdrawn]);
  else journal.entries = [];
  Object.assign(journal, { begin, end, last, file: NEWEST, older: null });
  keep([...journal.entries.filter(({ number }) => number < (found[0]?.number ?? Infinity)), ...found]);
  if (!begin && !isWhole()) journal.older = await partFiles();
  return true;
}

// What has come to the journal since: the last line counts once its line feed is there. Whether it was read as far as it
// goes now; where no answer came, what was read before stays.
async function readNewest() {
  if (journal.state !== "read") return performance.now() - missed >= AGAIN && readFromEnd();
  const answer = await bytesOf(NEWEST, `${journal.end}-`);
  if (!answer.bytes) {
    missed = performance.now();
    if (answer.status) journal.state = answer.status === 404 ? "none" : "failed";
    return false;
  }
  const isOther = answer.from === null ? answer.size < journal.end : answer.from !== journal.end;
  const { found, end, last, isTorn } = isOther ? { found: [] } : linesOf(answer, true);
  if (isOther || isTorn || (found.length && journal.last && found[0].number !== journal.last.number + 1)) {
    return readFromEnd();
  }
  if (answer.bytes.length && end > journal.end) {
    Object.assign(journal, { end, last: last ?? journal.last });
    keep([...journal.entries, ...found]);
  }
  return true;
}

// Where a file is read to its beginning, on to the part before it; false where there is none.
async function goOn() {
  if (journal.begin) return true;
  journal.older ??= await partFiles();
  if (!journal.older?.length) return false;
  const file = journal.older.at(-1), answer = await bytesOf(file, "-1");
  if (!answer.bytes) return false;
  Object.assign(journal, { file, older: journal.older.slice(0, -1), begin: answer.size });
  return journal.begin ? true : goOn();
}

async function readEarlier() {
  if (journal.state !== "read" || isWhole() || !(await goOn())) return;
  const answer = await pieceOf(journal.file, (size) => `${Math.max(0, journal.begin - size)}-${journal.begin - 1}`);
  if (!answer.bytes || answer.from + answer.bytes.length !== journal.begin) return;
  const { found, begin } = linesOf(answer, false), first = journal.entries[0]?.number ?? Infinity;
  journal.begin = begin;
  keep([...found.filter(({ number }) => number < first), ...journal.entries]);
}

function inTurn(read) {
  turn = turn.then(read);
  return turn;
}

export const newest = () => inTurn(readNewest);
export const earlier = () => inTurn(readEarlier);

// Whether the first of all commands was read, or there is none.
export function isWhole() {
  return journal.state === "read" && (journal.entries.length ? journal.entries[0].number === 1 : isAtEnd());
}

// Whether all that is served was read.
const isAtEnd = () => journal.begin === 0 && journal.older?.length === 0;

// Whether more can be read.
export const hasEarlier = () => journal.state === "read" && !isWhole() && !isAtEnd();
