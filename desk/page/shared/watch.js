// The watch over the register: the board every few seconds, the network, and the views of what is on the board. All that
// the page shows of the register is kept here, or in network.js, as it was last answered.

import { now, secondsOfPrinted } from "./moments.js";
import { takeNetwork } from "./network.js";
import { getBoard, getNetwork, getView, isWithin, moments } from "./register.js";

const PERIOD = 3000;      // between two looks at the board
const HIDDEN = 20000;     // the same while nobody sees the page
const AT_ONCE = 25;       // views that are asked for in one turn
const ALL_AGAIN = 10;     // turns after which each view is asked for again
const OLD = 30000;        // after which a view is looked at before anything is sent by it
const AGED = 10000;       // after which what is shown says since when it is so
const QUICK = 50;         // milliseconds: a network that is answered in this time is asked for with each board

export const room = {
  board: [],            // the board's lines of records: id, phase, work, last, holder, line
  jumpers: [],          // its lines of jumpers: point, from, to, position, line
  read: null,           // when it was answered
  turns: 0,             // how many boards were answered
  views: new Map(),     // what is on the board: id to view
  closed: new Map(),    // what is over: id to view
  network: null,        // when the network was answered
  unread: null,         // since when it was asked for in vain; null: it was answered
  barred: null,         // a name that this login may not use, or the staff has no more
};

const urgent = new Set(); // what has changed, and is to be asked for first
const stale = new Set();  // what may have
const answered = new Map(); // id: when its view last came, by two clocks
const listeners = [];
let caller = null;
let chosen = null;
let timer = null;
let running = null;
let shown = "";        // the board at which the network was last asked for
let settled = false;   // whether that board was the same one look before, and the chosen record since then
let lately = [];       // the records whose lines the last board had changed
let slow = 0;          // how long the network took then
let boardAt = null;    // when the board was last answered, by two clocks

export const onRoom = (listener) => { listeners.push(listener); };
const report = () => { for (const listener of listeners) listener(); };

function recordIn(line) {
  return {
    id: line.slice(0, 29).trim(),
    phase: line.slice(30, 39).trim(),
    work: line.slice(40, 64).trim(),
    last: secondsOfPrinted(line.slice(65, 91)),
    holder: line.slice(92).trim(),
    line,
  };
}

function jumperIn(line) {
  const [, point, from, to, position] = line.split(/ +/);
  return { point, from, to, position, line };
}

// The records, and after them the jumpers: a record's name has a `/` before its first blank.
function parseBoard(text) {
  const lines = text.split("\n").slice(1).filter(Boolean), isJumper = (line) => line.startsWith("JUMPER ");
  return { board: lines.filter((line) => !isJumper(line)).map(recordIn), jumpers: lines.filter(isJumper).map(jumperIn) };
}

export const boardLine = (id) => room.board.find((row) => row.id === id);
export const viewOf = (id) => room.views.get(id) ?? room.closed.get(id);

function keepBoard(text) {
  const before = new Map(room.board.map((row) => [row.id, row.line]));
  Object.assign(room, parseBoard(text));
  room.read = now();
  boardAt = moments();
  room.turns += 1;
  const present = new Set(room.board.map((row) => row.id));
  const changed = room.board.filter((row) => before.get(row.id) !== row.line).map((row) => row.id);
  const gone = [...room.views.keys()].filter((id) => !present.has(id));
  for (const id of [...changed, ...gone]) urgent.add(id);
  for (const id of lately) if (present.has(id)) stale.add(id); // two commands of one second leave its line as it was
  lately = changed;
  if (changed.length || gone.length || room.turns % ALL_AGAIN === 0) for (const id of present) stale.add(id);
  if (chosen && present.has(chosen)) stale.add(chosen);
}

function keepView(id, view) {
  const over = view.card.phase === "Closed";
  (over ? room.closed : room.views).set(id, view);
  (over ? room.views : room.closed).delete(id);
}

// A register that was restored may not have a record any more.
const forget = (id) => { for (const kept of [room.views, room.closed, answered]) kept.delete(id); };

// Whether its view is one from before a while, as after a sleep of the machine.
export const isOldView = (id) => !answered.has(id) || !isWithin(answered.get(id), OLD);

// Since when what is shown was not answered again, where that is a while: the board, and with it all; the network, where it
// was asked for in vain; the view of the chosen record. In seconds, null where it is not old.
export function oldParts() {
  const isAged = (since) => Boolean(since) && !isWithin(since, AGED), view = answered.get(chosen);
  return {
    board: isAged(boardAt) ? room.read : null,
    network: room.unread !== null && now() - room.network > AGED / 1000 ? room.network : null,
    view: isAged(view) && room.views.has(chosen) ? Math.floor(view[1] / 1000) : null,
  };
}

// What an accepted command has made of a view, until the register is asked for it.
export function putView(view) {
  const { clearance } = view.card;
  keepView(clearance, view);
  stale.add(clearance);
  report();
}

async function readView(id) {
  const by = caller, answer = await getView(by, id);
  if (answer.kind !== "answered" || answer.status === 503) return answer;
  urgent.delete(id);
  stale.delete(id);
  if (answer.body.reply === "shown") {
    if (id === chosen && JSON.stringify(viewOf(id)) !== JSON.stringify(answer.body.view)) settled = false;
    keepView(id, answer.body.view);
    answered.set(id, moments());
  }
  if (answer.body.refusal === "UNKNOWN_CLEARANCE") forget(id);
  room.barred = answer.body.fault === "NotCaller" || answer.body.refusal === "UNKNOWN_CALLER" ? by : null;
  return answer;
}

// The network may have changed where the board has, and once more after that, since two commands of one second leave it as
// it was; where the chosen record has, whose commands may all have one moment; and where it did not come. Further it is asked
// for with each board, or with some of them where that takes long.
async function readNetwork(text) {
  const isSame = text === shown;
  if (isSame && settled && room.network !== null && room.unread === null && slow > QUICK && room.turns % ALL_AGAIN) return;
  const begun = performance.now(), answer = await getNetwork();
  if (answer.kind !== "answered" || !answer.body.sections) {
    room.unread ??= now();
    return;
  }
  slow = performance.now() - begun;
  await takeNetwork(answer.body);
  room.network = now();
  room.unread = null;
  settled = isSame;
  shown = text;
}

async function readViews() {
  const all = new Set([...(urgent.has(chosen) || stale.has(chosen) ? [chosen] : []), ...urgent, ...stale]);
  for (const id of [...all].slice(0, AT_ONCE)) if ((await readView(id)).kind === "lost") return;
}

async function look() {
  const answer = await getBoard(), isRead = answer.kind === "answered" && typeof answer.body === "string";
  if (isRead) {
    keepBoard(answer.body);
    await readNetwork(answer.body);
  }
  report();
  if (isRead && caller) {
    await readViews();
    report();
  }
  return isRead;
}

// One look at a time; who asks while one goes on gets one that begins after it.
export function lookNow() {
  const turn = (running ?? Promise.resolve()).then(look).finally(() => {
    if (running === turn) running = null;
  });
  running = turn;
  clearTimeout(timer);
  timer = setTimeout(lookAgain, document.hidden ? HIDDEN : PERIOD);
  return turn;
}

function lookAgain() {
  if (running) timer = setTimeout(lookAgain, PERIOD);
  else lookNow();
}

// The clearance as it is now, whatever was known of it.
export async function lookAt(id) {
  stale.add(id);
  const answer = caller ? await readView(id) : null;
  report();
  return answer;
}

export function watchAs(name) {
  if (caller === name) return;
  const first = caller === null || room.barred === caller;
  caller = name;
  if (!first) return;
  for (const row of room.board) stale.add(row.id);
  lookNow();
}

export function choose(id) {
  if (chosen === id) return;
  chosen = id;
  if (id && caller) lookAt(id);
}

export function startWatch() {
  document.addEventListener("visibilitychange", () => { if (!document.hidden) lookNow(); });
  return lookNow();
}

// A requester's records, closed ones too, from the first one that is not known to the last there is: numbers have no gaps.
export async function recordsOf(name) {
  for (let number = 1; ; number++) {
    const id = `${name}/${number}`;
    if (room.closed.has(id) || room.views.has(id)) continue;
    const answer = await readView(id);
    if (answer.kind !== "answered" || answer.body.reply !== "shown") break;
  }
  report();
}
