// Speaking to the register: one request at a time, in turn, each once. What comes back is one of
//   { kind: "answered", status, body }   the register has answered; body is its JSON, or text
//   { kind: "barred", status }           the proxy did not pass it on
//   { kind: "lost", why, status }        nobody knows: no answer, or a proxy's word that there was none, with its status

import { noteDate } from "./clocks.js";
import { now, shortTime } from "./moments.js";
import { parsed } from "./storage.js";

const FRESH = 6000;     // milliseconds for which an answer shows that the register answers
const NONE = 502;       // the proxy's status where no register is there
const PATIENCE = 15000; // the proxy gives up after 10 seconds, and says so

// When the register last answered, and when it first did not since then; null: it answers. Trouble is what it, or the
// proxy, answers in place of what was asked. Refused is when a command was last answered with 503; null: it takes commands.
// Ended: the proxy has found none since its last answer.
export const contact = { answered: null, silentSince: null, why: "", trouble: "", refused: null, ended: false };

let leaving = false; // whether the page is being left: its requests are ended then
globalThis.addEventListener?.("beforeunload", () => { leaving = true; });

let last = Promise.resolve();
let begun = moments(); // when it last answered, or when the page began, by two clocks

// One clock may stop while the machine sleeps, and the other may be set.
export function moments() {
  return [performance.now(), Date.now()];
}

// Whether it was less than this many milliseconds ago, by both clocks: by one that was set back it is not known.
export const isWithin = (since, time) => moments().every((moment, clock) => Math.abs(moment - since[clock]) < time);

// Whether an answer came just now; a page that nobody sees asks less often.
export const isFresh = () => document.hidden || isWithin(begun, FRESH);

function noteAnswer(answer) {
  if (answer.kind === "lost") {
    contact.silentSince = contact.silentSince ?? now();
    contact.why = answer.why;
    contact.ended ||= answer.status === NONE;
  } else {
    if (answer.kind === "answered") noteContact();
    contact.silentSince = null;
    contact.trouble = troubleIn(answer);
  }
}

// One that had ended was started again, and has decided what it could not carry out. An answer that was lost shows no end.
function noteContact() {
  contact.answered = now();
  begun = moments();
  if (contact.ended) contact.refused = null;
  contact.ended = false;
}

// Since when it takes no command; null where it does.
export const noteRefused = (moment) => { contact.refused = moment; };

function troubleIn(answer) {
  const last = contact.answered ? ` Its last answer came at ${shortTime(contact.answered)}.` : "";
  if (answer.kind === "barred") return `The proxy lets nothing through: status ${answer.status}.${last}`;
  if (answer.body?.fault === "Foreign") return `The register takes what the proxy passes on for another page's (Foreign): the proxy is not that of this desk.${last}`;
  if (answer.status === 503) return "The register answers, but its database, its journal or its memory refuses (503). Is its disk full?";
  return "";
}

// Where the body is none of the register's, the proxy has answered in its place.
function judged(status, type, text) {
  const body = type.includes("json") ? parsed(() => text) : text;
  const printed = status === 200 && type.includes("text/plain");
  if (printed || body?.reply || body?.fault || body?.sections) return { kind: "answered", status, body };
  if (status >= 400 && status < 500) return { kind: "barred", status };
  if (type.includes("text/plain")) return { kind: "lost", status, why: `the proxy said ${text.trim()}` };
  return { kind: "lost", status, why: `the proxy said ${status}${text.includes("<title>") ? titleOf(text) : ""}` };
}

const titleOf = (text) => `, ${/<title>\d* ?([^<]*)<\/title>/.exec(text)?.[1] ?? ""}`;

async function once(method, path, body) {
  const signal = AbortSignal.timeout(PATIENCE);
  const headers = body === undefined ? {} : { "Content-Type": "application/json" };
  try {
    const answer = await fetch(path, { method, body, headers, signal, cache: "no-store" });
    noteDate(answer.headers.get("Date"));
    return judged(answer.status, answer.headers.get("Content-Type") ?? "", await answer.text());
  } catch (fault) {
    const why = fault.name === "TimeoutError" ? `no answer within ${PATIENCE / 1000} seconds` : "nothing answers at this address";
    return { kind: "lost", why: leaving ? "the page was loaded again before it" : why };
  }
}

function inTurn(method, path, body) {
  const turn = last.then(() => once(method, path, body));
  last = turn;
  return turn.then((answer) => {
    noteAnswer(answer);
    return answer;
  });
}

export const getBoard = () => inTurn("GET", "board");
export const getNetwork = () => inTurn("GET", "network");
export const getView = (caller, clearance) => inTurn("GET", `clearance/${caller}/${clearance}`);
export const getOrder = (clearance, round) => inTurn("GET", `order/${clearance}/${round}`);
export const getWayBack = (clearance) => inTurn("GET", `wayback/${clearance}`);

export async function postCommand(command) {
  const answer = await inTurn("POST", "command", JSON.stringify(command));
  if (answer.kind === "answered") noteRefused(answer.status === 503 ? contact.refused ?? now() : null);
  return answer;
}
