// What the register and the proxy answer, in words; and the page's words of holds, states and phases.

import { shortTime } from "../shared/moments.js";
import { viewOf } from "../shared/watch.js";
import { readRefusals, sentenceOf } from "./refusals.js";

const HOLDS = {
  HeldOpen: "held open", Block: "blocked", Control: "control off", Tag: "tagged",
  Tested: "tested dead", Ground: "grounded", Crew: "crew on",
};

export const holdWord = (kind) => HOLDS[kind] ?? kind;

const STATES = {
  Waiting: "waiting", Instructed: "given out, not yet repeated", Repeated: "repeated, not yet reported", Done: "done",
};

export const stateWord = (state) => STATES[state] ?? state;

const PHASES = {
  Requested: "asked for, nothing done", Ordered: "isolating steps are being done", Granted: "the holder has the line",
  Released: "given back, not restored yet", Restoring: "restoring steps are being done",
  Switching: "switch order, steps are being done", Closed: "over",
};

export const phaseWord = (phase) => PHASES[phase] ?? phase;

// What a sentence names, where it is not known here.
const OTHERWISE = {
  holder: "another", reader: "another", phase: "in another phase", work: "its work section", point: "its point",
  grounds: "a section", crews: "at least one", text: "nothing",
};

// What the sentence of a refusal may name: what the command and the reply have, and what is shown of the record.
function placesOf(command, { by: other, kind, ...named }) {
  const view = viewOf(command.clearance), step = view?.steps[command.step - 1];
  const grounds = view?.holds.filter((hold) => hold.kind === "Ground" && hold.by === command.clearance) ?? [];
  const known = {
    ...view?.card, work: view?.work, reader: step?.reader, point: step?.text.split(" ")[1], crews: view?.crews.join(", "),
    grounds: grounds.map(({ place }) => place).join(", "), ...command, ...named, at: shortTime(command.at), other, kind: holdWord(kind),
  };
  return { ...OTHERWISE, ...Object.fromEntries(Object.entries(known).filter(([, value]) => value)) };
}

// A refusal as { name, means, todo }.
export async function refusalWords(command, body) {
  const texts = await readRefusals(), { refusal, number } = body;
  const means = sentenceOf(texts, refusal, command, placesOf(command, body));
  return { name: `${refusal}, number ${number}`, means, todo: texts.get(`${refusal} todo`) ?? "Look at the clearance." };
}

// A fault of the register, or without a body a status of the proxy, in the same way.
export async function faultWords(status, body) {
  const texts = await readRefusals(), name = body?.fault ?? String(status);
  return {
    name: body?.fault ? `${name}${body.key ? `, part ${body.key}` : ""}` : `status ${status}`,
    means: texts.get(`${name} means`) ?? `The ${body ? "register" : "proxy"} answered with the status ${status}.`,
    todo: texts.get(`${name} todo`) ?? "Look at the clearance before you go on, and report it to whoever keeps this desk.",
  };
}

export function cardWords(card) {
  const steps = card.steps ? `, ${card.done} of ${card.steps} steps done` : "";
  return `${card.clearance} is ${card.phase}${steps}; holder ${card.holder}`;
}
