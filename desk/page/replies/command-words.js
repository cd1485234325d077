// What the page says of each command. Of each:
//   said     as one would say it
//   logged   in the log, in the words of `gridclear journal`; `text` is that of its step
//   effect   how the record shows whether it was carried out; a command that makes a record or a point has none
//   undone   what a later command may have done, which takes the effect away again

import { cancelled, crewIs, granted, ordered, placed, released, stepIs, taken, tested, transferred } from "./effects.js";

const numbered = ({ step }, text) => (text ? `${step} ${text}` : `${step}`);
const points = (c) => c.points.map((point) => ` ${point}`).join("");
const steps = (c) => c.steps.map((step) => `, ${step}`).join("");
const marks = (c) => `${c.lockable ? ", lockable" : ""}${c.remote ? ", remote" : ""}`;

// What the holder does with a granted clearance.
export const WORK = "test, ground, sign crews on and off";

export const COMMANDS = {
  request: { said: (c) => `request section ${c.section}`, logged: (c) => `request ${c.section}` },
  order: {
    said: (c) => `order ${c.clearance}: points ${c.points.join(", ")}, ${c.steps.length} steps`,
    logged: (c) => `order${points(c)}${steps(c)}`, effect: ordered("Requested", 1),
  },
  instruct: {
    said: (c) => `instruct step ${c.step} of ${c.clearance}`, logged: (c, text) => `instruct ${numbered(c, text)}`,
    effect: stepIs((step) => step.state !== "Waiting", "given out"), undone: "reported as not done",
  },
  repeat: {
    said: (c) => `repeat step ${c.step} of ${c.clearance}: “${c.text}”`,
    logged: (c, text) => `repeat ${numbered(c, text)} ${JSON.stringify(c.text)}`,
    effect: stepIs((step, { by }) => step.reader === by, "repeated by the same"), undone: "repeated by another",
  },
  report: {
    said: (c) => `report step ${c.step} of ${c.clearance} ${c.done ? "done" : "not done"}`,
    logged: (c, text) => `report ${numbered(c, text)} ${c.done ? "done" : "not done"}`,
    effect: stepIs((step, { done }) => step.state === (done ? "Done" : "Waiting"), "so"), undone: "given out again",
  },
  grant: { said: (c) => `grant ${c.clearance}`, logged: () => "grant", effect: granted },
  cancel: { said: (c) => `cancel ${c.clearance}`, logged: () => "cancel", effect: cancelled },
  test: {
    said: (c) => `test ${c.section} under ${c.clearance}: ${c.dead ? "dead" : "live"}`,
    logged: (c) => `test ${c.section} ${c.dead ? "dead" : "not dead"}`, effect: tested, undone: "tested again",
  },
  ground: {
    said: (c) => `ground ${c.section} under ${c.clearance}`, logged: (c) => `ground ${c.section}`,
    effect: placed("Ground", "grounded"), undone: "taken off",
  },
  unground: {
    said: (c) => `take the ground off ${c.section} under ${c.clearance}`, logged: (c) => `unground ${c.section}`,
    effect: taken("Ground", "grounded"), undone: "put on",
  },
  sign_on: {
    said: (c) => `sign crew ${c.crew} on to ${c.clearance}`, logged: (c) => `sign on ${c.crew}`,
    effect: crewIs(true), undone: "signed off",
  },
  sign_off: {
    said: (c) => `sign crew ${c.crew} off from ${c.clearance}`, logged: (c) => `sign off ${c.crew}`,
    effect: crewIs(false), undone: "signed on",
  },
  transfer: {
    said: (c) => `transfer ${c.clearance} to ${c.to}${c.emergency ? ", emergency" : ""}`,
    logged: (c) => `${c.emergency ? "emergency transfer" : "transfer"} to ${c.to}`, effect: transferred, undone: "handed on",
  },
  release: {
    said: (c) => `release ${c.clearance}`, effect: released,
    logged: (c) => `release, ${c.notified ? "notified" : "not notified"}, ${c.clear ? "clear" : "not clear"}`,
  },
  restore: {
    said: (c) => `restore ${c.clearance}: ${c.steps.length} steps`, logged: (c) => `restore${steps(c)}`,
    effect: ordered("Released", 2),
  },
  amend: {
    said: (c) => `amend step ${c.step} of ${c.clearance} to LEAVE`, logged: (c, text) => `amend ${numbered(c, text)}`,
    effect: stepIs((step) => step.text.startsWith("LEAVE "), "a LEAVE"),
  },
  jumper: {
    said: (c) => `add jumper ${c.point} between ${c.from} and ${c.to}${marks(c)}`,
    logged: (c) => `jumper ${c.point} from ${c.from} to ${c.to}${marks(c)}`,
  },
  switch: { said: (c) => `switch order: ${c.steps.join(", ")}`, logged: (c) => `switch${steps(c)}` },
};

export const saidOf = (command) => `${command.by}: ${COMMANDS[command.do].said(command)}`;
