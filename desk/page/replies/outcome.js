// What became of a command without a reply: judged by what it does (`effects`), or by the log, which has the reply itself
// where this desk has one.

import { shortTime } from "../shared/moments.js";
import { COMMANDS } from "./command-words.js";
import { either, no, sameSteps, unknown, yes } from "./effects.js";

// A command about a record: `before` is its view from before the command, null where none was known; `last` the last
// moment of the record now, null where it is not on the board.
export function judgeRecord(command, before, after, last) {
  if (!after) return unknown(`${command.clearance} could not be looked at: show it before you go on.`);
  if (!before) return unknown(`${command.clearance} was not known before the command: look at it before you go on.`);
  const { effect, undone } = COMMANDS[command.do], { found, text } = effect(command, before, after);
  if (found === "yes" && last !== null && last !== command.at) {
    return either(`${text} The last moment is ${shortTime(last)}, not that of this command.`);
  }
  const later = last !== null && last > command.at;
  if (found === "no" && later && undone && !(command.do === "report" && command.done)) {
    return unknown(`${text} A later command was carried out, at ${shortTime(last)}: this one may have been, and then ${undone}.`);
  }
  return { found, text };
}

// A jumper: `existed` is whether a point of its name was there before, `point` that which is there now.
export function judgeJumper(command, existed, point) {
  if (existed) return unknown(`${command.point} was in the network before.`);
  if (!point) return no(`The network has no ${command.point}.`);
  const fits = ["from", "to", "lockable", "remote"].every((part) => point[part] === command[part]);
  return fits ? yes(`${command.point} is in the network, between ${point.from} and ${point.to}.`) : no(`The network has another ${command.point}, between ${point.from} and ${point.to}.`);
}

// A command that makes a record: `made` are the records of its caller that are new, each { row, view }.
export function judgeNew(command, made) {
  const fits = ({ row, view }) => (command.do === "request" ? row.work === command.section : row.work === "-" && (!view || sameSteps(command.steps, view)));
  const words = (list) => list.map(({ row }) => `${row.id}, ${row.phase}${row.work === "-" ? "" : `, section ${row.work}`}, last moment ${shortTime(row.last)}`).join("; ");
  const own = made.filter(fits);
  if (!own.length) {
    return no(made.length ? `New on the board, for something else: ${words(made)}.` : `Nothing new of ${command.by} is on the board.`);
  }
  const text = `New on the board: ${words(own)}.`;
  return own.length === 1 && own[0].row.last === command.at ? yes(`${text} Its moment is that of this command.`) : either(text);
}

const sortedText = (command) => JSON.stringify(Object.entries(command).filter(([, value]) => value !== undefined).sort(([one], [other]) => (one < other ? -1 : 1)));
export const isAccepted = ({ reply, withdrawn }) => !withdrawn && reply.reply !== "refused";

function entryWords({ number, reply, withdrawn }) {
  return `Number ${number} ${withdrawn ? "was withdrawn" : reply.reply === "refused" ? `was refused (${reply.refusal})` : "was accepted"}.`;
}

// What the log has of the same act by others.
function explains({ command: { clearance, do: what, step } }, own) {
  return clearance === own.clearance && what === own.do && step === own.step;
}

// By the log: `entries` are those since the command was sent, and `login` is this desk's, "" without one. `entry` is its
// line; `sure`: it can be no other desk's; `explains`: the log has the same act of another desk.
export function judgeLogged(command, entries, login) {
  const wanted = sortedText(command), own = entries.filter((entry) => (entry.login ?? "") === login && sortedText(entry.command) === wanted);
  const text = own.map(entryWords).join(" "), accepted = own.filter(isAccepted);
  if (!own.length) return { ...no("It has no line of this desk's command."), explains: entries.some((entry) => isAccepted(entry) && explains(entry, command)) };
  if (!accepted.length) return { found: "refused", text };
  if (own.length > 1) return either(text);
  return { ...yes(text), entry: own[0], sure: login !== "" };
}
