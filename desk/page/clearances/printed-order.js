// The printed order of a round, as the register prints it, to be looked at and put on paper.

import { newest } from "../log/journal.js";
import { storyOf } from "../log/log-words.js";
import { readBackTo } from "../log/reading-back.js";
import { Story } from "../log/record-log.js";
import { faultWords } from "../replies/words.js";
import { el, button } from "../shared/elements.js";
import { liveUnder } from "../shared/live-alarms.js";
import { now, secondsOfPrinted, wholeTime } from "../shared/moments.js";
import { getOrder } from "../shared/register.js";
import { reasonLines } from "./reasons.js";

const SIGNED = ["Given by", "Repeated by", "Holder"].map((who) => `${who}: _________________  Date, time: ____________`);

// A button for each round that there may be, and the place where the order comes.
export function printedOrders(clearance, rounds) {
  const place = el("div", { class: "printed" });
  return el("div", {}, el("div", { class: "answers" }, rounds.map((round) =>
    button(`Printed order, round ${round}`, () => show(clearance, round, place), { "data-name": `print ${round}` }))), place);
}

// The register prints a moment in Greenwich time; what is beside it on the paper has this desk's.
const inLocalTime = (text) => text.replace(/^LAST (.*)$/m, (_, moment) => `LAST ${wholeTime(secondsOfPrinted(moment))}`);

// What was found live under it, by the log, and what is an alarm now.
function liveLines(clearance) {
  const isLive = ({ entry: { command } }) => command.do === "test" && !command.dead;
  const found = storyOf(clearance).others.filter(isLive), live = liveUnder(clearance);
  return [
    ...found.map(({ by, at, entry }) => el("p", {}, `${entry.command.section} was TESTED LIVE by ${by}, ${wholeTime(at)}.`)),
    live.length ? el("p", {}, el("strong", {}, `TESTED LIVE, and not tested dead since: ${live.join(", ")}.`)) : null];
}

// Why nothing is printed; null where it came.
async function whyNone({ kind, status, body }) {
  if (kind !== "answered") return "The register did not answer; the order was not printed.";
  const { means, todo } = await faultWords(status, body);
  return status === 200 ? null : `${means} ${todo}`;
}

async function show(clearance, round, place) {
  place.replaceChildren(el("p", {}, "Asking the register…"));
  const answer = await getOrder(clearance, round), why = await whyNone(answer);
  if (why) return place.replaceChildren(el("p", {}, why));
  await newest();
  await readBackTo([clearance]);
  place.replaceChildren(
    el("div", { class: "paper" }, el("p", { class: "each-page" }, `Order of ${clearance}, round ${round}, printed ${wholeTime(now())}`),
      el("div", { class: "whole" }, el("pre", {}, inLocalTime(answer.body)), liveLines(clearance), reasonLines(clearance),
        new Story(clearance).node, SIGNED.map((line) => el("p", { class: "signed" }, line)))),
    button("Print", () => window.print(), { "data-name": "print" }),
    button("Put it away", () => place.replaceChildren()));
}
