// Granting a clearance, giving it back, giving it up, and handing it over.

import { drafted, draftName } from "../shared/drafts.js";
import { el, button, choice, field, form } from "../shared/elements.js";
import { namesOfRole } from "../shared/network.js";
import { agreed, ask } from "../shared/question.js";
import { NOT_KEPT, noteReason } from "./reasons.js";
import { crewsOn } from "./work.js";

export async function grant(view, act) {
  const { clearance, holder } = view.card;
  const grants = `Grant ${clearance} to ${holder}`, what = `From now on ${holder} may test, ground and sign crews on; `
    + "nobody takes a grant back, but the holder releases it.";
  if (await agreed(`${grants}?`, [what], grants, "Do not grant it")) await act({ do: "grant", clearance });
}

// Not where a step's controls were a moment ago.
export function grantControl({ view, act }) {
  const { clearance, holder, steps } = view.card;
  return el("div", { class: "offer" },
    el("p", { class: "step-place" }, `All ${steps} steps are done.`),
    button(`Grant ${clearance} to ${holder}`, () => grant(view, act), { "data-name": "grant", class: "main" }));
}

const NO = "No: do not release";

// What a release would be refused for.
export function releaseObstacles({ card, crews, holds }) {
  const grounds = holds.filter(({ kind, by }) => kind === "Ground" && by === card.clearance).map(({ place }) => place);
  return [
    ...(crews.length ? [`would be refused (CREWS_ON): ${crews.length === 1 ? "crew" : "crews"} ${crews.join(", ")} on`] : []),
    ...(grounds.length ? [`would be refused (GROUNDED): a ground is on at ${grounds.join(", ")}`] : []),
  ];
}

function notYet(clearance, obstacles) {
  return ask(`Release ${clearance}: not yet`, [...obstacles.map((text) => `It ${text}.`),
    "Sign each crew off when it has left, and say that each ground is off. Then release."], [[null, "Go back"]]);
}

export async function release(view, act) {
  const { clearance } = view.card, obstacles = releaseObstacles(view);
  if (obstacles.length) return notYet(clearance, obstacles);
  const notified = ["Releasing gives the line back: from then on it may be switched in.",
    `Are all employees who work under ${clearance} notified that it is released?`];
  if (!(await agreed(`Release ${clearance}: first of two`, notified, "Yes, all are notified", NO))) return null;
  const clear = `Are all employees clear of ${view.fence.join(", ")}?`;
  if (!(await agreed(`Release ${clearance}: second of two`, [clear], "Yes, all are clear", NO))) return null;
  return act({ do: "release", clearance, notified: true, clear: true });
}

export function releaseControl({ view, act }) {
  const [obstacle] = releaseObstacles(view);
  return el("div", { class: "offer" },
    button(`Release ${view.card.clearance}`, () => release(view, act), { "data-name": "release" }),
    el("span", { class: "hint" }, obstacle ?? "two questions come first"));
}

async function cancel(view, act) {
  const { clearance, phase } = view.card, cancels = `Cancel ${clearance}`;
  const what = phase === "Ordered" ? "The order is given up. What it holds already is undone by a restoring order."
    : "It is given up; its record stays.";
  if (await agreed(cancels, [what], cancels, "Do not cancel")) await act({ do: "cancel", clearance });
}

export function cancelControl({ view, act }) {
  return el("div", { class: "offer" }, button(`Cancel ${view.card.clearance}`, () => cancel(view, act), { "data-name": "cancel" }));
}

// Who has to be informed of it.
function informedWords(view) {
  if (!view.crews.length) return "No crew is on. The operators have to be informed.";
  return `Crews on: ${crewsOn(view).join(", ")}. Each has to be informed who is in charge now, and so have the operators.`;
}

function reasonInput(clearance) {
  const attributes = { size: 30, maxlength: 200, autocomplete: "off", required: true, "data-name": "reason" };
  return drafted(el("input", { type: "text", ...attributes }), draftName("transfer for a reason", clearance));
}

function handOver({ view, act, staff, caller }, emergency) {
  const { clearance, holder } = view.card, reason = emergency ? reasonInput(clearance) : null;
  const names = namesOfRole(staff, "charge").filter((name) => name !== holder);
  const pick = choice([["", "choose"], ...names.map((name) => [name, name])], { "data-name": `to ${emergency}`, required: true });
  const to = drafted(pick, draftName(emergency ? "transfer in an emergency" : "transfer", clearance));
  const send = async () => {
    const text = reason?.value.trim();
    if (!to.value || text === "") return;
    const taken = `You take ${clearance} from ${holder} in an emergency, as the holder's supervisor, and give it to ${to.value}.`;
    const lines = [...(emergency ? [taken, `The reason: ${text}. ${NOT_KEPT}`]
      : [`${to.value} becomes the holder of ${clearance}; you no longer are.`]), informedWords(view)];
    const isMeant = await agreed(`Transfer ${clearance}`, lines, `Transfer to ${to.value}`, "Do not transfer");
    const { accepted } = isMeant ? await act({ do: "transfer", clearance, to: to.value, emergency }) : {};
    if (accepted && emergency) noteReason({ clearance, by: caller.name, to: to.value, text });
  };
  return form(send, { class: "offer line" },
    field(emergency ? "In an emergency, transfer to" : "Transfer to", to), reason ? field("Reason", reason) : null,
    el("button", { "data-name": `transfer ${emergency}` }, "Transfer"));
}

export const transferControl = (desk) => handOver(desk, false);
export const emergencyControl = (desk) => handOver(desk, true);
