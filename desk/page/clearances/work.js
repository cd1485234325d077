// Work under a granted clearance: tests, grounds and crews, by its holder.

import { has as isThere } from "../replies/effects.js";
import { drafted, draftName } from "../shared/drafts.js";
import { el, button, field, form, table } from "../shared/elements.js";
import { liveIn, untested } from "../shared/live-alarms.js";
import { wholeTime } from "../shared/moments.js";
import { agreed, ask } from "../shared/question.js";
import { room } from "../shared/watch.js";

// The other clearances under which a crew of this name is on.
function elsewhere(crew, { card }) {
  return [...room.views].filter(([id, { crews }]) => id !== card.clearance && crews.includes(crew)).map(([id]) => id);
}

// The crews that are on, each with the other clearances that it is on under.
export function crewsOn(view) {
  return view.crews.map((crew) => {
    const others = elsewhere(crew, view);
    return others.length ? `${crew} (also under ${others.join(", ")})` : crew;
  });
}

const crewWords = (view, todo) => view.crews.length ? `On now: ${crewsOn(view).join(", ")}. ${todo}` : "No crew is on.";

function foundWords({ id, section, by, at }) {
  return `${section} was found live under ${id}${by ? ` by ${by}, ${wholeTime(at)}` : "; who said so, and when, is not known here"}.`;
}

// What ends an alarm is asked about; what is given again is always.
export async function testedDead(view, section, give, again = false) {
  const live = liveIn([section]), isAsked = live.length > 0 || again;
  const ends = `Under ${view.card.clearance} that ends the alarm at each desk.`;
  const lines = [...live.map(foundWords), `Was it tested since then, and found dead? ${live.length ? ends : ""}`];
  if (isAsked && !(await agreed(`${section}: tested dead?`, lines, `${section} is dead`, "Do not send it"))) return;
  await give({ do: "test", dead: true });
}

export async function testedLive(view, section, give) {
  const lines = ["It was found live: its test, if it has one, is taken away. Each desk with a log shows an alarm until it is "
    + `tested dead or ${view.card.clearance} is released; another may show none, so say it on the line too.`,
  crewWords(view, "Call them off the section first.")];
  const isMeant = await agreed(`${section}: tested live?`, lines, `${section} is live`, "Do not send it");
  if (isMeant) await give({ do: "test", dead: false });
}

// With a crew on, the ground of the work section has to stay, or to go back: nothing is to be stated then.
export async function groundOff(view, section, give) {
  if (section === view.work && view.crews.length) {
    const stays = crewWords(view, "The ground stays, or goes back on, until each of them has left and is signed off.");
    return ask(`Ground off ${section}: not yet`, [`It would be refused (CREWS_ON). ${stays}`], [[null, "Go back"]]);
  }
  const what = `${section} is no longer grounded under ${view.card.clearance}`, yes = `The ground of ${section} is off`;
  const lines = [`The ground is off in the field: ${what}, and its test is gone too.`,
    crewWords(view, `Do they all know that ${what}?`)];
  return await agreed(`Ground off ${section}?`, lines, yes, "Do not send it") ? give({ do: "unground" }) : null;
}

// What is known of a section: its test and its ground, an alarm, and a test that is missing while work goes on.
export function sectionState(view, section) {
  const grounded = isThere(view, "Ground", section) ? "grounded" : "no ground", tested = isThere(view, "Tested", section);
  const live = liveIn([section]).map(({ id }) => id);
  if (live.length) return [el("strong", { class: "live" }, "⚠ TESTED LIVE"), `${liveWords(view, live, tested)}, ${grounded}`];
  if (tested) return [`tested dead, ${grounded}`];
  const missing = untested(view).includes(section);
  return [el("span", { class: missing ? "bad" : null }, "not tested"), `, ${grounded}`];
}

// Where another clearance found it live, which, and what this one found.
function liveWords({ card }, live, tested) {
  if (live.length === 1 && live[0] === card.clearance) return "";
  return ` under ${live.join(", ")}${live.includes(card.clearance) ? "" : `, ${tested ? "tested dead" : "not tested"} here`}`;
}

function sectionRow(view, section, act) {
  const give = (parts) => act({ clearance: view.card.clearance, section, ...parts });
  return el("tr", { class: liveIn([section]).length ? "live" : null },
    el("th", { scope: "row" }, section, section === view.work ? [" ", el("span", { class: "chip" }, "work section")] : null),
    el("td", {}, sectionState(view, section)),
    el("td", { class: "say" },
      button("Tested dead", () => testedDead(view, section, give), { "data-name": `dead ${section}`, "aria-label": `${section} tested dead` }),
      isThere(view, "Ground", section)
        ? button("Ground is off", () => groundOff(view, section, give), { "data-name": `ground ${section}`, "aria-label": `${section}: ground is off` })
        : button("Ground is on", () => give({ do: "ground" }), { "data-name": `ground ${section}`, "aria-label": `${section}: ground is on` })));
}

// Away from "Tested dead", and of another look.
function dangerControl(view, sections, act) {
  const give = (section) => (parts) => act({ clearance: view.card.clearance, section, ...parts });
  return el("div", { class: "danger" }, el("span", { class: "hint" }, "Found live by a test:"), sections.map((section) =>
    button(`⚠ ${section} tested live`, () => testedLive(view, section, give(section)), { "data-name": `live ${section}` })));
}

// Where a section of the fence was tested live, under another clearance too, or the crew is on under another, it is signed
// on only after a question; and always where that is given again.
export async function signOn(view, crew, act, again = false) {
  const { clearance } = view.card, others = elsewhere(crew, view);
  const lines = [...liveIn(view.fence).map(({ id, section }) => `Tested live under ${id}: ${section}.`),
    ...(others.length ? [`${crew} is on under ${others.join(", ")}.`] : [])];
  const means = `A crew that is signed on works under ${clearance}. Has it come, and not left again?`;
  const isAsked = lines.length > 0 || again, yes = `Sign ${crew} on all the same`;
  if (isAsked && !(await agreed(`Sign ${crew} on to ${clearance}?`, [...lines, means], yes, "Do not sign it on"))) return;
  await act({ do: "sign_on", clearance, crew });
}

export async function signOff(view, crew, act) {
  const means = `All of ${crew} have left the work, and the line may be given back without them.`, { clearance } = view.card;
  if (await agreed(`Sign ${crew} off?`, [means], `${crew} is off`, "Leave it on")) await act({ do: "sign_off", clearance, crew });
}

function crewsControl(view, act) {
  const crew = drafted(el("input", { type: "text", size: 12, maxlength: 24, autocomplete: "off", "data-name": "crew" }), draftName("sign_on", view.card.clearance));
  const send = () => signOn(view, crew.value.trim().toUpperCase(), act);
  return el("div", {},
    form(send, { class: "line" }, field("Crew", crew), el("button", { "data-name": "sign-on" }, "Sign on")),
    view.crews.length ? el("ul", { class: "crews" }, view.crews.map((name, place) => el("li", {}, `${crewsOn(view)[place]} is on `,
      button(`Sign ${name} off`, () => signOff(view, name, act), { "data-name": `off ${name}` }))))
      : el("p", {}, "No crew is on."));
}

export function workControl({ view, act }) {
  const sections = [...view.fence].sort((a, b) => (b === view.work) - (a === view.work));
  return el("div", { class: "offer" },
    table(["Section", "Now", "Say"], sections.map((section) => sectionRow(view, section, act)), { class: "work" }),
    crewsControl(view, act), dangerControl(view, sections, act));
}
