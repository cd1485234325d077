// The page: what is shown, and what is drawn again when the register has answered.

import { BoardPage } from "./board/board-page.js";
import { ShiftPage } from "./board/hand-over.js";
import { MinePage } from "./board/records-of-name.js";
import { ClearancePage } from "./clearances/clearance-page.js";
import { presentStep } from "./clearances/offers.js";
import { startSeveral } from "./clearances/several-names.js";
import { watchGiven } from "./clearances/steps-given-out.js";
import { Diagram, MOST_DRAWN } from "./diagram/diagram.js";
import { NetList } from "./diagram/network-list.js";
import { PointsPage } from "./diagram/points-page.js";
import { dueOn, noteLacking } from "./log/board-lacks.js";
import { journal, newest } from "./log/journal.js";
import { LogPage } from "./log/log-page.js";
import { readBackTo } from "./log/reading-back.js";
import { announceUpdates } from "./log/updates.js";
import { learn } from "./orders/findings-shown.js";
import { turnedBySteps } from "./orders/findings.js";
import { JumperForm } from "./orders/jumper.js";
import { noteBefore } from "./orders/position-before.js";
import { RequestForm } from "./orders/request.js";
import { SwitchEditor } from "./orders/switch-order.js";
import { give, isSending, onSending, setCaller, takeUpPending } from "./replies/commands.js";
import { lookUpOpen, recallRefused } from "./replies/not-known.js";
import { readRefusals } from "./replies/refusals.js";
import { showReplies } from "./replies/replies.js";
import { drawNameless, keptName, listCallers, mayUse, readLogin, showCaller } from "./shared/caller.js";
import { tidyDrafts } from "./shared/drafts.js";
import { choice, el, field, panel } from "./shared/elements.js";
import { startKeys } from "./shared/keys.js";
import { noteRoom, recallAlarms } from "./shared/live-alarms.js";
import { namesOfRole, network } from "./shared/network.js";
import { pointStates } from "./shared/point-states.js";
import { guardPresses } from "./shared/press-guard.js";
import { drawAlarms, drawTab, noteDrawn, startTop } from "./shared/top.js";
import { fromAfar, keepStill } from "./shared/waiting-lists.js";
import { onRoom, room, startWatch, viewOf, watchAs } from "./shared/watch.js";

const at = (id) => document.getElementById(id);

let desk, page = null, chosen = null;
let drawnShape = "", listedStaff = ""; // what the diagram and the list of names were made from

// A page that is a heading, a form and the diagram.
class FormPage {
  #desk;
  constructor(desk, title, form) {
    this.#desk = desk;
    this.title = title;
    this.node = el("section", { class: "clearance" }, el("h2", { tabindex: -1 }, title),
      el("div", { class: "columns" }, el("div", { class: "next" }, form), el("div", {}, el("div", { class: "diagram-place" }))));
  }
  leave() { this.#desk.pick(null); }
}

// The diagram alone, with the clearance whose fence is hatched.
class DiagramPage {
  title = "Diagram";
  #fenced = el("div", { class: "line" });
  node = el("section", {}, el("h2", { tabindex: -1 }, "Diagram"), this.#fenced, el("div", { class: "diagram-place large" }));
  update() {
    const ids = room.board.map((row) => row.id).filter((id) => viewOf(id)?.fence.length);
    panel(this.#fenced, [ids, chosen], () => {
      const pick = choice([["", "none"], ...ids.map((id) => [id, id])], {
        "data-name": "fence", onchange: () => { chosen = pick.value; update(); } }, chosen ?? "");
      return field("Hatch the fence of", pick);
    });
  }
}

function formFor(role, title, make) {
  if (desk.caller?.role === role) return new FormPage(desk, title, make().node);
  const names = namesOfRole(desk.network.staff, role).slice(0, 12).join(", ");
  const what = role === "charge" ? "Those who may be in charge ask for clearances" : "Operators write switch orders and add jumpers";
  return new FormPage(desk, title, el("p", {}, `${what}: ${names}. Say above that you are one of them.`));
}

const ROUTES = [
  [/^#\/clearance\/([A-Z0-9-]+\/\d+)$/, (id) => { chosen = id; return new ClearancePage(desk, id); }],
  [/^#\/diagram$/, () => new DiagramPage()],
  [/^#\/points(?:\/([A-Z0-9-]+))?$/, (name) => new PointsPage(desk, name)],
  [/^#\/mine$/, () => new MinePage(desk)],
  [/^#\/request$/, () => formFor("charge", "Ask for a clearance", () => new RequestForm(desk))],
  [/^#\/jumper$/, () => formFor("operator", "Jumpers", () => new JumperForm(desk))],
  [/^#\/log$/, () => new LogPage()],
  [/^#\/shift$/, () => new ShiftPage(desk)],
  [/^#\/switch$/, () => formFor("operator", "Write a switch order", () => new SwitchEditor(desk))],
  [/.*/, () => new BoardPage(desk)],
];

function turn(focus = true) {
  page?.leave?.();
  for (const [pattern, make] of ROUTES) {
    const found = pattern.exec(location.hash);
    if (!found) continue;
    page = make(found[1]);
    break;
  }
  at("main").replaceChildren(page.node);
  placeDiagram();
  drawTab("page", page.title);
  for (const link of document.querySelectorAll("nav a")) {
    link.setAttribute("aria-current", link.hash === (location.hash || "#/board") ? "page" : "false");
  }
  update();
  if (focus) page.node.querySelector("h2").focus();
}

function placeDiagram() {
  const place = page?.node.querySelector(".diagram-place");
  if (!place) return;
  place.replaceChildren(desk.diagram.node);
  const legend = place.querySelector(".legend");
  if (legend) legend.open = !place.classList.contains("small");
}

// The diagram is made again where a jumper has come, and the list of names where the register is another.
function followNetwork() {
  const staff = JSON.stringify([...network.staff.values()]);
  if (drawnShape !== network.shape) {
    drawnShape = network.shape;
    const before = desk.diagram;
    desk.diagram = makeDiagram();
    desk.diagram.pick(desk.picking);
    if (before) desk.diagram.viewAs(before);
    placeDiagram();
  }
  if (listedStaff === staff) return;
  listedStaff = staff;
  listCallers(network.staff);
  desk.caller = network.staff.get(desk.caller?.name) ?? desk.caller; // as an update has made the row
  if (desk.caller) showCaller(desk.caller);
}

// The sections of a clearance; of a switch order those at its first point.
function placesOf(view) {
  if (!view) return [];
  if (view.fence.length) return view.fence;
  if (view.work) return [view.work];
  const point = desk.network.points.get(view.steps[0]?.text.split(" ")[1]);
  return point ? [point.from, point.to] : [];
}

// Where the network is too large to be read as a whole, the diagram begins at the chosen clearance.
let looked = "";
function lookAtChosen() {
  const names = placesOf(viewOf(chosen));
  const key = `${location.hash} ${names}`;
  if (looked === key) return;
  looked = key;
  desk.diagram.lookAt(names);
}

function drawDiagram() {
  if (!desk.diagram.node.isConnected) return;
  desk.diagram.update({ states: desk.states(), room, turned: turnedNow(), fence: desk.picking?.fence?.() ?? new Set(viewOf(chosen)?.fence ?? []) });
}

// What the order that is being written, or the present step of the chosen clearance, makes live and dead.
function turnedNow() {
  if (desk.picking?.turned) return desk.picking.turned();
  const view = viewOf(chosen), step = view ? presentStep(view) : null;
  return step && page.title === chosen ? turnedBySteps(desk, [step.text]) : undefined;
}

function update() {
  followNetwork();
  drawNameless(desk.caller);
  noteBefore();
  tidyDrafts();
  watchGiven();
  drawAlarms();
  page?.update?.();
  learn();
  drawDiagram();
  lookAtChosen();
  noteDrawn(true);
}

function speakAs(name) {
  const row = mayUse(name) ? network.staff.get(name) ?? null : null;
  desk.caller = row;
  setCaller(row?.name ?? null);
  if (row) watchAs(row.name);
  showCaller(row);
  if (page instanceof FormPage || page instanceof MinePage) turn(false);
  else update();
  if (page instanceof ClearancePage && document.activeElement === document.body) page.focusNext();
}

function makeDiagram() {
  return network.sections.size > MOST_DRAWN ? new NetList(network) : new Diagram(network, (kind, name) => { location.hash = `#/points/${name}`; });
}

function makeDesk() {
  let known = null;
  const states = () => known ??= pointStates(room);
  onRoom(() => { known = null; });
  const redraw = () => { drawDiagram(); learn(); };
  const pick = (picking) => { desk.picking = picking; desk.diagram.pick(picking); drawDiagram(); };
  return { network, diagram: null, caller: null, chosen: () => chosen, states, redraw, speakAs, act: give, picking: null, pick };
}

// What has come to the log since the last board.
let logged = 0;
async function followLog() {
  if (logged === room.turns) return;
  logged = room.turns;
  const due = dueOn(room);
  await updatedBy(async () => { noteLacking(await newest() ? due : null); });
  announceUpdates();
  lookUpOpen();
  const granted = room.board.filter(({ phase }) => phase === "Granted").map(({ id }) => id);
  await updatedBy(() => readBackTo(granted)); // for what was found live there
}

async function updatedBy(read) {
  const before = journal.entries;
  await read();
  if (journal.entries !== before) fromAfar(update);
}

// Until the register has said what there is, nothing can be shown.
async function firstNetwork() {
  await startWatch();
  if (room.network !== null) return;
  at("unknown").hidden = false;
  await new Promise((settle) => { onRoom(() => { if (room.network !== null) settle(); }); });
}

async function start() {
  guardPresses();
  keepStill();
  recallAlarms();
  showReplies(at("replies"));
  recallRefused();
  startTop();
  await Promise.all([firstNetwork(), readLogin()]);
  performance.mark("network-read");
  desk = makeDesk();
  at("caller").addEventListener("change", () => speakAs(at("caller").value));
  startKeys(at("skip"), at("to-next"), at("to-repeat"));
  startSeveral(at("several"), update);
  followNetwork();
  onRoom(() => {
    noteDrawn(false); // until it is: a fault of the page may come between
    noteRoom(room);
    followLog();
    fromAfar(update);
  });
  addEventListener("storage", recallAlarms);
  onSending(() => document.body.classList.toggle("sending", isSending()));
  addEventListener("hashchange", () => turn());
  turn(false);
  requestAnimationFrame(() => requestAnimationFrame(() => performance.measure("drawn", "network-read")));
  speakAs(keptName());
  takeUpPending();
  readRefusals();
  document.body.dataset.ready = "yes";
}

start();
