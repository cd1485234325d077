// Who speaks: the name that is chosen at the top. Offered are all names, or those that this login may use.

import { journal } from "../log/journal.js";
import { el } from "./elements.js";
import { namesOfRole } from "./network.js";
import { ownLogin } from "./served-files.js";
import { keepIn, readKept } from "./storage.js";
import { room } from "./watch.js";

const KEPT = "gridclear-caller"; // the name that this tab speaks in, over a reload
const ROLES = [["operator", "Operators"], ["charge", "May be in charge"], ["field", "Field"]];

const at = (id) => document.getElementById(id);
let own = { login: null, names: null };

export async function readLogin() {
  own = await ownLogin();
  const login = own.login ? `Login ${own.login}. ` : "";
  at("believed").textContent = own.names ? `${own.login || "Without a login nobody"} may use these names.` : `${login}The register believes this name.`;
  at("log-off").hidden = !own.login;
  at("log-off").addEventListener("click", logOff);
}

// The browser drops its login for a name that no login has, which the proxy takes for this address alone.
function logOff() {
  const request = new XMLHttpRequest();
  keepIn("sessionStorage", KEPT, null);
  request.open("GET", "log-off", true, "logged-off", "logged-off");
  request.addEventListener("loadend", () => location.replace(`logged-off.html?login=${own.login}`));
  request.send();
}

// "" without one, null where it is not known.
export const loginUsed = () => own.login;
export const keptName = () => readKept("sessionStorage", KEPT) ?? "";
export const mayUse = (name) => own.names === null || own.names.has(name);

// The names to choose from; one that is chosen stays.
export function listCallers(staff) {
  const chosen = at("caller").value;
  const group = ([role, label]) => {
    const names = namesOfRole(staff, role).filter(mayUse);
    return names.length ? el("optgroup", { label }, names.map((name) => el("option", { value: name }, name))) : null;
  };
  at("caller").replaceChildren(el("option", { value: "" }, "choose your name"), ...ROLES.map(group).filter(Boolean));
  at("caller").value = staff.has(chosen) && mayUse(chosen) ? chosen : "";
}

// Shows who speaks now, or that nobody does.
export function showCaller(row) {
  const role = row?.role === "charge" ? "may be in charge" : row?.role, boss = row?.supervisor;
  at("caller").value = row?.name ?? "";
  at("role").textContent = row ? `${row.name}: ${role}${boss ? `, supervisor ${boss}` : ""}` : "";
  keepIn("sessionStorage", KEPT, row?.name ?? null);
  drawNameless(row);
}

// Without a name, or in one that this login may not use or the staff has no more, no clearance is read, and so no alarm.
export function drawNameless(row) {
  const node = at("nameless");
  node.hidden = Boolean(row) && room.barred !== row.name;
  const alarms = journal.state === "read" ? "the alarms of the log, and its own" : "no alarms but its own";
  node.textContent = row ? `The register shows no clearance to ${row.name}: choose another name. What is shown of clearances is old.`
    : `No name is chosen: this desk shows ${alarms}, and no steps and no work.`;
}
