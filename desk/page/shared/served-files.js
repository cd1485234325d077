// Files that the proxy serves where they are there: the points file, whose positions are the normal ones, and the list of
// logins. Names have no comma, no quote and no blank, so a field is what lies between two commas.

import { parsed } from "./storage.js";

const PATIENCE = 15000; // milliseconds: the watch over the register waits for it

// The text of a file: empty where it is not there, null where no answer came.
async function text(path) {
  const answer = await fetch(path, { cache: "no-store", signal: AbortSignal.timeout(PATIENCE) }).catch(() => null);
  if (answer?.ok) return answer.text().catch(() => null);
  return answer && answer.status < 500 ? "" : null;
}

// The rows of a file as objects by its header; null where the file is not there, or is another one, and where no answer came.
async function rows(path, header, found = text(path)) {
  const lines = ((await found) ?? "").replace(/^\uFEFF/, "").split(/\r\n|\n|\r/).filter(Boolean)
    .map((line) => line.split(",").map((part) => part.replace(/^"|"$/g, "")));
  const [head = [], ...rest] = lines;
  if (head.join() !== header) return null;
  return rest.map((fields) => Object.fromEntries(head.map((name, place) => [name, fields[place]])));
}

const NOTHING = { known: false, of: () => null };
let normal = null;

// The normal position of each point of that name between these two sections: a row with other ends is of another file.
function normalIn(found) {
  const known = found.filter(({ position }) => ["open", "closed"].includes(position));
  const positions = new Map(known.map(({ point, from, to, position }) => [`${point} ${from} ${to}`, position]));
  return { known: true, of: (name, from, to) => positions.get(`${name} ${from} ${to}`) ?? null };
}

// Of another network: an update gives the points that have come with it their normal positions.
export const forgetNormal = () => { normal = null; };

// Normal positions, by the points file that the register was made from: { known, of(name, from, to) }. Asked for once, and
// again where no answer came.
export async function normalPositions() {
  if (normal) return normal;
  const file = await text("normal"), found = await rows("normal", "point,from,to,lockable,remote,position", file);
  if (file !== null) normal = found ? normalIn(found) : NOTHING;
  return normal ?? NOTHING;
}

// Whose login this is, null where no answer came; and the names that it may use: null for all, where there is no list of logins.
export async function ownLogin() {
  const login = await text("login"), found = await rows("logins", "login,employee");
  return { login, names: found && new Set(found.filter((row) => row.login === login).map(({ employee }) => employee)) };
}

// What keeps the register, as the machine's timers wrote it: null where it is not served, undefined where no answer came.
export async function keepingFile() {
  const file = await text("keeping");
  return file === "" ? null : parsed(() => file ?? "");
}
