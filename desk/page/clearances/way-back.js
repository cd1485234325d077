// The way back where a record is not closed: what the register answers, in words. Nothing is sent from here.

import { living } from "../orders/findings-shown.js";
import { saidOf } from "../replies/command-words.js";
import { faultWords } from "../replies/words.js";
import { el, panel } from "../shared/elements.js";
import { getWayBack } from "../shared/register.js";
import { room } from "../shared/watch.js";

const ADVICE = "Nothing here is sent. Each command is given by the one who is named, or another of that role, and states what has "
  + "then been done in the field. The list is the register's own, as it is now.";

const commandsIn = (text) => text.split("\n").filter(Boolean).map((line) => JSON.parse(line));

// What was answered, as what is drawn: commands, or a word why there are none.
async function wayIn({ kind, status, body, why }) {
  if (kind === "answered" && status === 200 && typeof body === "string") return { commands: commandsIn(body) };
  if (kind === "lost") return { word: `No answer: ${why}. It is asked for again.` };
  return { word: (await faultWords(status, body)).means };
}

function shown(id, { commands, word }) {
  if (word) return [el("p", {}, word)];
  if (!commands.length) return [el("p", {}, `${id} is closed.`)];
  return [
    el("p", {}, `${commands.length} ${commands.length === 1 ? "command closes" : "commands close"} ${id} from where it is, and leave each point as it is:`),
    el("ol", { class: "way-back" }, commands.map((command) => el("li", { "data-command": JSON.stringify(command) }, saidOf(command)))),
    el("p", { class: "hint" }, ADVICE),
  ];
}

// Folded, until somebody asks for it; then asked for again with each board.
export function wayBackOf(id) {
  const place = el("div");
  const node = el("details", { class: "way-back-place" }, el("summary", { "data-name": "way-back" }, `If ${id} can go no further: the way back`), place);
  let asked = null;
  const look = async () => {
    if (!node.open || asked === room.turns) return;
    asked = room.turns;
    const found = await wayIn(await getWayBack(id));
    panel(place, found, () => shown(id, found));
  };
  node.addEventListener("toggle", () => {
    asked = null;
    look();
  });
  return living(node, look);
}
