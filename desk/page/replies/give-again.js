// A command is given again after its reply was lost. What gives something up, or lets people work, is asked about as it
// was the first time: since then much may have changed.

import { grant, release } from "../clearances/grant-release.js";
import { groundOff, signOff, signOn, testedDead, testedLive } from "../clearances/work.js";
import { agreed } from "../shared/question.js";
import { viewOf } from "../shared/watch.js";
import { saidOf } from "./command-words.js";

const ASKED = {
  grant: (view, command, act) => grant(view, act),
  release: (view, command, act) => release(view, act),
  sign_off: (view, { crew }, act) => signOff(view, crew, act),
  sign_on: (view, { crew }, act) => signOn(view, crew, act, true),
  unground: (view, { section }, act) => groundOff(view, section, (parts) => act({ section, ...parts })),
  test: (view, { section, dead }, act) =>
    (dead ? testedDead : testedLive)(view, section, (parts) => act({ section, ...parts }), true),
};

// Gives it in the name that it had, with the moment at which it is given again.
export async function giveAgain({ at, ...command }, give) {
  if (!ASKED[command.do]) return give(command);
  const act = (parts) => give({ by: command.by, clearance: command.clearance, ...parts }), view = viewOf(command.clearance);
  if (view) return ASKED[command.do](view, command, act);
  const lines = [`${saidOf(command)}.`, `${command.clearance} could not be looked at.`];
  return await agreed("Give it again?", lines, "Give it again", "Do not give it") ? give(command) : null;
}
