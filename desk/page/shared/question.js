// A question that the operator has to answer before anything goes on.

import { el, button, unbroken } from "./elements.js";

// Whether the operator says yes to this; `no` is what the other button says.
export async function agreed(title, lines, yes, no) {
  return (await ask(title, lines, [["yes", yes], [null, no]])) === "yes";
}

// Shows the lines and a button for each answer, as [value, text]; gives the value of the one that was taken, null where
// the question was left by Escape. The last answer, which does nothing, has the focus.
export function ask(title, lines, answers) {
  return new Promise((settle) => {
    let given = null;
    const close = (value) => { given = value; dialog.close(); };
    const buttons = answers.map(([value, text], place) =>
      button(text, () => close(value), { "data-answer": String(value), autofocus: place === answers.length - 1 }));
    const dialog = el("dialog", { class: "ask", "aria-labelledby": "ask-title" },
      el("h2", { id: "ask-title" }, title),
      lines.map((line) => el("p", {}, unbroken(line))),
      el("div", { class: "answers" }, buttons));
    dialog.addEventListener("close", () => {
      dialog.remove();
      settle(given);
    });
    document.body.append(dialog);
    dialog.showModal();
  });
}
