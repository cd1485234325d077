// Alt with the access key of something on the page goes there, in each browser: with C to the name, with B to the board, with
// N to the next act, with T to the repeat. The focus moves, and nothing is done yet.

const ACTS = ["[data-goes]", ".main:not(:disabled)", "input:not(:disabled)", "button:not(:disabled)"];
const GIVING_UP = "[data-does=cancel], [data-does=transfer], [data-does=emergency]"; // none of these is the next act

function goTo(found) {
  found?.focus();
  found?.scrollIntoView({ block: "nearest" });
}

function nextAct() {
  for (const act of ACTS) {
    const found = [...document.querySelectorAll(`main .next-body ${act}, main .next .editor ${act}, main .next form ${act}`)];
    const next = found.find((node) => !node.closest(GIVING_UP));
    if (next) return next;
  }
  return document.querySelector("main h2");
}

function onKey(event) {
  if (!event.altKey || event.ctrlKey || event.metaKey || document.querySelector("dialog")) return;
  const node = document.querySelector(`[accesskey="${CSS.escape(event.key.toLowerCase())}"]`);
  if (!node) return;
  event.preventDefault();
  if (node.matches("select")) node.focus();
  else node.click();
}

export function startKeys(skip, next, repeat) {
  skip.addEventListener("click", (event) => {
    event.preventDefault();
    goTo(document.querySelector("main h2"));
  });
  next.addEventListener("click", () => goTo(nextAct()));
  repeat.addEventListener("click", () => goTo(document.querySelector('main [data-name="repeat-text"]:not(:disabled)') ?? nextAct()));
  addEventListener("keydown", onKey);
}
