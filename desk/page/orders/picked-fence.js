// The fence of the points that are picked for an isolating order: what it reaches, and what it would be refused for.

import { el, panel, unbroken } from "../shared/elements.js";
import { wayWords } from "../shared/ways.js";
import { living, unfolding } from "./findings-shown.js";
import { sectionWords } from "./findings.js";

const MOST_NAMED = 12;

// Why a picked point does not belong to the fence; nothing where it does, or may do once no source is reached.
export function offFence(network, fence, name) {
  const point = network.points.get(name);
  const ends = [point?.from, point?.to].filter((end) => fence.sections.has(end)).length;
  if (!point || ends === 1 || (ends && fence.sources.length)) return [];
  const why = ends ? "both its ends are inside the fence" : "neither of its ends is in the fence";
  return [{ text: `would be refused (NOT_ON_FENCE): ${why}`, asks: false }];
}

// One source with the way to it; the others, which often have most of that way in common, on demand.
function sourceWords([first, ...others]) {
  return [
    el("ul", { class: "findings" },
      el("li", { class: "asks" }, unbroken(`⚠ the source ${first.source} is still reached: ${wayWords(first.way)}`)),
      el("li", {}, "By this the order would be refused (SOURCE_INSIDE): pick a point on the way.")),
    others.length ? el("details", {}, el("summary", {}, `${others.map(({ source }) => source).join(", ")} too`),
      others.map(({ way }) => el("p", {}, unbroken(wayWords(way))))) : null,
  ];
}

// What the fence has in it, and each source with the way to it.
export function fenceNotes(picked, fence) {
  const node = el("div", { class: "fence-notes", role: "status" });
  return living(node, () => {
    const { sections, sources } = fence();
    const names = [...sections].sort();
    const line = (most) => `The fence of these points, hatched: ${sectionWords(names, most)}.`;
    panel(node, [picked().size, names, sources], () => (picked().size ? [
      el("div", {}, unfolding(line(MOST_NAMED), line(names.length))),
      ...(sources.length ? sourceWords(sources) : [el("p", { class: "good" }, "✓ No source is reached.")]),
    ] : el("p", { class: "hint" }, "Pick a point, and the fence is hatched.")));
  });
}
