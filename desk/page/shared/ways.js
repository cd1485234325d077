// Ways through the network: a fence, the way to a source, and what a CLOSE would join.

const otherEnd = (point, name) => (point.from === name ? point.to : point.from);

// The sections that are reached from one, the nearest first, each with the step that led to it; null at the first.
export function reached({ ways }, start, passes) {
  const found = new Map([[start, null]]);
  for (const name of found.keys()) {
    for (const point of ways.get(name) ?? []) {
      const next = otherEnd(point, name);
      if (!found.has(next) && passes(point)) found.set(next, { from: name, point: point.name });
    }
  }
  return found;
}

// The way to a section that was reached: section, point, section and so on.
function wayTo(found, end) {
  const way = [end];
  for (let step = found.get(end); step; step = found.get(step.from)) way.unshift(step.from, step.point);
  return way;
}

const sourcesOf = ({ sections }, found) => [...found.keys()].filter((name) => sections.get(name)?.source);

// The fence of these points, whatever their positions: its sections, and each source in it with the way there, first the
// least by name, as the register names it. Of the others a way that leads through another source is left out.
export function fenceOf(network, work, cut) {
  const found = reached(network, work, (point) => !cut.has(point.name));
  const isDirect = (way) => way.filter((name, place) => place % 2 === 0 && network.sections.get(name)?.source).length === 1;
  const sources = sourcesOf(network, found).sort().map((source) => ({ source, way: wayTo(found, source) }))
    .filter(({ way }, place) => place === 0 || isDirect(way));
  return { sections: new Set(found.keys()), sources };
}

// What closing a point does while points have these positions: { loop: way }, { joins: sources, way }, or null.
export function closingOf(network, positionOf, point) {
  const passes = (one) => one.name !== point.name && positionOf(one.name) !== "open";
  const here = reached(network, point.from, passes);
  if (here.has(point.to)) return { loop: [...wayTo(here, point.to), point.name, point.from] };
  const there = reached(network, point.to, passes);
  const [one] = sourcesOf(network, here), [other] = sourcesOf(network, there);
  if (!one || !other) return null;
  return { joins: [one, other], way: [...wayTo(here, one).reverse(), point.name, ...wayTo(there, other)] };
}

// A way in words: sections with the points between them.
export const wayWords = (way) => way.map((name, place) => (place % 2 ? ` ─ ${name} ─ ` : name)).join("");
