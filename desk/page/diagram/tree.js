// The tree by which the diagram lies, and the columns and rows of its sections. It is a function of the file's network:
// jumpers, the positions of now, and when a page was opened never shape it, so that each desk draws the same picture.

import { reached } from "../shared/ways.js";

const MOST_STRIPS = 12;
const NEAR = 4; // points away from a source: the sections up to there are its rank

// The sections and points that are no jumpers: `ways` has the points of each section, `sections` those that have any.
function fixedOf({ sections, ways }) {
  const fixed = new Map([...ways].map(([name, points]) => [name, points.filter(({ jumper }) => !jumper)]));
  return { sections: [...sections.values()].filter(({ name }) => fixed.get(name).length), ways: fixed };
}

const other = (point, name) => (point.from === name ? point.to : point.from);
const isWay = (point) => point.normal !== "open";

// The sources that the drawing begins at. One that is reached, over points that are not normally open, from another of over
// one and a half times its rank is no such: a generator at the end of a feeder is drawn there.
function rootsOf(fixed) {
  const far = new Map(fixed.sections.filter(({ source }) => source).map(({ name }) => [name, new Map()]));
  for (const [source, own] of far) {
    for (const [name, step] of reached(fixed, source, isWay)) own.set(name, step ? own.get(step.from) + 1 : 0);
  }
  const rank = (own) => [...own.values()].filter((points) => points <= NEAR).length;
  return [...far.keys()].filter((name) => [...far.values()].every((own) => !own.has(name) || 2 * rank(own) <= 3 * rank(far.get(name))));
}

// First over the points that are not normally open, so that it follows the feeders; all, where that is not known.
function spanning(fixed) {
  const { sections, ways } = fixed;
  const parent = new Map(), order = [], roots = [];
  const reach = (name, from, point) => { parent.set(name, from ? { from, point } : null); order.push(name); };
  const grow = (start, leads) => {
    for (let place = start; place < order.length; place++) {
      for (const point of ways.get(order[place])) {
        const next = other(point, order[place]);
        if (!leads(point) || parent.has(next)) continue;
        reach(next, order[place], point);
        if (leads !== isWay) grow(order.length - 1, isWay);
      }
    }
  };
  const plant = (name) => { roots.push(name); reach(name); };
  const growAll = (start) => { grow(start, isWay); grow(0, () => true); };
  for (const name of rootsOf(fixed)) plant(name);
  growAll(0);
  for (const { name } of sections) {
    if (parent.has(name)) continue;
    plant(name);
    growAll(order.length - 1);
  }
  return { parent, order, roots };
}

// Each section's children, the one with the longest way after it first.
function childrenOf({ parent, order }) {
  const children = new Map(order.map((name) => [name, []])), long = new Map();
  for (const name of [...order].reverse()) {
    const own = children.get(name).sort((a, b) => long.get(b) - long.get(a) || (a < b ? -1 : 1));
    long.set(name, 1 + (own.length ? long.get(own[0]) : 0));
    const up = parent.get(name);
    if (up) children.get(up.from).push(name);
  }
  return children;
}

export function treeOf(network) {
  const tree = spanning(fixedOf(network));
  return { ...tree, children: childrenOf(tree) };
}

// Columns and rows. A chain of first children keeps one row; what branches off goes below, from its end backwards, so
// that no line down runs through a section. Where a strip has its rows, the next source begins a strip beside it.
function placed({ roots, children }, limit) {
  const spots = new Map();
  let bottom = [], begin = 0, columns = 0, rows = 0;
  const place = (first, column) => {
    const chain = [first];
    while (children.get(chain.at(-1)).length) chain.push(children.get(chain.at(-1))[0]);
    const row = Math.max(...chain.map((_, step) => (bottom[column + step] ?? -1) + 1));
    chain.forEach((name, step) => {
      spots.set(name, { name, column: column + step, row });
      bottom[column + step] = row;
    });
    columns = Math.max(columns, column + chain.length);
    rows = Math.max(rows, row + 1);
    for (let step = chain.length - 1; step >= 0; step--) {
      for (const child of children.get(chain[step]).slice(1)) place(child, column + step + 1);
    }
  };
  for (const root of roots) {
    if (Math.max(0, ...bottom.filter((row) => row !== undefined)) + 1 >= limit && bottom.length) {
      begin = columns;
      bottom = [];
    }
    place(root, begin);
  }
  return { spots, columns, rows };
}

// The ways to place a tree: in one strip, in two beside one another, and so on.
export function placings(tree) {
  const whole = placed(tree, Infinity), found = [whole];
  for (let strips = 2; strips <= MOST_STRIPS && strips <= tree.roots.length; strips++) {
    const next = placed(tree, Math.ceil(whole.rows / strips)), last = found.at(-1);
    if (next.columns !== last.columns || next.rows !== last.rows) found.push(next);
  }
  return found;
}
