// Where the texts of the diagram lie. Each has places around its own box, and takes the best that is free: no text lies
// on another, on a section or on a point. Names come first, as if there were nothing to say, so that each stays in its
// place. A mark that finds no place is shortened; one that is kept then takes the place of a name, which its title has.

import { partsOf } from "./boxes.js";

const CELL = 80, ROWS = 1e5; // of the index of what lies where: the size of a cell, and more than there are below one another
const GAP = 3, WIDE = 5, HIGH = 2; // between a box and its text; around each text, so that two are not read as one
const BY = 2, RINGS = 5, FAR = 9; // how far off a text lies, in its lines: where it is free, at most, and if it is kept
export const LINE = 1.18; // height of a line of text, in sizes
const ACROSS = 24, ALONG = 7, FARTHER = 4; // what a text costs over a line that lies, over one that rises, one ring farther out
const SEEN = 20;        // how much of a box has to be in view for its texts to be there
const BEYOND = 60;      // what it costs beyond the drawing, where it is cut off while the whole network is shown

const fonts = document.createElement("canvas").getContext("2d");
const widths = { true: new Map(), false: new Map() }; // of texts in the size 20, bold and plain

function widthOf(text, size, bold) {
  const known = widths[Boolean(bold)];
  if (!known.has(text)) {
    fonts.font = `${bold ? "bold " : ""}20px "DejaVu Sans", "Liberation Sans", system-ui, sans-serif`;
    known.set(text, fonts.measureText(text).width);
  }
  return (known.get(text) * size) / 20;
}

// Rectangles [left, top, right, bottom] by the cells that they touch.
class Places {
  #cells = new Map();

  #each([left, top, right, bottom], does) {
    for (let x = Math.floor(left / CELL); x <= Math.floor(right / CELL); x++) {
      for (let y = Math.floor(top / CELL); y <= Math.floor(bottom / CELL); y++) does(x * ROWS + y);
    }
  }

  add(rect) {
    this.#each(rect, (cell) => (this.#cells.get(cell) ?? this.#cells.set(cell, []).get(cell)).push(rect));
  }

  // Those that lie over this one.
  over(rect) {
    const [left, top, right, bottom] = rect, found = new Set();
    this.#each(rect, (cell) => {
      for (const one of this.#cells.get(cell) ?? []) if (one[0] < right && left < one[2] && one[1] < bottom && top < one[3]) found.add(one);
    });
    return found;
  }

  isFree(rect) {
    return this.over(rect).size === 0;
  }
}

// The places around a box, from the best on: [left, top, cost, ring]; beside the edge of the view also what is moved in.
// `more` is what comes after a text that lies in the middle.
function* around({ box: [left, top, right, bottom], size, sides, more = 0, kept, rings = kept ? FAR : RINGS }, width, height, view) {
  const line = size * LINE;
  const middle = (left + right - width + more) / 2, level = (top + bottom - height) / 2;
  const moved = view ? Math.min(Math.max(middle, view[0] + WIDE), view[2] - width - WIDE) : middle, isMoved = moved !== middle;
  for (let ring = 0; ring < rings; ring++) {
    const out = GAP + ring * line, beside = out + WIDE - GAP + 1, shifts = [0, (ring + 1) * line, -(ring + 1) * line];
    const ways = {
      above: [[middle, top - out - height], [left, top - out - height], [right - width, top - out - height], ...(isMoved ? [[moved, top - out - height]] : [])],
      below: [[middle, bottom + out], [left, bottom + out], [right - width, bottom + out], ...(isMoved ? [[moved, bottom + out]] : [])],
      right: shifts.map((by) => [right + beside, level + by]),
      left: shifts.map((by) => [left - beside - width, level + by]),
    };
    for (const [place, side] of sides.entries()) {
      for (const [shift, [x, y]] of ways[side].entries()) yield [x, y, place * 2 + shift + ring * FARTHER, ring];
    }
  }
}

// In the middle of its box, or of what of it is in view, in the size that it has there; null where it is too wide.
function inside({ inside: size, bold, box: [left, top, right, bottom] }, form, view) {
  const half = widthOf(form[0].text, size, bold) / 2, y = (top + bottom - size * LINE) / 2;
  const low = Math.max(left + 2, view?.[0] ?? -Infinity) + half, high = Math.min(right - 2, view?.[2] ?? Infinity) - half;
  if (low > high || (view && (y < view[1] || y + size * LINE > view[3]))) return null;
  return { x: Math.min(Math.max((left + right) / 2, low), high), y, size, anchor: "middle", form, ring: 0, rect: null };
}

// Whether enough of a box is in view for its texts to be there; otherwise they are out of view with it.
function isSeen([left, top, right, bottom], view) {
  const wide = Math.min(right, view[2]) - Math.max(left, view[0]), high = Math.min(bottom, view[3]) - Math.max(top, view[1]);
  return wide >= Math.min(SEEN, (right - left) / 2) && high >= (bottom - top) / 2;
}

const isWithin = ([left, top, right, bottom], [l, t, r, b]) => left >= l && top >= t && right <= r && bottom <= b;
const isOutside = ([left, top, right, bottom], [l, t, r, b]) => right <= l || left >= r || bottom <= t || top >= b;

export class Labels {
  #solid = new Places(); #lines = new Places(); #jumpers = new Places(); #names = new Places(); #size;

  // Boxes are what no text may lie on; edges are lines, which it had better not; the size is that of the drawing.
  constructor(boxes, edges, size) {
    this.#size = size;
    for (const box of boxes) this.#solid.add(box);
    for (const { path, point } of edges) for (const part of partsOf(path)) (point.jumper ? this.#jumpers : this.#lines).add(part);
  }

  // What it costs to lie there, and whether it lies over a line. That of a jumper, which comes and goes, moves nothing.
  #costOf(rect) {
    const around = [rect[0], rect[1] - 0.1, rect[2], rect[3] + 0.1], lines = this.#lines.over(around);
    let cost = isWithin(rect, [0, 0, this.#size.width, this.#size.height]) ? 0 : BEYOND;
    for (const [left, , right] of lines) cost += right > left ? ACROSS : ALONG;
    return { cost, over: lines.size > 0 || !this.#jumpers.isFree(around) };
  }

  // In the best place that it may have, by its rectangle and its ring.
  #best(label, form, may, view) {
    const own = view && isSeen(label.box, view) ? view : null, fits = view ? (own ? isWithin : isOutside) : () => true;
    const { size, more = 0 } = label, height = form.length * size * LINE;
    const width = Math.max(...form.map(({ text }) => widthOf(text, size, label.bold))) + more;
    const within = label.inside ? inside(label, form, own) : null;
    if (within) return own || fits(label.box, view) ? within : null;
    let best = null;
    for (const [x, y, cost, ring] of around(label, width, height, own)) {
      if (best && best.cost <= ring * FARTHER) break;
      if (best && best.cost <= cost) continue;
      const rect = [x - WIDE, y - HIGH, x + width + WIDE, y + height + HIGH];
      if (!fits(rect, view) || !may(rect, ring)) continue;
      const { cost: costs, over } = this.#costOf(rect), whole = cost + costs;
      if (!best || whole < best.cost) best = { x, y, size, anchor: "start", form, ring, rect, over, cost: whole };
    }
    return best;
  }

  // No box is between it and its own: it would be taken for that one's.
  #isNear({ box }, rect, ring) {
    const [x, y, toX, toY] = leaderTo(box, rect);
    return ring === 0 || this.#solid.isFree([Math.min(x, toX), Math.min(y, toY), Math.max(x, toX), Math.max(y, toY)]);
  }

  // Gives each name its place, in their order. A label is { box, size, bold, sides, forms, inside, rings, more, kept }: forms
  // are lists of lines, the fullest first; inside is its size in its box, if it may lie there. What finds none has null: at
  // the edge of the view too, since a name that is cut there looks like another.
  placeNames(labels, view = null) {
    this.#names = new Places();
    return labels.map((label) => {
      const may = (rect, ring) => this.#solid.isFree(rect) && this.#names.isFree(rect) && this.#isNear(label, rect, ring);
      const found = this.#best(label, label.forms[0], may, view);
      if (found?.rect) this.#names.add(found.rect);
      return found;
    });
  }

  // The same of marks, with the rectangles of the names that are left out for them.
  placeMarks(labels, view = null) {
    const taken = new Places(), left = new Set();
    const isOpen = (rect) => this.#solid.isFree(rect) && taken.isFree(rect);
    const isFree = (rect) => isOpen(rect) && [...this.#names.over(rect)].every((name) => left.has(name));
    const places = labels.map((label) => {
      const near = (may, rings = FAR) => (rect, ring) => ring < rings && may(rect) && this.#isNear(label, rect, ring);
      const last = label.forms.at(-1), tries = [BY, FAR].flatMap((rings) => label.forms.map((form) => [form, near(isFree, rings)]));
      if (label.kept) tries.push([last, near(isOpen)], [last, isOpen], [last, () => true]);
      for (const [form, may] of tries) {
        const found = this.#best(label, form, may, view);
        if (!found) continue;
        for (const name of this.#names.over(found.rect)) left.add(name);
        taken.add(found.rect);
        return found;
      }
      return null;
    });
    return { places, left };
  }
}

// The line from a box to a text that lies farther off: [from x, from y, to x, to y].
export function leaderTo([left, top, right, bottom], [l, t, r, b]) {
  const near = (low, high, from, to) => Math.min(Math.max((from + to) / 2, low), high);
  const x = near(l, r, left, right), y = near(t, b, top, bottom);
  return [near(left, right, x, x), near(top, bottom, y, y), x, y];
}
