// How large a section and a point are in the drawing, and the rectangles [left, top, right, bottom] that they and lines take.

export const BOX = 26;                       // height of a section
const HALF = 7, TAG = 21;                    // half a point; how far on its line its tag hangs out
export const FEED = 28;                      // what its sign takes beside a source
const GROUND = 18, DEEP = 9;                 // how wide the sign of a ground is, and how far it hangs out

export function sectionBox({ x, y, width }) {
  return [x, y - BOX / 2, x + width, y + BOX / 2];
}

// What its sign takes beside a source, and that of a ground below a section.
export function signBoxes({ x, y, width, feed }) {
  const low = y + BOX / 2, left = feed > 0 ? x + width : x - FEED;
  return [[x, low, x + GROUND, low + DEEP], ...(feed ? [[left, y - BOX / 2, left + FEED, low]] : [])];
}

// With room for its tag, whether it has one or not: so nothing moves when one comes.
export function pointBox({ x, y, kind }) {
  const [wide, high] = kind === "upright" ? [HALF, TAG] : [TAG, HALF];
  return [x - wide, y - high, x + wide, y + high];
}

// The straight parts of a path such as M1,2H3V4.
export function partsOf(path) {
  const parts = [];
  let x = 0, y = 0;
  for (const [, letter, a, b] of path.matchAll(/([MHV])(-?[\d.]+)(?:,(-?[\d.]+))?/g)) {
    const [fromX, fromY] = [x, y];
    if (letter !== "V") x = Number(a);
    if (letter === "V") y = Number(a);
    if (letter === "M") y = Number(b);
    else parts.push([Math.min(fromX, x), Math.min(fromY, y), Math.max(fromX, x), Math.max(fromY, y)]);
  }
  return parts;
}
