// By keys on the diagram, while something is picked there: one point or section is a stop of Tab, the arrows lead to the next
// in their direction, and Enter or Space picks it. So Tab leads past the diagram in one step, however large it is.

const WAYS = { ArrowLeft: [-1, 0], ArrowRight: [1, 0], ArrowUp: [0, -1], ArrowDown: [0, 1] };
const ASIDE = 2; // what a way aside costs, against one in the direction

export class Roving {
  #places; #groups; #reveal; #stop = null;

  // `places` has name: { x, y }, `groups` name: group; `reveal(place)` brings one into view.
  constructor(places, groups, reveal) {
    this.#places = places;
    this.#groups = groups;
    this.#reveal = reveal;
  }

  isStop(name) {
    return name === this.#stop;
  }

  // The stop is this one; while the focus is on one, it stays there.
  begin(name) {
    if (this.#groups.get(this.#stop)?.contains(document.activeElement)) return;
    this.#put(name);
  }

  // The nearest to a place.
  nearest({ x, y }) {
    let best = null;
    for (const [name, place] of this.#places) {
      const far = Math.hypot(place.x - x, place.y - y);
      if (!best || far < best.far) best = { name, far };
    }
    return best?.name ?? null;
  }

  #put(name) {
    const old = this.#groups.get(this.#stop);
    this.#stop = name;
    if (old?.hasAttribute("tabindex")) old.setAttribute("tabindex", "-1");
    const group = this.#groups.get(name);
    if (group?.hasAttribute("tabindex")) group.setAttribute("tabindex", "0");
  }

  #next(from, [left, down]) {
    const here = this.#places.get(from);
    let best = null;
    for (const [name, { x, y }] of this.#places) {
      const along = (x - here.x) * left + (y - here.y) * down, aside = Math.abs((x - here.x) * down + (y - here.y) * left);
      if (along < 1) continue;
      const cost = along + aside * ASIDE;
      if (!best || cost < best.cost) best = { name, cost };
    }
    return best?.name ?? null;
  }

  // Whether the key leads to another.
  onKey(event, name) {
    const way = WAYS[event.key], next = way && this.#next(name, way);
    if (!next) return Boolean(way);
    this.#put(next);
    this.#reveal(this.#places.get(next));
    this.#groups.get(next).focus({ preventScroll: true });
    return true;
  }

  // The focus came there, by Tab or a press.
  onFocus(name) {
    this.#put(name);
    this.#reveal(this.#places.get(name));
  }
}
