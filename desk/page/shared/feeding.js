// Which sections a source feeds while points move: the page's own reckoning. Which are live now, the register says.

import { reached } from "./ways.js";

// The sections to which closed points lead from a source.
function fedBy(network, positionOf) {
  const fed = new Set(), closed = (point) => positionOf(point.name) === "closed";
  for (const { name, source } of network.sections.values()) {
    if (source && !fed.has(name)) for (const one of reached(network, name, closed).keys()) fed.add(one);
  }
  return fed;
}

const NOTHING = { live: [], dead: [] };

// Positions as they will be: those that the register has, and over them those of steps that are reckoned as done.
export class Reckoning {
  #network; #states; #moved = new Map(); #fed = null;

  constructor(network, states) {
    this.#network = network;
    this.#states = states;
  }

  positionOf(name) {
    return this.#moved.get(name) ?? this.#states.get(name)?.position;
  }

  move(name, position) {
    if (this.positionOf(name) === position) return;
    this.#moved.set(name, position);
    this.#fed = null;
  }

  #fedNow() {
    if (!this.#moved.size) return this.live();
    return this.#fed ??= fedBy(this.#network, (name) => this.positionOf(name));
  }

  // Those that are live now, as the register has it.
  live() {
    return new Set([...this.#network.sections.values()].filter(({ live }) => live).map(({ name }) => name));
  }

  // What becomes live and what becomes dead where one more point comes to this position.
  turnedBy(point, position) {
    if (this.positionOf(point.name) === position) return NOTHING;
    const fed = this.#fedNow(), ends = [point.from, point.to].filter((end) => fed.has(end)).length;
    if (position === "closed" ? ends !== 1 : ends !== 2) return NOTHING;
    return difference(fed, fedBy(this.#network, (name) => (name === point.name ? position : this.positionOf(name))));
  }

  // What all moves so far have made live and dead.
  turned() {
    return difference(this.live(), this.#fedNow());
  }
}

function difference(before, after) {
  const without = (all, others) => [...all].filter((name) => !others.has(name)).sort();
  return { live: without(after, before), dead: without(before, after) };
}
