// A network of two sources for the checks: G - A - B - .. - H in a row, an open tie from H to K, and K at the source L.

export function networkOf(rows, sources = ["G", "L"]) {
  const names = [...new Set(rows.flatMap(([, from, to]) => [from, to]))];
  const points = new Map(rows.map(([name, from, to, position, hand = null]) => [name, { name, from, to, position, hand, holds: [], normal: null }]));
  const sections = new Map(names.map((name) => [name, { name, source: sources.includes(name), live: false, holds: [] }]));
  const ways = new Map(names.map((name) => [name, [...points.values()].filter(({ from, to }) => from === name || to === name)]));
  const network = { sections, points, ways, staff: new Map() };
  const live = [...sections.values()].filter(({ source }) => source).map(({ name }) => name);
  for (const name of live) for (const { from, to, position } of ways.get(name)) if (position === "closed") for (const end of [from, to]) if (!live.includes(end)) live.push(end);
  for (const name of live) sections.get(name).live = true;
  return network;
}

export function statesOf({ points }) {
  return new Map([...points].map(([name, point]) => [name, { point, position: point.position, hand: point.hand, holds: point.holds }]));
}

export const ROW = [["S1", "G", "A", "closed"], ["S2", "A", "B", "closed"], ["S3", "B", "C", "closed"], ["S4", "C", "D", "closed"], ["S5", "D", "E", "closed"],
  ["S6", "E", "F", "closed"], ["S7", "F", "H", "closed"], ["TIE", "H", "K", "open"], ["S8", "K", "L", "closed"], ["LOOP", "A", "C", "open"]];
