// What the board shows, and in which order: a search, a kind of records, and what they are sorted by. The tab keeps it.

import { presentStep } from "../clearances/offers.js";
import { formOf } from "../shared/drafts.js";
import { viewOf } from "../shared/watch.js";
import { isTooLong, mostMinutes, outFor, setMostMinutes } from "./ages.js";

const outOf = (row) => outFor(viewOf(row.id), row);
const isLong = (row) => isTooLong(outOf(row));
const KINDS = {
  all: () => true,
  clearances: (row) => row.work !== "-",
  switches: (row) => row.work === "-",
  out: (row) => outOf(row) !== null,
  long: isLong,
};
const byText = (part) => (a, b) => (a[part] < b[part] ? -1 : a[part] > b[part] ? 1 : 0);
const SORTS = {
  name: () => 0, // as the board has them
  newest: (a, b) => b.last - a.last,
  oldest: (a, b) => a.last - b.last,
  out: (a, b) => (outOf(b) ?? -1) - (outOf(a) ?? -1),
  phase: byText("phase"), section: byText("work"), holder: byText("holder"),
};

// All that a record may be found by: its name, section and holder, its present step, its fence and crews.
function wordsOf({ id, work, holder }) {
  const view = viewOf(id), step = view && presentStep(view), points = view?.points.map(({ point }) => point) ?? [];
  return [id, work, holder, ...(step ? [step.text] : []), ...(view ? [...view.fence, ...view.crews, ...points] : [])];
}

export class BoardChoice {
  #form;
  node;

  constructor(changed) {
    this.#form = formOf("board", changed);
    this.node = this.#form.form;
    const { search, kind, "too-long": minutes, "show-all": all } = this.#form;
    minutes.value = mostMinutes();
    minutes.addEventListener("input", () => {
      setMostMinutes(Number(minutes.value));
      changed();
    });
    all.addEventListener("click", () => {
      for (const [field, value] of [[search, ""], [kind, "all"]]) {
        field.value = value;
        field.dispatchEvent(new Event("input"));
      }
    });
  }

  // These rows of the board as they are to be listed.
  rows(board) {
    const { search, kind, sort, count, "show-all": all } = this.#form, text = search.value.trim().toUpperCase();
    const fits = KINDS[kind.value] ?? ((row) => row.phase === kind.value), order = SORTS[sort.value];
    const found = board.filter((row) => fits(row) && (!text || wordsOf(row).some((word) => word.includes(text))));
    const long = board.filter(isLong).length, records = board.length === 1 ? "record" : "records";
    const said = `${found.length} of ${board.length} ${records}${long ? `; ${long} with a step that is out too long` : ""}`;
    if (count.textContent !== said) count.textContent = said;
    all.hidden = found.length === board.length;
    return found.sort(order);
  }
}
