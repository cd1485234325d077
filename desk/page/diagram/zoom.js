// Zoom and pan of a drawing, by wheel, drag, buttons and keys. The drawing is as large as it is, and is moved and scaled
// within its frame as one picture: while that goes on nothing is drawn again, and it is drawn sharply once it is still.

const MOST = 3, LEAST = 0.05, READABLE = 0.85, FAR = 0.42, CLOSE = 0.9, LARGEST = 2, STEP = 1.25, PAN = 80, DRAG = 5;
const EDGE = 40;   // pixels from the edge of the frame, within which a place is not in view
const STILL = 10;  // frames without a move, after which it is still: on a slow machine they take longer

// Where a view of this length begins so that it shows no more beyond the drawing than it has to.
function within(begin, length, size) {
  return size < length ? (size - length) / 2 : Math.min(Math.max(begin, 0), size - length);
}

export class Zoom {
  #frame; #drawing; #size; #changed;
  // What is shown; whether the operator has zoomed or moved it; and what is to be in the middle where not all can be read.
  #at = { x: 0, y: 0, scale: 1, byHand: false, middle: null };
  #later = null;   // the next look at whether it is still
  #quiet = 0;      // frames since it was moved

  // `changed(scale, view)` is called whenever the drawing is shown at a scale; `view` is what of it is seen, as a rectangle.
  constructor(frame, drawing, size, changed) {
    this.#frame = frame;
    this.#drawing = drawing;
    this.#size = size;
    this.#changed = changed;
    this.#listen();
    new ResizeObserver(() => this.#begin()).observe(frame);
  }

  #box() {
    return { width: this.#frame.clientWidth || 800, height: this.#frame.clientHeight || 500 };
  }

  #place() {
    const { x, y, scale } = this.#at;
    this.#drawing.style.transform = `translate(${Math.round(-x * scale)}px, ${Math.round(-y * scale)}px) scale(${scale})`;
  }

  #show() {
    cancelAnimationFrame(this.#later);
    this.#later = null;
    this.#place();
    this.#drawing.classList.remove("moving");
    this.#frame.classList.toggle("far", this.#at.scale < FAR);
    this.#changed(this.#at.scale, this.#view());
  }

  // What is seen of the drawing, in whole places of it: [left, top, right, bottom].
  #view() {
    const { width, height } = this.#box(), { x, y, scale } = this.#at;
    return [Math.ceil(x + 1 / scale), Math.ceil(y + 1 / scale), Math.floor(x + (width - 1) / scale), Math.floor(y + (height - 1) / scale)];
  }

  // Shows what another one showed.
  viewAs(other) {
    this.#at = { ...other.#at };
  }

  #move() {
    this.#at.byHand = true;
    this.#drawing.classList.add("moving");
    this.#place();
    this.#quiet = 0;
    this.#later ??= requestAnimationFrame(() => this.#wait());
  }

  #wait() {
    this.#quiet += 1;
    if (this.#quiet < STILL) this.#later = requestAnimationFrame(() => this.#wait());
    else this.#show();
  }

  #zoomAt(factor, left, top) {
    const before = this.#at.scale, scale = this.#at.scale = Math.min(MOST, Math.max(LEAST, before * factor));
    this.#at.x += left / before - left / scale;
    this.#at.y += top / before - top / scale;
    this.#move();
  }

  pan(left, top) {
    this.#at.x += left / this.#at.scale;
    this.#at.y += top / this.#at.scale;
    this.#move();
  }

  #centre(x, y, scale) {
    const { width, height } = this.#box();
    this.#at.scale = scale;
    this.#at.x = within(x - width / scale / 2, width / scale, this.#size.width);
    this.#at.y = within(y - height / scale / 2, height / scale, this.#size.height);
    this.#show();
  }

  #whole() {
    const { width, height } = this.#box();
    return Math.min(width / this.#size.width, height / this.#size.height, LARGEST);
  }

  #fit() {
    this.#centre(this.#size.width / 2, this.#size.height / 2, this.#whole());
  }

  // The whole drawing where it can be read so; otherwise its middle, or its beginning.
  #begin() {
    if (!this.#frame.clientWidth) return;
    if (this.#at.byHand) this.#show();
    else if (this.#whole() >= READABLE) this.#fit();
    else if (this.#at.middle) this.#centre(this.#at.middle.x, this.#at.middle.y, CLOSE);
    else this.#centre(0, 0, READABLE);
  }

  lookAt(place) {
    Object.assign(this.#at, { byHand: false, middle: place });
    this.#begin();
  }

  // By this many steps; below none farther.
  closer(steps) {
    const { width, height } = this.#box();
    this.#zoomAt(STEP ** steps, width / 2, height / 2);
  }

  all() {
    this.#at.byHand = true;
    this.#fit();
  }

  bringToMiddle({ x, y }, scale = Math.max(1, this.#at.scale)) {
    this.#at.byHand = true;
    this.#centre(x, y, scale);
  }

  // The place of the drawing that is in the middle of the frame.
  middle() {
    const { width, height } = this.#box();
    return { x: this.#at.x + width / this.#at.scale / 2, y: this.#at.y + height / this.#at.scale / 2 };
  }

  // Brings a place to the middle where it is not in view.
  reveal({ x, y }) {
    const { width, height } = this.#box(), { scale } = this.#at, left = (x - this.#at.x) * scale, top = (y - this.#at.y) * scale;
    if (left < EDGE || left > width - EDGE || top < EDGE || top > height - EDGE) this.bringToMiddle({ x, y }, scale);
  }

  #listen() {
    this.#frame.addEventListener("wheel", (event) => {
      event.preventDefault();
      const frame = this.#frame.getBoundingClientRect();
      this.#zoomAt(event.deltaY < 0 ? STEP : 1 / STEP, event.clientX - frame.left, event.clientY - frame.top);
    }, { passive: false });
    const keys = {
      "+": () => this.closer(1), "=": () => this.closer(1), "-": () => this.closer(-1), 0: () => this.all(),
      ArrowLeft: () => this.pan(-PAN, 0), ArrowRight: () => this.pan(PAN, 0),
      ArrowUp: () => this.pan(0, -PAN), ArrowDown: () => this.pan(0, PAN),
    };
    this.#frame.addEventListener("keydown", (event) => {
      if (!keys[event.key] || event.ctrlKey || event.altKey || event.metaKey) return;
      event.preventDefault();
      keys[event.key]();
    });
    // What the browser scrolls into view by itself is moved by us alone.
    this.#frame.addEventListener("scroll", () => { this.#frame.scrollTop = this.#frame.scrollLeft = 0; });
    this.#drag();
  }

  #drag() {
    let from = null;
    this.#frame.addEventListener("pointerdown", (event) => {
      if (event.button === 0) from = { x: event.clientX, y: event.clientY, moved: false };
    });
    this.#frame.addEventListener("pointermove", (event) => {
      if (!from) return;
      const left = from.x - event.clientX, top = from.y - event.clientY;
      if (!from.moved && Math.hypot(left, top) < DRAG) return;
      if (!from.moved) this.#frame.setPointerCapture(event.pointerId);
      from = { x: event.clientX, y: event.clientY, moved: true };
      this.pan(left, top);
    });
    for (const end of ["pointerup", "pointercancel"]) this.#frame.addEventListener(end, () => { from = null; });
  }
}
