/** A list of many rows, of which only the visible ones are in the page. */

const MOST_HEIGHT = 16_000_000;

/** A cell of a row: its class, and its text. */
export const cell = (name, text) => ({ name, text });

export class List {
  #place;
  #inner = document.createElement("div");
  #rowHeight = 26;
  #count = 0;
  #cells = () => [];

  /** `place` is the element that scrolls. */
  constructor(place) {
    this.#place = place;
    this.#inner.style.position = "relative";
    place.replaceChildren(this.#inner);
    place.addEventListener("scroll", () => this.draw(), { passive: true });
    new ResizeObserver(() => this.draw()).observe(place);
  }

  /** Shows `count` rows. `cells` returns the cells of a row. */
  show(count, cells) {
    this.#count = count;
    this.#cells = cells;
    this.#inner.style.height = `${Math.min(count * this.#rowHeight, MOST_HEIGHT)}px`;
    this.#place.setAttribute("aria-rowcount", count);
    this.draw();
  }

  /** The first visible row. The scrolled height is shorter than all rows if there are very many. */
  #first(visible) {
    const height = Math.min(this.#count * this.#rowHeight, MOST_HEIGHT);
    const range = height - this.#place.clientHeight;
    if (range <= 0 || this.#count <= visible) return 0;
    if (height < MOST_HEIGHT) return Math.floor(this.#place.scrollTop / this.#rowHeight);
    return Math.floor((this.#place.scrollTop / range) * (this.#count - visible));
  }

  draw() {
    if (this.#place.clientHeight === 0) return;
    const height = this.#rowHeight, visible = Math.floor(this.#place.clientHeight / height);
    const first = this.#first(visible), end = Math.min(this.#count, first + visible + 2);
    const isWhole = this.#count * height < MOST_HEIGHT;
    const top = isWhole ? first * height : this.#place.scrollTop;
    const rows = [];
    for (let n = first; n < end; n += 1) rows.push(this.#row(n, top + (n - first) * height));
    this.#inner.replaceChildren(...rows);
  }

  #row(n, top) {
    const row = document.createElement("div");
    row.setAttribute("role", "row");
    row.setAttribute("aria-rowindex", n + 1);
    row.style.top = `${top}px`;
    for (const { name, text } of this.#cells(n)) {
      const part = document.createElement("span");
      part.setAttribute("role", "cell");
      part.className = name;
      part.textContent = part.title = text;
      row.append(part);
    }
    return row;
  }
}

/**
 * Gives the page time for input after some milliseconds of work. `isOver` says whether the work is
 * no longer needed.
 */
export class Slices {
  #until = performance.now() + 8;

  async rest() {
    if (performance.now() < this.#until) return;
    await new Promise((resolve) => setTimeout(resolve, 0));
    this.#until = performance.now() + 8;
  }
}
