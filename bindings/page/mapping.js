/** What refspecs map, as they are typed. */
import { Slices, cell } from "./list.js";

const decoder = new TextDecoder(), SOME = 4096;

export class Mapper {
  #worker = null;
  #turn = 0;
  #refs = [];
  #waiting = null;
  #isBusy = false;

  /** Takes these refs for the next calls. The names go to the worker some thousands at a time. */
  async open(refs) {
    this.#worker?.terminate();
    const worker = new Worker(new URL("mapper.js", import.meta.url), { type: "module" });
    const slices = new Slices();
    worker.addEventListener("message", ({ data }) => this.#take(data));
    [this.#worker, this.#refs, this.#isBusy, this.#waiting] = [worker, refs, true, null];
    for (let n = 0; n < refs.length; n += SOME) {
      worker.postMessage({ names: refs.slice(n, n + SOME).map((ref) => ref.name).join("\n") });
      await slices.rest();
      if (worker !== this.#worker) return;
    }
    this.#isBusy = false;
    this.#send();
  }

  /** Maps by these refspecs. `show` gets the outcome, unless other refspecs came meanwhile. */
  map(specs, show) {
    this.#turn += 1;
    this.#waiting = { turn: this.#turn, specs, show };
    this.#send();
  }

  #send() {
    if (this.#isBusy || !this.#waiting) return;
    this.#isBusy = true;
    this.#worker.postMessage({ turn: this.#waiting.turn, specs: this.#waiting.specs });
  }

  #take({ turn, found, error }) {
    this.#isBusy = false;
    if (this.#waiting?.turn === turn) {
      const { show, specs } = this.#waiting;
      this.#waiting = null;
      const none = { text: error, isBad: true, count: 0, cells: () => [] };
      show(found ? outcome(found, this.#refs, specs) : none);
    }
    this.#send();
  }
}

/** The rows of an outcome, and a sentence. */
function outcome({ items, numbers, locals, removed, conflicts }, refs, specs) {
  if (conflicts.length > 0) {
    const text = `${conflicts.length} local names have two different sources. Nothing is mapped.`;
    const cells = (n) => [cell("kind bad", "conflict"), cell("grow", conflicts[n])];
    return { text, isBad: true, count: conflicts.length, cells };
  }
  const startOf = (n) => (n === 0 ? 0 : locals.ends[n - 1] + 1);
  const localAt = (n) => decoder.decode(locals.whole.subarray(startOf(n), locals.ends[n]));
  const rest = `, ${removed.length} removed: their local name isn't a ref's`;
  const text = `${items.length} mappings` + (removed.length ? rest : "");
  return {
    text,
    isBad: false,
    count: items.length + removed.length,
    cells: (n) => {
      if (n >= items.length)
        return [cell("kind bad", "removed"), cell("grow", removed[n - items.length])];
      const source = items[n] < 0 ? specs[numbers[n]] : refs[items[n]].name;
      const local = cell("grow", localAt(n) || "(only fetched)");
      return [cell("grow", source), cell("dim", "→"), local, cell("kind dim", specs[numbers[n]])];
    },
  };
}
