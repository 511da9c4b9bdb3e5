/** The WebAssembly module: its memory, its calls and its errors. */

const NO_MEMORY = 4, TRAP = 255;
// The memory of an instance never shrinks. One with more than this is dropped before the next call.
const MOST_KEPT = 256 << 20;
// The first and the last number of each kind of error.
const KINDS = [[3, 3, "BAD_PLACE"], [4, 4, "NO_MEMORY"], [10, 10, "INCOMPLETE"],
  [11, 14, "MALFORMED"], [15, 15, "SERVER"], [16, 16, "UNEXPECTED"], [17, 17, "UNKNOWN_BAND"],
  [20, 29, "BAD_REF"], [30, 31, "ANSWERS"], [32, 39, "BAD_SPEC"], [40, 49, "HANDSHAKE"],
  [50, 59, "REFS"], [60, 69, "FETCH"], [70, 70, "NO_FILTERS"], [80, 89, "BAD_LIMIT"], [TRAP, TRAP, "TRAP"], [0, Infinity, "OTHER"]];
const utf8 = new TextDecoder();
const aligned = (size) => Math.max(16, Math.ceil(size / 16) * 16);

/**
 * The error of all calls: its number, its kind, the server's message, if it sent one, and the
 * offset of the error, where it is known.
 */
export class GixpError extends Error {
  constructor(code, text, words = new Uint8Array(0), place = null) {
    super(text + (words.length ? ": " + utf8.decode(words) : ""));
    this.name = "GixpError";
    this.code = code;
    this.kind = KINDS.find(([first, last]) => first <= code && code <= last)[2];
    this.words = words;
    this.place = place;
  }
}

/** The bytes of a file next to the module's code, in Node or in a page. */
async function fileAt(url) {
  if (url.protocol === "file:") return (await import("node:fs/promises")).readFile(url);
  const response = await fetch(url);
  if (!response.ok) throw new Error(`${url.pathname}: ${response.status} ${response.statusText}`);
  return response.arrayBuffer();
}

/**
 * One instance of the module at a time. The arguments of a call lie in a region of its memory,
 * which the next call uses again. An instance that ended in a trap is dropped, and the next call
 * gets a new one.
 */
export class Library {
  #module;
  #instance = null;
  #view = null;
  #region = null;
  #owner = null;
  #places = null;
  #texts = new Map();

  constructor(module) {
    this.#module = module;
  }

  static async load(url) {
    return new Library(await WebAssembly.compile(await fileAt(url)));
  }

  /** Exchanges the module. */
  use(module) {
    this.#module = module;
    this.#drop();
  }

  #drop() {
    this.#instance = this.#view = this.#region = this.#owner = this.#places = null;
  }

  get #exports() {
    this.#instance ??= new WebAssembly.Instance(this.#module, {});
    return this.#instance.exports;
  }

  /** The module's memory, anew after a call that took more of it. */
  get buffer() {
    return this.#exports.memory.buffer;
  }

  get #data() {
    if (this.#view?.buffer !== this.buffer) this.#view = new DataView(this.buffer);
    return this.#view;
  }

  /** Where the first arguments lie, before there is a region. */
  get #scratch() {
    return Number(this.#exports.gixp_scratch.value);
  }

  /** Calls an export whose parameters are 64-bit numbers. */
  call(name, ...words) {
    const run = this.#exports[name], numbers = words.map(BigInt);
    try {
      return run(...numbers);
    } catch (e) {
      // The memory may be half written. A RangeError says that the host's stack is used up.
      this.#drop();
      throw new GixpError(TRAP, "the module ended in a trap: " + e.message);
    }
  }

  /** A region of at least this many bytes. A smaller one goes back before a larger one is taken. */
  #room(size) {
    if (this.#region && this.#region.size >= size) return this.#region.at;
    this.#giveBack();
    const scratch = this.#scratch, place = scratch + 16;
    if (this.call("gixp_take", scratch, size, place) !== 0) throw this.error(NO_MEMORY);
    this.#region = { at: this.size(place), size };
    return this.#region.at;
  }

  #giveBack() {
    if (!this.#region) return;
    const { at, size } = this.#region;
    // What the last owner placed is gone, also if the next region can't be taken.
    this.#region = this.#owner = this.#places = null;
    this.call("gixp_give", this.#scratch, at, size);
  }

  /**
   * The addresses of the parts of a call: bytes, which are copied, or room for so many. If no other
   * call came since the last one of this owner, everything is still there.
   */
  place(owner, parts) {
    if (this.#owner === owner && this.#instance) return this.#places;
    if (this.#instance && this.buffer.byteLength > MOST_KEPT) this.#drop();
    const sizes = parts.map((part) => aligned(typeof part === "number" ? part : part.length));
    let at = aligned(this.#room(sizes.reduce((sum, size) => sum + size, 16)));
    const places = sizes.map((size) => (at += size) - size);
    parts.forEach((part, n) => typeof part === "number" || this.write(places[n], part));
    this.#owner = owner;
    this.#places = places;
    return places;
  }

  write(at, bytes) {
    new Uint8Array(this.buffer, at, bytes.length).set(bytes);
  }

  bytes(at, length) {
    return new Uint8Array(this.buffer, at, length);
  }

  copy(at, length) {
    return this.bytes(at, length).slice();
  }

  /** The 32-bit number at an address. */
  number(at) {
    return this.#data.getUint32(at, true);
  }

  /** The 64-bit number at an address, as a bigint if a number can't hold it. */
  size(at) {
    const number = this.#data.getBigUint64(at, true);
    return number <= BigInt(Number.MAX_SAFE_INTEGER) ? Number(number) : number;
  }

  /** The text of a number that a call returned. */
  #text(code) {
    if (!this.#texts.has(code)) {
      const [buffer, length] = this.place({}, [128, 8]);
      const found = this.#exports.gixp_error_text(code, BigInt(buffer), 128n, BigInt(length));
      this.#texts.set(code, found === 0 ? utf8.decode(this.copy(buffer, this.size(length))) : "");
    }
    return this.#texts.get(code);
  }

  error(code, words, place) {
    return new GixpError(code, this.#text(code), words, place);
  }
}
