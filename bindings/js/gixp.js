/**
 * The client side of git's fetch protocol: bytes in, values out. Each function of the WebAssembly
 * module below it is proved.
 *
 * No state is kept between calls, and nothing is sent or received: the caller does this, for
 * example by http.js. The module is `gixp.wasm`, in the folder `build` next to this one, where
 * scripts/build_web_module.py puts it.
 *
 *     for (const ref of refs(answer)) console.log(ref.id, ref.name);
 */
import { Library } from "./library.js";

export { GixpError } from "./library.js";

const OK = 0, MORE = 1, NO_ROOM = 2, BAD_PLACE = 3, INCOMPLETE = 10, SERVER = 15, CONFLICT = 51;
const BAD_LIMIT = 82, RECORD = 80, RECORDS = 1024, MAPPING = 40, INPUT = 96;
const utf8 = new TextDecoder(), encoder = new TextEncoder();
const library = await Library.load(new URL("../build/gixp.wasm", import.meta.url));

/** Exchanges the WebAssembly module, for a caller that loads it by itself. */
export const use = (module) => library.use(module);

function bytesOf(text) {
  if (typeof text === "string") return encoder.encode(text);
  return text instanceof ArrayBuffer ? new Uint8Array(text) : text;
}

/** Texts as bytes, one per line. */
function lines(texts) {
  const parts = [...texts].flatMap((text) => [bytesOf(text), encoder.encode("\n")]);
  return joined(parts.slice(0, -1));
}

function joined(parts) {
  const whole = new Uint8Array(parts.reduce((sum, part) => sum + part.length, 0));
  let at = 0;
  for (const part of parts) {
    whole.set(part, at);
    at += part.length;
  }
  return whole;
}

const DIGITS = Array.from({ length: 256 }, (_, byte) => byte.toString(16).padStart(2, "0"));

/** The 20 bytes at an offset as hexadecimal digits. */
function hexAt(bytes, at) {
  let text = "";
  for (let n = at; n < at + 20; n += 1) text += DIGITS[bytes[n]];
  return text;
}

/** The ids in bytes, 20 each, from ids in hexadecimal digits or bytes. */
function idBytes(ids) {
  return joined([...ids].map((id) => {
    if (typeof id !== "string") return id;
    if (!/^[0-9a-fA-F]{40}$/.test(id)) throw library.error(BAD_PLACE);
    return Uint8Array.from(id.match(/../g), (digits) => parseInt(digits, 16));
  }));
}

/** The ids in bytes, 20 each, as hexadecimal digits. */
function hexIds(bytes) {
  return Array.from({ length: bytes.length / 20 }, (_, n) => hexAt(bytes, 20 * n));
}

const isInteger = (number, from, to) =>
  number >= from && number < to && (typeof number === "bigint" || Number.isInteger(number));

/** The limit of a session's history, by its options. */
function limitOf({ depth = 0, deepen, since }, isExcluding) {
  const hasTime = since !== undefined, isRelative = deepen !== undefined;
  const count = Number(Number(depth) !== 0) + Number(isRelative) + Number(hasTime || isExcluding);
  const commits = isRelative ? deepen : depth, seconds = since ?? 0;
  const isDepth = isInteger(commits, 0, 2 ** 32), isTime = isInteger(seconds, -(2 ** 63), 2 ** 63);
  if (!isDepth || !isTime) throw library.error(BAD_PLACE);
  if (count > 1) throw library.error(BAD_LIMIT);
  let kind = Number(isRelative);
  if (isExcluding) kind = hasTime ? 4 : 3;
  else if (hasTime) kind = 2;
  return { since: BigInt(seconds), depth: Number(commits), kind, isNone: count === 0 };
}

/**
 * Texts of a response. If the bytes from one offset to another are ASCII, they are decoded once.
 */
class Texts {
  constructor(answer, from, to) {
    this.answer = answer;
    this.from = from;
    const text = utf8.decode(answer.subarray(from, to));
    this.isAscii = text.length === to - from && !text.includes("\ufffd");
    this.text = this.isAscii ? text : "";
    this.lowered = this.text.toLowerCase();
  }

  at(place, length) {
    const at = place - this.from;
    if (at >= 0 && at + length <= this.text.length) return this.text.slice(at, at + length);
    return utf8.decode(this.answer.subarray(place, place + length));
  }

  /** The id whose 40 digits begin at an offset. */
  id(place) {
    const at = place - this.from;
    return this.isAscii ? this.lowered.slice(at, at + 40) : this.at(place, 40).toLowerCase();
  }
}

/**
 * A ref of a server: its name; its object, for a tag the tag itself, and none if its target is
 * unborn; the peeled object of a tag; and the target of a symbolic ref. Bytes of a name that aren't
 * UTF-8 become U+FFFD: `place` and `length` lead to the bytes themselves.
 */
export class Ref {
  constructor(name, id, peeled, target, place, length) {
    this.name = name;
    this.id = id;
    this.peeled = peeled;
    this.target = target;
    this.place = place;
    this.length = length;
  }
}

/** The refs of the records from address `at` on. */
function takeRefs(texts, at, count) {
  const found = [];
  const words = new Uint32Array(library.buffer, at, count * (RECORD / 4));
  const octets = new Uint8Array(library.buffer, at, count * RECORD);
  // In most responses the upper half of each offset is 0.
  const isSmall = texts.answer.length < 2 ** 32;
  const size = isSmall ? (w) => words[w] : (w) => words[w] + words[w + 1] * 2 ** 32;
  for (let w = 0; w < words.length; w += RECORD / 4) {
    const kind = words[w], place = size(w + 12), length = size(w + 14);
    const target = kind < 3 ? null : texts.at(size(w + 16), size(w + 18));
    // A ref line begins with the id, 40 digits and a space before the name.
    const id = kind === 5 ? null : texts.id(place - 41);
    const peeled = kind === 2 || kind === 4 ? hexAt(octets, 4 * w + 4) : null;
    found.push(new Ref(texts.at(place, length), id, peeled, target, place, length));
  }
  return found;
}

/** The bytes of a response that the span at an address names. */
function spanOf(answer, at) {
  const from = library.size(at);
  return answer.subarray(from, from + library.size(at + 8));
}

/** Reads refs from an offset on, at most a thousand or so. */
function readSome(call, answer, from, owner) {
  const [start, records, result] = library.place(owner, [answer, RECORDS * RECORD, 32]);
  const code = library.call(call, start, answer.length, from, records, RECORDS, result);
  const count = library.size(result), next = library.size(result + 8);
  const found = takeRefs(new Texts(answer, from, Math.max(next, from)), records, count);
  return { code, found, next, words: spanOf(answer, result + 16) };
}

function* read(call, data) {
  const owner = {}, answer = bytesOf(data);
  let code = MORE, from = 0;
  while (code === MORE) {
    const some = readSome(call, answer, from, owner);
    code = some.code;
    from = some.next;
    for (let n = 0; n < some.found.length; n += 1) yield some.found[n];
    if (code !== OK && code !== MORE) throw library.error(code, some.words, from);
  }
}

/**
 * The refs of a version 2 `ls-refs` response, in order (gitprotocol-v2, "ls-refs"). Throws
 * GixpError after the last one if the response is incomplete or malformed.
 */
export const refs = (answer) => read("gixp_refs", answer);

/**
 * The refs of a version 0 or 1 reference advertisement (gitprotocol-pack, "Reference Discovery"):
 * one per ref line, a tag with the id of its peeled line. Throws GixpError after the last one if
 * the advertisement is incomplete or malformed.
 */
export const advertised = (answer) => read("gixp_advertised", answer);

/**
 * The records of refs with these names, as `gixp_map` reads them: only the span of the name counts.
 */
function nameRecords(names) {
  const records = new Uint8Array(names.length * RECORD), view = new DataView(records.buffer);
  let at = 0;
  names.forEach((name, n) => {
    view.setBigUint64(n * RECORD + 48, BigInt(at), true);
    view.setBigUint64(n * RECORD + 56, BigInt(name.length), true);
    at += name.length;
  });
  return records;
}

function takeMappings(records, locals, count, names) {
  return Array.from({ length: count }, (_, n) => {
    const at = records + n * MAPPING, item = library.size(at);
    const local = library.bytes(locals + library.size(at + 24), library.size(at + 32));
    return {
      item: item < names ? item : null,
      spec: library.size(at + 8),
      local: library.number(at + 16) ? utf8.decode(local) : null,
    };
  });
}

/**
 * Maps refs with these full names by refspecs (git-fetch, "<refspec>"). A local name isn't checked:
 * the server chose the part that replaces the asterisk of a pattern. If two sources have one local
 * name, that name is a conflict, and nothing is mapped. Throws GixpError.
 */
export function map(names, specs) {
  names = Array.from(names, bytesOf);
  const whole = joined(names), text = lines(specs), records = nameRecords(names);
  let room = names.length + 8, size = whole.length + 64;
  for (;;) {
    const parts = [whole, records, text, room * MAPPING, size, 24];
    const [start, refsAt, specsAt, found, locals, counts] = library.place({}, parts);
    const code = library.call("gixp_map", start, whole.length, refsAt, names.length, specsAt,
      text.length, found, room, locals, size, counts);
    if (code !== OK && code !== NO_ROOM && code !== CONFLICT) throw library.error(code);
    const first = library.size(counts), fixes = library.size(counts + 8);
    if (code === NO_ROOM) {
      [room, size] = [first + fixes, library.size(counts + 16)];
      continue;
    }
    const all = takeMappings(found, locals, first + fixes, names.length);
    const mappings = all.slice(0, first), removed = all.slice(first).map((one) => one.local);
    if (code !== CONFLICT) return { mappings, removed, conflicts: [] };
    return { mappings: [], removed, conflicts: mappings.map((one) => one.local) };
  }
}

/** The ref prefixes of these refspecs (gitprotocol-v2, `ref-prefix`). Throws GixpError. */
export function prefixes(specs) {
  const text = lines(specs);
  for (let room = 256; ;) {
    const [start, buffer, length] = library.place({}, [text, room, 8]);
    const code = library.call("gixp_prefixes", start, text.length, buffer, room, length);
    if (code !== OK && code !== NO_ROOM) throw library.error(code);
    room = library.size(length);
    if (code === OK) return utf8.decode(library.bytes(buffer, room)).split("\n").slice(0, -1);
  }
}

/** The names of bands, by their numbers. */
export const Band = Object.freeze({ STOP: 0, CONTENT: 1, PROGRESS: 2, ERROR: 3 });

function readPiece(data, place, owner) {
  const isPlace = typeof place === "bigint" ? place < 2n ** 64n : Number.isSafeInteger(place);
  if (!isPlace || place < 0) throw library.error(BAD_PLACE);
  const answer = bytesOf(data), [start, record] = library.place(owner, [answer, 32]);
  const code = library.call("gixp_piece", start, answer.length, place, record);
  // After another error the record holds what was there before.
  if (code !== OK && code !== SERVER) throw library.error(code, undefined, place);
  const text = spanOf(answer, record + 8);
  if (code === SERVER) throw library.error(code, text, place);
  return { band: library.number(record), text, next: library.size(record + 24) };
}

/**
 * The packet line at an offset of a response (gitprotocol-pack, "Packfile Data"). Throws GixpError,
 * of the kind INCOMPLETE if the response is incomplete.
 */
export const piece = (answer, place) => readPiece(answer, place, {});

/**
 * The packet lines of a pack from an offset of a complete response on, up to the end of the pack.
 */
export function* pieces(answer, place = 0) {
  const owner = {};
  for (;;) {
    const found = readPiece(answer, place, owner);
    if (found.band === Band.STOP) return;
    yield found;
    place = found.next;
  }
}

/**
 * The packet lines of a pack whose start is in `data`. `read` resolves to more bytes, and to none
 * at the end. Only what one read returned and one packet line are kept in memory.
 */
export async function* readPieces(data, place, read) {
  for (;;) {
    try {
      for (const found of pieces(data, place)) {
        place = found.next;
        yield found;
      }
      return;
    } catch (e) {
      const more = e.kind === "INCOMPLETE" ? await read() : null;
      if (!more || more.length === 0) throw e;
      data = joined([data.subarray(place), more]);
      place = 0;
    }
  }
}

/** Send these bytes. The server's reply is the next response. */
export class Request {
  constructor(data) {
    this.data = data;
  }
}

/**
 * Take the pack from the last response, where it begins at this offset. `boundary` has the ids of
 * the shallow boundary after the server's shallow updates: store it in place of the session's,
 * unless `isUnasked`. Then the server changed it though the session has no limit of the history, as
 * a server does whose own repository is shallow. In a repository that has objects such a boundary
 * hides history: git rejects these refs, unless `--update-shallow` is set.
 */
export class Pack {
  constructor(place, boundary = [], isUnasked = false) {
    this.place = place;
    this.boundary = boundary;
    this.isUnasked = isUnasked;
  }
}

/** There is nothing to request. */
export class Nothing {}

/**
 * A fetch, as the responses so far. The first one is the server's advertisement for
 * `git-upload-pack`. Each step is computed from all responses, so a session may be stored, copied
 * or dropped at any time.
 */
export class Session {
  #texts;
  #limit;

  /**
   * `haves` are ids of objects that exist locally, and `shallow` is the local repository's shallow
   * boundary. A session has at most one limit of the history, as an option of `git fetch`: `depth`,
   * `deepen`, or `since` (`--shallow-since`, in seconds since 1970-01-01 00:00:00 UTC) with
   * `exclude` (`--shallow-exclude`). `filter` says which objects the server leaves out, for example
   * `blob:none` (git-rev-list, `--filter`). Throws GixpError.
   */
  constructor(specs, { haves = [], shallow = [], filter = "", exclude = [], ...limits } = {}) {
    const excluded = lines(exclude);
    this.#limit = limitOf(limits, excluded.length > 0);
    const ids = [idBytes(haves), idBytes(shallow)];
    this.#texts = [lines(specs), ...ids, bytesOf(filter), excluded];
    /** The responses so far. */
    this.answers = [];
  }

  /** Adds the server's advertisement, or the response to the last request. */
  answer(data) {
    this.answers.push(bytesOf(data));
  }

  /** Adds more bytes of the last response, if it arrives in parts. */
  more(data) {
    this.answers.push(joined([this.answers.pop(), data]));
  }

  /** The bytes of `SessionInputRecord`, with the addresses of the texts. */
  #record(places) {
    const view = new DataView(new ArrayBuffer(INPUT)), { since, depth, kind } = this.#limit;
    const numbers = this.#texts.flatMap((text, n) => [places[n], text.length]);
    numbers.forEach((number, n) => view.setBigUint64(8 * n, BigInt(number), true));
    view.setBigInt64(80, since, true);
    view.setUint32(88, depth, true);
    view.setUint32(92, kind, true);
    return new Uint8Array(view.buffer);
  }

  /** Calls the library with room for a request of this length. */
  #next(room) {
    const ends = new BigUint64Array(this.answers.length);
    let end = 0;
    this.answers.forEach((answer, n) => (ends[n] = BigInt((end += answer.length))));
    const parts = [...this.#texts, INPUT, new Uint8Array(ends.buffer), room, 24, end];
    const places = library.place({}, parts), [input, endsAt, request, step, start] = places.slice(5);
    library.write(input, this.#record(places));
    this.answers.forEach((answer, n) =>
      library.write(start + Number(ends[n]) - answer.length, answer));
    const code = library.call("gixp_next", start, end, endsAt, ends.length, input, request, room,
      step);
    const length = library.size(step + 8), data = library.copy(request, Math.min(length, room));
    const kind = library.number(step), place = library.size(step + 16);
    return { code, kind, length, place, end, data };
  }

  /** The pack at an offset, with the ids of the boundary after it. */
  #pack(place, data) {
    const boundary = hexIds(data), before = new Set(hexIds(this.#texts[2]));
    const isSame = new Set(boundary).size === before.size && boundary.every((id) => before.has(id));
    return new Pack(place, boundary, this.#limit.isNone && !isSame);
  }

  /**
   * The caller's next action: a Request, a Pack or Nothing. The last response may be incomplete if
   * it reaches to the pack. Throws GixpError, of the kind INCOMPLETE if more of the last response
   * is needed.
   */
  step() {
    // There is room for a want of each ref in the responses and for a have of each id, so one call
    // is mostly enough.
    const size = this.answers.reduce((sum, answer) => sum + answer.length, 0);
    let room = 4096 + size + 3 * this.#texts[1].length, found = this.#next(room);
    if (found.code === NO_ROOM) found = this.#next((room = found.length));
    const hasWords = found.code === SERVER && found.length <= room;
    if (found.code !== OK) throw library.error(found.code, hasWords ? found.data : undefined);
    if (found.kind === 1) return new Request(found.data);
    if (found.kind !== 2) return new Nothing();
    return this.#pack(found.place - (found.end - this.answers.at(-1).length), found.data);
  }

  /**
   * Reads as much of the next response as the next step needs. `read` resolves to more bytes, and
   * to none at the end. Throws GixpError.
   */
  async readStep(read) {
    this.answer(await read());
    for (let needed = 0; ;) {
      try {
        return this.step();
      } catch (e) {
        if (e.kind !== "INCOMPLETE") throw e;
        // The response is read again only once it is twice as long, or at its end.
        const parts = [];
        for (needed = this.answers.at(-1).length; needed >= 0;) {
          const more = await read();
          if (!more || more.length === 0) break;
          parts.push(more);
          needed -= more.length;
        }
        if (parts.length === 0) throw e;
        this.more(joined(parts));
      }
    }
  }
}

/**
 * The first response without the lines that a server over HTTP sends before it: `#
 * service=git-upload-pack` and a flush packet (gitprotocol-http, "Smart Server Response").
 */
export function withoutService(answer) {
  if (utf8.decode(answer.subarray(4, 14)) !== "# service=") return answer;
  const end = parseInt(utf8.decode(answer.subarray(0, 4)), 16);
  const isFlush = utf8.decode(answer.subarray(end, end + 4)) === "0000";
  return answer.subarray(isFlush ? end + 4 : end);
}
