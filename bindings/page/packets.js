/** The packet lines of a response, with their meaning. */
import { piece } from "../js/gixp.js";
import { KIND } from "./recording.js";
import { Slices } from "./list.js";

const decoder = new TextDecoder();
const SPECIAL = ["flush packet", "delimiter packet", "response-end packet"];
const BANDS = ["", "band 1: pack data", "band 2: progress", "band 3: error"];

/** The number of four hexadecimal digits, or NaN. */
function digits(bytes, at) {
  let number = 0;
  for (let n = at; n < at + 4; n += 1) {
    const byte = bytes[n], low = byte | 0x20;
    const digit = byte >= 48 && byte < 58 ? byte - 48 : low >= 97 && low < 103 ? low - 87 : NaN;
    number = number * 16 + digit;
  }
  return number;
}

/**
 * The offsets of all packet lines, and the library's error at the first one that is malformed, if
 * there is one.
 */
export async function packetOffsets(bytes, isOver) {
  const offsets = [], slices = new Slices();
  let at = 0;
  while (at < bytes.length) {
    const length = digits(bytes, at);
    const isGood = (length < 3 || length > 4) && length <= 65520 && at + length <= bytes.length;
    if (!isGood) return { offsets, at, error: errorAt(bytes, at) };
    offsets.push(at);
    at += Math.max(length, 4);
    if (offsets.length % 4096 === 0) {
      await slices.rest();
      if (isOver()) return null;
    }
  }
  return { offsets, at, error: null };
}

/** The library's error for the packet line at an offset. */
function errorAt(bytes, at) {
  try {
    piece(bytes.subarray(at, at + 65520), 0);
  } catch (e) {
    return e;
  }
  return null;
}

/** A text with its control characters as escapes, at most as long as a row shows. */
export function shown(bytes) {
  const text = decoder.decode(bytes.subarray(0, 300)).replace(/\n$/, "");
  const escaped = (c) => `\\x${c.charCodeAt(0).toString(16).padStart(2, "0")}`;
  return text.replace(/[\x00-\x1f\x7f]/g, escaped) + (bytes.length > 300 ? " .." : "");
}

const LISTING = [
  [/^unborn /, "symbolic ref to an unborn branch"],
  [/ symref-target:/, "symbolic ref"],
  [/ peeled:/, "annotated tag"],
  [/^[0-9a-fA-F]{40} /, "ref"],
];
const SECTIONS = [
  [/^(acknowledgments|shallow-info|wanted-refs|packfile-uris|packfile)$/, "section"],
  [/^ACK .*/, "common commit"],
  [/^NAK$/, "no common commit"],
  [/^ready$/, "the pack follows"],
  [/^shallow /, "the commit becomes shallow"],
  [/^unshallow /, "the commit gets parents"],
  [/^[0-9a-fA-F]{40} refs/, "wanted ref"],
];
const FIRST = [
  [/^version /, "protocol version"],
  [/\0/, "first ref, with capabilities"],
  [/^shallow /, "shallow commit of the server"],
  [/\^\{\}$/, "peeled tag"],
  [/^[0-9a-fA-F]{40} /, "ref"],
  [/^[\w-]+(=.*)?$/, "capability"],
];

const meaningBy = (table, line) => table.find(([words]) => words.test(line))?.[1] ?? "";

/** What a packet line means, and its content as text. */
export function meaning(bytes, at, kind) {
  const length = digits(bytes, at);
  if (length < 3) return { name: SPECIAL[length], text: "" };
  const payload = bytes.subarray(at + 4, at + length);
  const line = decoder.decode(payload.subarray(0, 400)).replace(/\n$/, "");
  if (line.startsWith("ERR "))
    return { name: "error of the server", text: shown(payload.subarray(4)), isBad: true };
  const table = kind === KIND.LISTING ? LISTING : kind === KIND.FETCH ? SECTIONS : FIRST;
  const name = meaningBy(table, line), isBand = payload[0] >= 1 && payload[0] <= 3;
  if (kind !== KIND.FETCH || name || !isBand) return { name, text: shown(payload) };
  const isData = payload[0] === 1;
  const text = isData ? `${payload.length - 1} bytes` : shown(payload.subarray(1));
  return { name: BANDS[payload[0]], text, isBad: payload[0] === 3 };
}

/**
 * Bytes around an offset as rows of hexadecimal digits and text. `mark` is where the byte at the
 * offset stands in the text.
 */
export function dump(bytes, at) {
  const from = Math.max(0, Math.floor(at / 16) * 16 - 32), rows = [];
  for (let start = from; start < Math.min(bytes.length, from + 96); start += 16) {
    const row = bytes.subarray(start, start + 16);
    const isShown = (byte) => byte >= 32 && byte < 127;
    const text = Array.from(row, (byte) => (isShown(byte) ? String.fromCharCode(byte) : "."));
    const digits = Array.from(row, (byte) => byte.toString(16).padStart(2, "0"));
    rows.push({ start, bytes: digits, text: text.join("") });
  }
  return rows;
}
