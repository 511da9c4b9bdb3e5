/** What was opened: responses of a server, in their order, and which kind each one is. */
import { withoutService } from "../js/gixp.js";

const decoder = new TextDecoder();
/** The kinds of responses. */
export const KIND = Object.freeze({
  CAPABILITIES: "capability advertisement (version 2)",
  ADVERTISEMENT: "reference advertisement (version 0 or 1)",
  LISTING: "response to ls-refs",
  FETCH: "response to a fetch",
  UNKNOWN: "unknown",
});

// The first line of each section of a response to a fetch, and of such responses without sections.
const SECTION = new RegExp("^(acknowledgments|packfile|shallow-info|wanted-refs|packfile-uris|NAK$"
  + "|ACK |shallow |unshallow )");

/** The text of the first packet line, without its LF. */
function firstLine(bytes) {
  const length = parseInt(decoder.decode(bytes.subarray(0, 4)), 16);
  if (!(length > 4)) return "";
  return decoder.decode(bytes.subarray(4, Math.min(length, bytes.length))).replace(/\n$/, "");
}

/** Which kind of response this is, by its first packet line. */
export function kindOf(bytes) {
  const line = firstLine(bytes);
  if (line === "version 2") return KIND.CAPABILITIES;
  if (line === "version 1" || line.includes("\0")) return KIND.ADVERTISEMENT;
  if (SECTION.test(line)) return KIND.FETCH;
  const isEmpty = decoder.decode(bytes.subarray(0, 4)) === "0000";
  if (/^([0-9a-fA-F]{4,} |unborn )/.test(line) || isEmpty) return KIND.LISTING;
  return KIND.UNKNOWN;
}

/** A response with its name and kind. */
export function part(name, data) {
  const bytes = withoutService(data);
  return { name, bytes, kind: kindOf(bytes) };
}

function haveIds(bytes) {
  const words = decoder.decode(bytes).split("\n").map((line) => line.split(" ")[0]);
  return words.filter((word) => /^[0-9a-fA-F]{40}$/.test(word));
}

/**
 * The recording in some files. The files `0`, `1`, `2` and so on of a folder are the responses of a
 * session, and `haves` has the ids that the client offers.
 */
export async function recordingOf(files) {
  const named = await Promise.all([...files].map(async (file) => {
    return { name: file.name, bytes: new Uint8Array(await file.arrayBuffer()) };
  }));
  const bodies = named.filter((file) => /^\d+$/.test(file.name)).sort((a, b) => a.name - b.name);
  const haves = named.find((file) => file.name === "haves");
  const isSession = bodies.length > 0 && bodies.every((body, n) => Number(body.name) === n);
  const opened = isSession ? bodies : named.filter((file) => file !== haves);
  const parts = opened.map((file) => part(file.name, file.bytes));
  return { parts, haves: haves ? haveIds(haves.bytes) : [], isSession };
}
