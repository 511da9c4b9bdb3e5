/** A small recorded session, so that the page shows something without a file. */
import { part } from "./recording.js";

const encoder = new TextEncoder();
const packet = (text) => (text.length + 4).toString(16).padStart(4, "0") + text;
const id = (n) => String(n).padStart(2, "0").repeat(20);
const STOPS = ["0000", "0001"];
const line = (text) => (STOPS.includes(text) ? text : packet(text));
const body = (...texts) => encoder.encode(texts.map(line).join(""));

const RESPONSES = [
  body("version 2\n", "agent=git/2.39.5\n", "ls-refs=unborn\n",
    "fetch=shallow wait-for-done filter\n", "object-format=sha1\n", "0000"),
  body(`${id(11)} HEAD symref-target:refs/heads/main\n`, `${id(11)} refs/heads/main\n`,
    `${id(12)} refs/heads/next\n`, `${id(13)} refs/tags/v1.0 peeled:${id(11)}\n`, "0000"),
  body("acknowledgments\n", `ACK ${id(21)}\n`, `ACK ${id(23)}\n`, "ready\n", "0001",
    "packfile\n", "\x02Enumerating objects: 3, done.\n", "\x01PACK", "0000"),
];

export const EXAMPLE = () => ({
  parts: RESPONSES.map((bytes, n) => part(String(n), bytes)),
  haves: [20, 21, 22, 23].map(id),
  isSession: true,
});
