#!/usr/bin/env -S node --experimental-wasm-memory64 --no-warnings
/**
 * Compares `refs` with a plain parser in JavaScript that makes the same values from the same bytes:
 * bench.js [REFS]. Both read every ref. Prints the best of seven runs of each, in turns, in
 * milliseconds of one processor, and the ratio.
 */
import { Ref, refs } from "./gixp.js";

const encoder = new TextEncoder(), decoder = new TextDecoder();
const packet = (text) => (encoder.encode(text).length + 4).toString(16).padStart(4, "0") + text;
const MIXED = 0x9e3779b97f4a7c15n ** 2n;
const idOf = (n) => (BigInt(n) * MIXED).toString(16).padStart(40, "0").slice(-40);

/** An `ls-refs` response with `count` branches and `HEAD`. Each tenth ref is a tag. */
function responseOf(count) {
  const lines = [packet(`${idOf(1)} HEAD symref-target:refs/heads/topic/0\n`)];
  for (let n = 0; n < count; n += 1) {
    const isTag = n % 10 === 9;
    const rest = isTag ? `refs/tags/v${n} peeled:${idOf(n + 7)}` : `refs/heads/topic/${n}`;
    lines.push(packet(`${idOf(n)} ${rest}\n`));
  }
  return encoder.encode(lines.join("") + "0000");
}

/** The value of an attribute, or null. */
function attribute(words, name) {
  for (let n = 2; n < words.length; n += 1)
    if (words[n].startsWith(name)) return words[n].slice(name.length);
  return null;
}

/** The refs of an answer: each packet line is decoded and split at its spaces. */
function* plain(answer) {
  let at = 0;
  for (;;) {
    const length = parseInt(decoder.decode(answer.subarray(at, at + 4)), 16);
    if (length === 0) return;
    if (!(length > 4)) throw new Error("a packet line has no length");
    let line = decoder.decode(answer.subarray(at + 4, at + length));
    if (line.endsWith("\n")) line = line.slice(0, -1);
    const words = line.split(" "), id = words[0] === "unborn" ? null : words[0];
    const peeled = attribute(words, "peeled:"), target = attribute(words, "symref-target:");
    yield new Ref(words[1], id, peeled, target, at + 45, words[1].length);
    at += length;
  }
}

/** Reads all refs. The sum depends on each text. */
function sumOf(found) {
  let sum = 0;
  for (const ref of found) {
    sum += ref.name.charCodeAt(ref.name.length - 1) + ref.id.charCodeAt(39);
    sum += (ref.peeled ?? "").length + (ref.target ?? "").length;
  }
  return sum;
}

function timed(reader, answer) {
  const start = process.cpuUsage(), sum = sumOf(reader(answer));
  const { user, system } = process.cpuUsage(start);
  return [(user + system) / 1000, sum];
}

const answer = responseOf(Number(process.argv[2] ?? 1_000_000));
let ours = Infinity, others = Infinity;
for (let n = 0; n < 7; n += 1) {
  const [a, first] = timed(refs, answer), [b, second] = timed(plain, answer);
  if (first !== second) throw new Error(`the parsers differ: ${first}, ${second}`);
  [ours, others] = [Math.min(ours, a), Math.min(others, b)];
}
const ratio = (ours / others).toFixed(2), times = [ours, others].map((time) => time.toFixed(0));
console.log(`gixp ${times[0]} ms, plain ${times[1]} ms, ratio ${ratio}, ${answer.length} bytes`);
