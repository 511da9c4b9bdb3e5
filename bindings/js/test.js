#!/usr/bin/env -S node --experimental-wasm-memory64 --no-warnings
/**
 * Tests of the module under Node: test.js VECTORS [URL]. scripts/page.py writes the test vectors
 * with what the reference implementations expect, and serves a repository at the URL. Prints `N
 * passed, M failed`.
 */
import assert from "node:assert/strict";
import { readFileSync } from "node:fs";
import * as gixp from "./gixp.js";
import { advertisement, fetchPack } from "./http.js";
import { Library } from "./library.js";
import { checkVectors } from "./vectors.js";

const { Band, GixpError, Nothing, Pack, Request, Session, advertised, map, piece, pieces, prefixes, readPieces, refs } = gixp;
const encoder = new TextEncoder(), decoder = new TextDecoder();
const id = (n) => n.toString(16).padStart(40, "0");
const bytes = (...texts) => encoder.encode(texts.join(""));
const packet = (text) => (encoder.encode(text).length + 4).toString(16).padStart(4, "0") + text;
const MODULE = new URL("../build/gixp.wasm", import.meta.url);
const ofFile = JSON.parse(readFileSync(process.argv[2]));
const url = process.argv[3];

/** The lines of a request, without flush and delimiter packets. */
function payloads(data) {
  const text = decoder.decode(data), found = [];
  for (let at = 0, size; at < text.length; at += Math.max(size, 4)) {
    size = parseInt(text.slice(at, at + 4), 16);
    if (size > 4) found.push(text.slice(at + 4, at + size).trimEnd());
  }
  return found;
}

function refused(call) {
  try {
    call();
  } catch (e) {
    assert.ok(e instanceof GixpError, e.stack);
    return e;
  }
  throw new Error("nothing was refused");
}

const greeting = bytes(packet("version 2\n"), packet("ls-refs=unborn\n"), packet("fetch=shallow\n"), "0000");
const listed = bytes(packet(id(5) + " refs/heads/main\n"), "0000");

function session(answers, options) {
  const made = new Session(["refs/heads/*:refs/remotes/o/*"], options);
  answers.forEach((answer) => made.answer(answer));
  return made;
}

const codeOf = (answers, options) => refused(() => session(answers, options).step()).code;

const tests = {
  "the test vectors give what the reference implementations expect": () => {
    const { count, codes, wrong } = checkVectors(gixp, ofFile);
    assert.deepEqual(wrong, []);
    assert.ok(count > 10000, `${count} test vectors`);
    for (const code of [0, 10, 11, 12, 13, 14, 15, 16, 20, 21, 22, 23, 24, 25, 46, 47, 48]) assert.ok(codes[code], `no test vector has ${code}`);
  },

  "an error comes after the refs before it": () => {
    const ref = packet(id(1) + " HEAD\n");
    for (const [bad, code] of [["zzzz", 11], ["fff1" + "x".repeat(10), 12], ["0004", 13], ["0003", 14], [packet("ERR no\n"), 15], ["0002", 16],
      ["", 10], ["00", 10], ["0032abc", 10], [packet("x y\n"), 20], [packet(id(1) + "\n"), 21], [packet(id(1) + " a b:c\n"), 22], [packet("unborn a\n"), 23]]) {
      const found = [], error = refused(() => found.push(...(function* () { for (const one of refs(bytes(ref, bad))) { found.push(one); } })()));
      assert.deepEqual([error.code, found.map((one) => one.name)], [code, ["HEAD"]], bad);
      assert.equal(decoder.decode(error.words), code === 15 ? "no" : "");
      assert.equal(error.place, ref.length);
      assert.ok(error.message);
    }
  },

  "each beginning of a response is incomplete": () => {
    const data = bytes(...Array.from({ length: 600 }, (_, n) => packet(`${id(n)} refs/heads/${n}\n`)), "0000");
    assert.equal([...refs(data)].length, 600);
    for (const end of [0, 3, 100, data.length - 1]) assert.equal(refused(() => [...refs(data.subarray(0, end))]).kind, "INCOMPLETE");
    const pack = bytes(packet("acknowledgments\n"), packet("NAK\n"), packet("ready\n"), "0001", packet("packfile\n"));
    for (const [before, answer] of [[[], greeting], [[greeting], listed], [[greeting, listed], pack]])
      for (let end = 0; end < answer.length; end += 1) assert.equal(codeOf([...before, answer.subarray(0, end)], { haves: ["07".repeat(20)] }), 10);
  },

  "names that aren't ASCII, and bytes that aren't UTF-8": () => {
    const data = bytes(packet(id(1) + " refs/heads/\u00fc\u{1f600}\n"), packet(id(2) + " refs/heads/ascii\n"), "0000");
    assert.deepEqual([...refs(data)].map((one) => [one.name, one.id]), [["refs/heads/\u00fc\u{1f600}", id(1)], ["refs/heads/ascii", id(2)]]);
    const raw = bytes(packet(id(1) + " refs/heads/xy\n"), "0000");
    raw[raw.length - 6] = 0xff;
    const [one] = refs(raw);
    assert.equal(one.name, "refs/heads/x\ufffd");
    assert.deepEqual([...raw.subarray(one.place, one.place + one.length)], [...bytes("refs/heads/x"), 0xff]);
    assert.deepEqual([...refs(bytes(packet("ABCDEF".padEnd(40, "0") + " HEAD\n"), "0000"))][0].id, "abcdef".padEnd(40, "0"));
  },

  "calls between the refs of a response don't disturb them": () => {
    const data = bytes(...Array.from({ length: 9000 }, (_, n) => packet(`${id(n)} refs/heads/${n}\n`)), "0000");
    let n = 0;
    for (const one of refs(data)) {
      if (n % 1000 === 0) assert.equal(map(["refs/heads/a"], ["refs/heads/*:refs/x/*"]).mappings[0].local, "refs/x/a");
      assert.equal(one.name, `refs/heads/${n}`);
      n += 1;
    }
    assert.equal(n, 9000);
  },

  "pieces of a pack": async () => {
    const data = bytes(packet("\x01PACK"), packet("\x02half\n"), packet("\x01"), packet("\x03bad"), "0000rest");
    const texts = (found) => found.map((one) => [one.band, decoder.decode(one.text)]);
    const all = [[Band.CONTENT, "PACK"], [Band.PROGRESS, "half"], [Band.CONTENT, ""], [Band.ERROR, "bad"]];
    assert.deepEqual(texts([...pieces(data)]), all);
    const parts = [data.subarray(10, 20), data.subarray(20)], found = [];
    for await (const one of readPieces(data.subarray(0, 10), 0, async () => parts.shift())) found.push(one);
    assert.deepEqual(texts(found), all);
    assert.equal(refused(() => piece(bytes(packet("\x04x")), 0)).kind, "UNKNOWN_BAND");
  },

  "a pack of 300 MiB passes through little memory": async () => {
    const line = bytes(packet("\x01" + "x".repeat(65515))), count = Math.ceil((300 << 20) / 65515);
    const before = process.memoryUsage().rss;
    let left = count, size = 0, most = 0;
    const read = async () => (left-- > 0 ? line : bytes("0000"));
    for await (const one of readPieces(new Uint8Array(0), 0, read)) {
      size += one.text.length;
      if (left % 256 === 0) most = Math.max(most, process.memoryUsage().rss - before);
    }
    assert.equal(size, count * 65515);
    assert.ok(most < 150 << 20, `${most >> 20} MiB`);
  },

  "numbers beyond 2^53 aren't lost": () => {
    const data = bytes(packet("\x01PACK"), "0000");
    for (const place of [-1, -1n, 0.5, NaN, data.length + 1, 2 ** 53, 2n ** 53n + 1n, 2n ** 64n - 1n, 2n ** 64n, 2n ** 70n, 2 ** 70])
      assert.equal(refused(() => piece(data, place)).kind, "BAD_PLACE", String(place));
    assert.equal(piece(data, 9n).band, Band.STOP);
    assert.equal(piece(data, 9).band, Band.STOP);
    for (const depth of [-1, 0.5, NaN, 2 ** 32, 2n ** 64n]) assert.equal(refused(() => new Session([], { depth })).kind, "BAD_PLACE", String(depth));
    const step = session([greeting, listed], { depth: 2 ** 32 - 1 }).step();
    assert.ok(decoder.decode(step.data).includes("deepen 4294967295"));
  },

  "the steps of a session": () => {
    assert.ok(decoder.decode(session([greeting]).step().data).startsWith("0014command=ls-refs\n"));
    const step = session([greeting, listed], { haves: ["07".repeat(20)] }).step();
    assert.ok(step instanceof Request);
    assert.ok(decoder.decode(step.data).includes("want " + id(5)) && decoder.decode(step.data).includes("have " + "07".repeat(20)));
    const pack = bytes(packet("packfile\n"), packet("\x01PACK"), "0000");
    for (const end of [pack.length, 13, 20]) assert.deepEqual(session([greeting, listed, pack.subarray(0, end)]).step(), new Pack(13));
    assert.ok(session([greeting, bytes("0000")]).step() instanceof Nothing);
    assert.ok(session([greeting, listed], { haves: [id(5)] }).step() instanceof Nothing);
  },

  "each limit of the history, and a filter": () => {
    const filters = bytes(packet("version 2\n"), packet("ls-refs=unborn\n"), packet("fetch=shallow filter\n"), "0000");
    const rows = [[{}], [{ depth: 3 }, "deepen 3"], [{ deepen: 2 }, "deepen 2", "deepen-relative"],
      [{ since: 1700000000 }, "deepen-since 1700000000"], [{ since: -5n }, "deepen-since -5"],
      [{ exclude: ["refs/tags/v1", "old"] }, "deepen-not refs/tags/v1", "deepen-not old"],
      [{ since: 7, exclude: ["old"] }, "deepen-since 7", "deepen-not old"], [{ filter: "blob:none" }, "filter blob:none"]];
    for (const [options, ...lines] of rows) {
      const sent = payloads(session([filters, listed], options).step().data);
      assert.deepEqual(sent.filter((line) => /^(deepen|filter)/.test(line)), lines);
    }
    assert.equal(codeOf([greeting], { filter: "blob:none" }), 70);
    assert.equal(codeOf([greeting], { filter: new Uint8Array([255]) }), 80);
    assert.equal(codeOf([greeting], { exclude: ["a..b"] }), 81);
    const bare = bytes(packet("version 2\n"), packet("ls-refs\n"), packet("fetch\n"), "0000");
    for (const options of [{ depth: 1 }, { deepen: 1 }, { since: 1 }, { exclude: ["a"] }]) assert.equal(codeOf([bare, listed], options), 63);
    for (const options of [{ depth: 1, deepen: 1 }, { depth: 1, since: 0 }, { deepen: 0, exclude: ["a"] }])
      assert.equal(refused(() => new Session([], options)).kind, "BAD_LIMIT");
    for (const options of [{ deepen: -1 }, { deepen: 2 ** 32 }, { since: 2 ** 63 }, { since: 0.5 }])
      assert.equal(refused(() => new Session([], options)).kind, "BAD_PLACE");
  },

  "the boundary after a pack": () => {
    const fresh = id(1), old = "07".repeat(20), plain = bytes(packet("packfile\n"), packet("\x01PACK"), "0000");
    const sections = [packet("shallow-info\n"), packet("shallow " + fresh), packet("unshallow " + old), "0001", packet("packfile\n")];
    const answer = bytes(...sections, packet("\x01PACK"), "0000"), place = bytes(...sections).length;
    for (const options of [{ depth: 1 }, { deepen: 1 }, { since: 1 }, { exclude: ["a"] }])
      assert.deepEqual(session([greeting, listed, answer], { shallow: [old], ...options }).step(), new Pack(place, [fresh]));
    assert.deepEqual(session([greeting, listed, answer], { shallow: [old] }).step(), new Pack(place, [fresh], true));
    for (const shallow of [[], [old], [old, fresh], Array.from({ length: 3000 }, (_, n) => id(n))])
      assert.deepEqual(session([greeting, listed, plain], { shallow }).step(), new Pack(13, shallow));
  },

  "refusals of a session": () => {
    const codes = [[[], 30], [[greeting, bytes("0000"), bytes("0000")], 31], [[bytes("")], 10], [[bytes("<html>")], 43],
      [[greeting, bytes(packet(id(5) + " refs/heads/main\n"), "0001")], 53],
      [[greeting, bytes(packet(id(5) + " refs/heads/main\u00a0\n"), "0000")], 21]];
    for (const [answers, code] of codes) assert.equal(codeOf(answers), code);
    assert.equal(codeOf([greeting], { haves: [new Uint8Array(19)] }), 3);
    assert.equal(refused(() => session([greeting], { haves: ["short"] })).code, 3);
    const error = refused(() => session([greeting, bytes(packet("ERR go away\n"))]).step());
    assert.deepEqual([error.code, decoder.decode(error.words), error.kind], [15, "go away", "SERVER"]);
    assert.match(error.message, /go away/);
    const other = new Session(["a:b:c"]);
    other.answer(greeting);
    assert.equal(refused(() => other.step()).kind, "BAD_SPEC");
  },

  "a response that arrives in parts": async () => {
    const whole = session([greeting]), parts = [listed.subarray(0, 3), listed.subarray(3, 30), listed.subarray(30)];
    const step = await whole.readStep(async () => parts.shift() ?? new Uint8Array(0));
    assert.ok(step instanceof Request);
    const cut = session([greeting]), few = [listed.subarray(0, 3)];
    await assert.rejects(cut.readStep(async () => few.shift() ?? new Uint8Array(0)), { kind: "INCOMPLETE" });
  },

  "mappings, and conflicts": () => {
    assert.deepEqual(map(["refs/heads/a", "refs/tags/b"], ["refs/heads/*:refs/o/*", "refs/tags/b"]).mappings,
      [{ item: 0, spec: 0, local: "refs/o/a" }, { item: 1, spec: 1, local: null }]);
    assert.deepEqual(map(["refs/heads/a", "refs/heads/b"], ["refs/heads/a:refs/x", "refs/heads/b:refs/x"]).conflicts, ["refs/x"]);
    assert.deepEqual(map(["refs/heads/a"], ["refs/heads/*:x/*"]), { mappings: [], removed: ["x/a"], conflicts: [] });
    const many = Array.from({ length: 5000 }, (_, n) => `refs/heads/${n}`);
    assert.equal(map(many, ["refs/heads/*:refs/remotes/a/long/name/of/a/remote/*", "refs/heads/*:refs/y/*"]).mappings.length, 10000);
    assert.equal(refused(() => map([], ["a:b:c"])).kind, "BAD_SPEC");
    assert.deepEqual(prefixes(["refs/heads/*:refs/x/*", "@:refs/x"]), ["refs/heads/", "HEAD"]);
    assert.equal(prefixes(Array.from({ length: 200 }, (_, n) => `refs/heads/${n}:refs/x/${n}`)).length, 200);
  },

  "a module that ends in a trap is an error, and the next call works": () => {
    // bytes that say they are many more than they were when they were copied: the module reads
    // beyond its memory
    const lying = { size: 16, get length() { return this.size; }, get 0() { return (this.size = 2 ** 40) && 48; } };
    const error = refused(() => piece(lying, 2 ** 39));
    assert.deepEqual([error.kind, error.message.startsWith("the module ended in a trap")], ["TRAP", true]);
    assert.deepEqual([...refs(listed)].map((one) => one.name), ["refs/heads/main"]);
  },

  "an allocation that fails is an error, and the next call works": () => {
    // more bytes than the module's memory can ever have
    assert.equal(refused(() => piece({ length: 2 ** 45 }, 0)).kind, "NO_MEMORY");
    assert.deepEqual([...refs(listed)].map((one) => one.name), ["refs/heads/main"]);
  },

  "memory goes back, and later calls use it": async () => {
    const library = await Library.load(MODULE);
    const packets = bytes(packet("\x01PACK"), "0000");
    for (let n = 0; n < 1000; n += 1) {
      // each response is longer than the last one, so that the last region doesn't do
      const answer = new Uint8Array((1 << 20) + 64 * n);
      answer.set(packets);
      const [start, record] = library.place({}, [answer, 32]);
      assert.equal(library.call("gixp_piece", start, answer.length, 0, record), 0);
      assert.equal(library.size(record + 24), 9);
      const size = library.buffer.byteLength;
      assert.ok(size < 8 << 20, `${size >> 20} MiB after ${n + 1} responses`);
    }
  },

  "after an allocation that fails, the bytes of the last owner are placed again": async () => {
    const library = await Library.load(MODULE);
    const call = library.call.bind(library), owner = {};
    let taken = 0;
    library.call = (name, ...words) => {
      taken += name === "gixp_take";
      return call(name, ...words);
    };
    // the first error also places its text
    assert.equal(refused(() => library.place({}, [2 ** 45])).kind, "NO_MEMORY");
    library.place(owner, [listed]);
    assert.equal(refused(() => library.place({}, [2 ** 45])).kind, "NO_MEMORY");
    const before = taken, [again] = library.place(owner, [listed]);
    assert.equal(taken, before + 1);
    assert.deepEqual(library.copy(again, listed.length), listed);
  },

  "the types name what the module exports": () => {
    const types = readFileSync(new URL("./gixp.d.ts", import.meta.url), "utf8");
    const named = [...types.matchAll(/^export (?:class|function|const) (\w+)/gm)].map((found) => found[1]).sort();
    assert.deepEqual(named, Object.keys(gixp).sort());
  },
};

const withServer = {
  "a fetch over HTTP": async () => {
    let size = 0, steps = 0;
    for await (const one of fetchPack(url, ["refs/heads/*:refs/x/*"], { onStep: () => (steps += 1) })) size += one.band === Band.CONTENT ? one.text.length : 0;
    assert.ok(size > 100000, `${size} bytes`);
    assert.equal(steps, 3);
    const all = [...refs(await (async () => {
      const whole = new Session(["refs/heads/*:refs/x/*"]);
      whole.answer(await advertisement(url));
      const response = await fetch(url + "/git-upload-pack", { method: "POST", body: whole.step().data,
        headers: { "Git-Protocol": "version=2", "Content-Type": "application/x-git-upload-pack-request" } });
      return new Uint8Array(await response.arrayBuffer());
    })())].filter((one) => one.name.startsWith("refs/heads/"));
    for await (const one of fetchPack(url, ["refs/heads/*:refs/x/*"], { haves: all.map((found) => found.id) })) assert.fail(String(one.band));
  },

  "refusals over HTTP have their text": async () => {
    await assert.rejects(advertisement(url + "x"), /404/);
    const gone = fetchPack(url, ["refs/heads/*:refs/x/*"], { signal: AbortSignal.abort() });
    await assert.rejects(gone.next(), { name: "AbortError" });
    await assert.rejects(fetchPack(url.replace("served", "refusing"), ["refs/heads/*:refs/x/*"]).next(), { kind: "SERVER", message: /this server is closed/ });
  },
};

let passed = 0, failed = 0;
for (const [name, test] of Object.entries({ ...tests, ...(url ? withServer : {}) })) {
  try {
    await test();
    passed += 1;
  } catch (e) {
    failed += 1;
    console.error(`${name}: ${e.stack}`);
  }
}
console.log(`${passed} passed, ${failed} failed`);
process.exit(failed ? 1 : 0);
