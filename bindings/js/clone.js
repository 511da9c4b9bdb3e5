#!/usr/bin/env -S node --experimental-wasm-memory64 --no-warnings
/** Clones a repository over HTTP or HTTPS: clone.js URL FOLDER [DEPTH]. It needs git and the module. */
import { spawn, spawnSync } from "node:child_process";
import { writeFileSync } from "node:fs";
import { once } from "node:events";
import { Band, map, refs } from "./gixp.js";
import { Progress, fetchPack } from "./http.js";

const SPECS = ["+refs/heads/*:refs/remotes/origin/*", "+refs/tags/*:refs/tags/*"];

function git(words, input) {
  const stdio = [input === undefined ? "ignore" : "pipe", "inherit", "inherit"];
  const run = spawnSync("git", words, { input, stdio });
  if (run.status !== 0) throw new Error("git " + words[0] + " failed");
}

/** Passes the pack to git, and shows the progress. */
async function receive(folder, pack) {
  const words = ["-C", folder, "index-pack", "--stdin", "--fix-thin"];
  const index = spawn("git", words, { stdio: ["pipe", "ignore", "inherit"] });
  const ended = once(index, "exit"), progress = new Progress();
  for await (const piece of pack) {
    const line = progress.add(piece);
    const isFull = piece.band === Band.CONTENT && !index.stdin.write(piece.text);
    if (isFull) await once(index.stdin, "drain");
    process.stderr.write("\r" + line + "\x1b[K");
  }
  process.stderr.write("\n");
  index.stdin.end();
  if ((await ended)[0] !== 0) throw new Error("git index-pack failed");
}

/** Writes the refs that the refspecs map, as `git update-ref --stdin` reads them. */
function updates(listed) {
  const found = [...refs(listed)], { mappings } = map(found.map((ref) => ref.name), SPECS);
  return mappings.map((one) => `create ${one.local} ${found[one.item].id}\n`).join("");
}

/**
 * Writes the shallow boundary. The repository has no other objects, so also a shallow server's own
 * boundary is right.
 */
function writeBoundary(folder, ids) {
  if (ids.length) writeFileSync(folder + "/.git/shallow", ids.map((id) => id + "\n").join(""));
}

const [url, folder, depth = 0] = process.argv.slice(2);
if (!folder) {
  console.error("usage: clone.js URL FOLDER [DEPTH]");
  process.exit(2);
}
try {
  let listed = null, boundary = [];
  const onStep = (step, session) => {
    listed = session.answers[1] ?? null;
    boundary = step.boundary ?? [];
  };
  git(["init", "--quiet", folder]);
  await receive(folder, fetchPack(url, SPECS, { onStep, depth: Number(depth) }));
  writeBoundary(folder, boundary);
  git(["-C", folder, "update-ref", "--stdin"], updates(listed));
} catch (e) {
  console.error("clone.js: " + e.message);
  process.exit(1);
}
