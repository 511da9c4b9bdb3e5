/** The page: opens recordings and servers, and shows what they say. */
import { GixpError, Request, Session, advertised, refs } from "../js/gixp.js";
import { Progress, advertisement, fetchPack } from "../js/http.js";
import { EXAMPLE } from "./example.js";
import { List, Slices, cell } from "./list.js";
import { Mapper } from "./mapping.js";
import { picture, sentences, stepsOf } from "./negotiation.js";
import { dump, meaning, packetOffsets } from "./packets.js";
import { KIND, part, recordingOf } from "./recording.js";

const at = (id) => document.getElementById(id);
const lists = {
  packets: new List(at("packets-list")),
  refs: new List(at("refs-list")),
  mappings: new List(at("mappings-list")),
};
const mapper = new Mapper();
let recording = null, found = [], turn = 0, stopping = null;

const say = (text) => (at("status").textContent = text);
const specs = () => at("specs").value.split("\n").map((line) => line.trim()).filter(Boolean);
const LISTS = new Set([KIND.LISTING, KIND.ADVERTISEMENT]);

/** Shows an error: its name, its text, and the bytes around its offset. */
function refuse(error, bytes, place) {
  at("refusal").hidden = !error;
  if (!error) return;
  const hasPlace = bytes !== null && place !== null;
  at("refusal-name").textContent = error.kind ? `${error.kind} (${error.code})` : error.name;
  at("refusal-text").textContent = error.message + (hasPlace ? `, at offset ${place}` : "");
  at("refusal-bytes").hidden = !hasPlace;
  if (hasPlace) at("refusal-bytes").replaceChildren(...dumpRows(bytes, Number(place)));
}

function dumpRows(bytes, place) {
  return dump(bytes, place).flatMap((row) => {
    const words = row.bytes.flatMap((byte, n) => {
      if (row.start + n !== place) return [byte + " "];
      const mark = document.createElement("mark");
      mark.textContent = byte;
      return [mark, " "];
    });
    const start = `${String(row.start).padStart(8)}  `;
    return [start, ...words, "   ".repeat(16 - row.bytes.length), ` ${row.text}\n`];
  });
}

async function showPackets(one, mine) {
  const read = await packetOffsets(one.bytes, () => mine !== turn);
  if (!read) return null;
  lists.packets.show(read.offsets.length, (n) => {
    const { name, text, isBad } = meaning(one.bytes, read.offsets[n], one.kind);
    const kind = cell(isBad ? "kind bad" : "kind", name);
    return [cell("at", String(read.offsets[n])), kind, cell("grow", text)];
  });
  const counts = `${read.offsets.length} packet lines, ${one.bytes.length} bytes`;
  at("packets-count").textContent = `${counts}, ${one.kind}`;
  return read;
}

function kindText(ref) {
  if (ref.id === null) return "unborn";
  return ref.target ? "symbolic" : ref.peeled ? "tag" : "ref";
}
const leadsTo = (ref) => (ref.target ? `→ ${ref.target}` : ref.peeled ? `^{} ${ref.peeled}` : "");

function showRefs(shown) {
  lists.refs.show(shown.length, (n) => {
    const ref = shown[n];
    const kind = cell("word", kindText(ref)), leads = cell("leads dim", leadsTo(ref));
    return [cell("grow", ref.name), cell("id", ref.id ?? ""), kind, leads];
  });
  const isFiltered = shown.length !== found.length;
  at("refs-count").textContent = (isFiltered ? `${shown.length} of ` : "") + `${found.length} refs`;
}

/** Reads the refs of a response, a few thousand at a time. */
async function readRefs(one, mine) {
  const slices = new Slices(), reader = one.kind === KIND.LISTING ? refs : advertised;
  let error = null;
  found = [];
  try {
    for (const ref of reader(one.bytes)) {
      found.push(ref);
      if (found.length % 1024 !== 0) continue;
      await slices.rest();
      if (mine !== turn) return null;
      if (found.length % 65536 === 0) showRefs(found);
    }
  } catch (e) {
    error = e;
  }
  showRefs(found);
  mapper.open(found);
  showMappings();
  return { error };
}

let filtering = 0;
async function filter() {
  const mine = (filtering += 1), text = at("filter").value, slices = new Slices(), shown = [];
  for (let n = 0; n < found.length; n += 1) {
    if (found[n].name.includes(text)) shown.push(found[n]);
    if (n % 8192 !== 8191) continue;
    await slices.rest();
    if (mine !== filtering) return;
  }
  showRefs(shown);
}

function showMappings() {
  if (found.length === 0) {
    at("mappings-count").textContent = "There are no refs to map.";
    return lists.mappings.show(0, () => []);
  }
  mapper.map(specs(), ({ text, isBad, count, cells }) => {
    at("mappings-count").textContent = text;
    at("mappings-count").classList.toggle("bad", isBad);
    lists.mappings.show(count, cells);
  });
}

/** Shows the negotiation, and returns its error. */
function showNegotiation() {
  if (!recording?.isSession) {
    at("negotiation-count").textContent =
      "Open the folder of a recorded session: the files 0, 1, 2 and so on, and haves.";
    at("negotiation-picture").replaceChildren();
    at("negotiation-steps").replaceChildren();
    return null;
  }
  const steps = stepsOf(recording.parts, specs(), recording.haves);
  at("negotiation-count").textContent =
    `${steps.rounds.length} requests, ${recording.haves.length} haves in the recording`;
  at("negotiation-picture").replaceChildren(picture(steps));
  at("negotiation-steps").replaceChildren(...sentences(steps).map((text) => {
    const item = document.createElement("li");
    item.textContent = text;
    return item;
  }));
  return steps.error;
}

/** Shows the response that is chosen. */
async function showPart() {
  const mine = (turn += 1), one = recording.parts[at("part").selectedIndex];
  say(`Reading ${one.name} ..`);
  const packets = await showPackets(one, mine);
  if (!packets) return;
  const read = LISTS.has(one.kind) ? await readRefs(one, mine) : { error: null };
  if (!read) return;
  const error = read.error ?? packets.error, place = read.error ? read.error.place : packets.at;
  const ofSession = showNegotiation();
  refuse(error ?? ofSession, error ? one.bytes : null, error ? place : null);
  const refsText = LISTS.has(one.kind) ? `, ${found.length} refs` : "";
  say(`${one.name}: ${one.kind}, ${one.bytes.length} bytes${refsText}`);
  document.body.dataset.turn = String(mine);
}

function open(opened) {
  if (opened.parts.length === 0) return say("There is no response in these files.");
  recording = opened;
  at("views").hidden = false;
  at("part").replaceChildren(...opened.parts.map((one) => new Option(`${one.name}: ${one.kind}`)));
  const first = opened.parts.findIndex((one) => LISTS.has(one.kind));
  at("part").selectedIndex = Math.max(first, 0);
  return showPart();
}

/** Asks a server for its advertisement and its refs. */
async function ask(url) {
  // without refspecs a server lists all refs
  const session = new Session([]), parts = [part("0", await advertisement(url))];
  session.answer(parts[0].bytes);
  const step = session.step();
  if (step instanceof Request && parts[0].kind === KIND.CAPABILITIES) {
    const kind = "application/x-git-upload-pack-request";
    const headers = { "Git-Protocol": "version=2", "Content-Type": kind };
    const how = { method: "POST", body: step.data, headers };
    const response = await fetch(url + "/git-upload-pack", how);
    parts.push(part("1", new Uint8Array(await response.arrayBuffer())));
  }
  await open({ parts, haves: [], isSession: true });
  at("fetch").disabled = false;
}

/** Fetches the pack, and counts it. */
async function receive(url) {
  const progress = new Progress();
  let next = 0;
  stopping = new AbortController();
  at("transfer").hidden = at("stop").hidden = false;
  for await (const piece of fetchPack(url, specs(), { signal: stopping.signal })) {
    const line = progress.add(piece), percent = /(\d+)%/.exec(line)?.[1];
    if (performance.now() < next) continue;
    next = performance.now() + 100;
    if (percent) at("bar").value = Number(percent) / 100;
    at("received").textContent = line;
  }
  at("bar").value = 1;
  const last = progress.add({ band: 2, text: new Uint8Array(0) });
  at("received").textContent = `The pack is complete. ${last}`;
}

/** Runs work whose error is shown. */
async function attempt(work) {
  refuse(null);
  try {
    await work();
  } catch (e) {
    if (!(e instanceof GixpError) && !(e instanceof Error)) throw e;
    refuse(e, null, null);
    say(e.name === "AbortError" ? "Stopped." : "The server's answer is refused.");
  } finally {
    at("stop").hidden = true;
  }
}

function choose(tab) {
  for (const one of document.querySelectorAll("[role=tab]")) {
    const isChosen = one === tab;
    one.setAttribute("aria-selected", isChosen);
    one.tabIndex = isChosen ? 0 : -1;
    at(one.getAttribute("aria-controls")).hidden = !isChosen;
  }
  Object.values(lists).forEach((list) => list.draw());
}

/** Moves among the tabs by the arrow keys, Home and End. */
function step(event) {
  const tabs = [...document.querySelectorAll("[role=tab]")], now = tabs.indexOf(event.target);
  const to = { ArrowRight: now + 1, ArrowLeft: now - 1, Home: 0, End: tabs.length - 1 }[event.key];
  if (to === undefined) return;
  const tab = tabs[(to + tabs.length) % tabs.length];
  choose(tab);
  tab.focus();
  event.preventDefault();
}

/** The entries of a dropped folder. A browser returns a hundred at a time, and none at the end. */
async function entriesOf(folder) {
  const reader = folder.createReader(), all = [];
  for (;;) {
    const some = await new Promise((done, fail) => reader.readEntries(done, fail));
    if (some.length === 0) return all;
    all.push(...some);
  }
}

/** The files of a dropped folder, or the dropped files. */
async function dropped(items) {
  const entries = [...items].map((item) => item.webkitGetAsEntry?.()).filter(Boolean);
  const inside = entries.map((entry) => (entry.isDirectory ? entriesOf(entry) : [entry]));
  const files = (await Promise.all(inside)).flat().filter((entry) => entry.isFile);
  return Promise.all(files.map((file) => new Promise((done, fail) => file.file(done, fail))));
}

const urlOf = () => new URL(at("url").value, location.href).href.replace(/\/$/, "");
for (const id of ["files", "folder"]) at(id).addEventListener("change", ({ target }) => {
  const files = [...target.files];
  // so that the same files can be chosen again
  target.value = "";
  attempt(async () => open(await recordingOf(files)));
});
at("example").addEventListener("click", () => attempt(() => open(EXAMPLE())));
at("ask").addEventListener("submit", (event) => {
  event.preventDefault();
  attempt(() => ask(urlOf()));
});
at("fetch").addEventListener("click", () => attempt(() => receive(urlOf())));
at("stop").addEventListener("click", () => stopping?.abort());
at("part").addEventListener("change", () => attempt(showPart));
at("filter").addEventListener("input", filter);
at("specs").addEventListener("input", () => {
  showMappings();
  showNegotiation();
});
for (const tab of document.querySelectorAll("[role=tab]")) {
  tab.addEventListener("click", () => choose(tab));
  tab.addEventListener("keydown", step);
}
const drop = at("drop");
for (const kind of ["dragover", "dragleave", "drop"]) drop.addEventListener(kind, (event) => {
  event.preventDefault();
  drop.classList.toggle("over", kind === "dragover");
});
drop.addEventListener("drop", ({ dataTransfer }) => attempt(async () =>
  open(await recordingOf(await dropped(dataTransfer.items)))));
document.body.dataset.ready = "yes";
