/** The negotiation of a recorded session: requests, haves, acknowledgements. */
import { Nothing, Pack, Request, Session } from "../js/gixp.js";

const decoder = new TextDecoder();
const WIDTH = 640, MOST_DOTS = 512, DOTS = 32;

/** The payloads of packet lines as texts, up to a pack. */
function lines(bytes) {
  const found = [];
  for (let at = 0; at + 4 <= bytes.length;) {
    const length = parseInt(decoder.decode(bytes.subarray(at, at + 4)), 16);
    if (Number.isNaN(length)) break;
    const payload = bytes.subarray(at + 4, at + Math.max(length, 4));
    const line = decoder.decode(payload).replace(/\n$/, "");
    if (line === "packfile" || /^[\x01-\x03]/.test(line)) break;
    if (length > 4) found.push(line);
    at += Math.max(length, 4);
  }
  return found;
}

function after(found, word) {
  return found.filter((line) => line.startsWith(word + " ")).map((line) => line.split(" ")[1]);
}

/** A request as numbers: which command, wants, haves. */
function request(data) {
  const found = lines(data), command = found.find((line) => line.startsWith("command="));
  return {
    command: command?.slice(8) ?? "fetch",
    wants: after(found, "want"),
    haves: after(found, "have"),
    isDone: found.includes("done"),
    size: data.length,
  };
}

/** A response as numbers: which haves are common, whether a pack follows. */
function response(bytes) {
  const found = lines(bytes);
  const isReady = found.some((line) => /^ready$| ready$/.test(line));
  return { common: after(found, "ACK"), isReady, size: bytes.length };
}

/**
 * The steps of a session over these responses: each request with its response, and how it ends. An
 * error of the library ends it too.
 */
export function stepsOf(parts, specs, haves) {
  const session = new Session(specs, { haves }), rounds = [];
  for (let n = 0; ; n += 1) {
    if (n === parts.length)
      return { rounds, end: "the recording has no further response", error: null };
    session.answer(parts[n].bytes);
    try {
      const step = session.step();
      if (n > 0) rounds[n - 1].response = response(parts[n].bytes);
      if (step instanceof Pack) {
        const end = `the pack begins at offset ${step.place} of response ${parts[n].name}`;
        return { rounds, end, error: null };
      }
      if (step instanceof Nothing) return { rounds, end: "there is nothing to fetch", error: null };
      if (step instanceof Request) rounds.push({ request: request(step.data), response: null });
    } catch (error) {
      return { rounds, end: `response ${parts[n].name} is refused: ${error.message}`, error };
    }
  }
}

function node(name, attributes, ...inner) {
  const made = document.createElementNS("http://www.w3.org/2000/svg", name);
  for (const [key, value] of Object.entries(attributes)) made.setAttribute(key, value);
  made.append(...inner);
  return made;
}

function arrow(y, isRequest, text) {
  const [from, to] = isRequest ? [60, WIDTH - 60] : [WIDTH - 60, 60], tip = isRequest ? -8 : 8;
  return [
    node("line", { class: "arrow", x1: from, y1: y, x2: to, y2: y }),
    node("path", {
      class: "arrow",
      d: `M ${to + tip} ${y - 5} L ${to} ${y} L ${to + tip} ${y + 5}`,
      fill: "none",
    }),
    node("text", { x: WIDTH / 2, y: y - 7, "text-anchor": "middle" }, text),
  ];
}

/** A dot for each have, filled if the server has it. */
function dots(y, haves, common) {
  const shown = haves.slice(0, MOST_DOTS);
  return shown.map((id, n) => {
    const name = common.has(id) ? "common" : "offered";
    const cx = 80 + (n % DOTS) * 15.5, cy = y + Math.floor(n / DOTS) * 15;
    const title = node("title", {}, name === "common" ? `${id}: common` : id);
    return node("circle", { class: name, r: 5, cx, cy }, title);
  });
}

const plural = (count, word) => `${count} ${word}${count === 1 ? "" : "s"}`;

function requestText({ command, wants, haves, isDone }) {
  if (command === "ls-refs") return "ls-refs";
  const counts = [plural(wants.length, "want"), plural(haves.length, "have")];
  return `${command}: ${counts.join(", ")}` + (isDone ? ", done" : "");
}

function responseText({ common, isReady, size }, command) {
  if (command === "ls-refs") return `refs, ${size} bytes`;
  return `${plural(common.length, "common commit")}${isReady ? ", ready" : ""}, ${size} bytes`;
}

/** The picture: two lines for client and server, and an arrow for each message. */
export function picture({ rounds, end }) {
  const parts = [], common = new Set(rounds.flatMap((round) => round.response?.common ?? []));
  let y = 60;
  for (const { request: asked, response: answered } of rounds) {
    parts.push(...arrow(y, true, requestText(asked)));
    y += 18;
    parts.push(...dots(y, asked.haves, common));
    y += Math.ceil(Math.min(asked.haves.length, MOST_DOTS) / DOTS) * 15 + 22;
    if (answered) parts.push(...arrow(y, false, responseText(answered, asked.command)));
    y += 45;
  }
  const ends = node("text", { x: WIDTH / 2, y, "text-anchor": "middle" }, end);
  const heads = [[60, "client"], [WIDTH - 60, "server"]].flatMap(([x, name]) => [
    node("text", { x, y: 20, "text-anchor": "middle" }, name),
    node("line", { class: "line", x1: x, y1: 28, x2: x, y2: y - 20 }),
  ]);
  const label = "The requests and responses of the session, also listed below";
  const box = { viewBox: `0 0 ${WIDTH} ${y + 20}`, width: WIDTH, role: "img", "aria-label": label };
  return node("svg", box, ...heads, ...parts, ends);
}

/** The same as sentences. */
export function sentences({ rounds, end }) {
  const common = new Set(rounds.flatMap((round) => round.response?.common ?? []));
  return [...rounds.flatMap(({ request: asked, response: answered }) => {
    const known = asked.haves.filter((id) => common.has(id)).length;
    const shared = asked.haves.length ? `, of which ${known} are common` : "";
    const first = `The client requests ${requestText(asked)}${shared}.`;
    if (!answered) return [first];
    return [first, `The server sends ${responseText(answered, asked.command)}.`];
  }), `The end: ${end}.`];
}
