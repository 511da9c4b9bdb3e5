/**
 * A fetch over HTTP, in Node and in a page: requests by `fetch()`, the pack as it arrives. A pack
 * is never whole in memory.
 */
import { Band, Pack, Request, Session, readPieces, withoutService } from "./gixp.js";

/**
 * Sends a request, or asks for the advertisement. Resolves to a function that reads the response.
 */
async function ask(url, request, options) {
  const headers = { "Git-Protocol": "version=2", ...options.headers };
  if (request) headers["Content-Type"] = "application/x-git-upload-pack-request";
  const path = request ? "/git-upload-pack" : "/info/refs?service=git-upload-pack";
  const how = { method: request ? "POST" : "GET", body: request, headers, signal: options.signal };
  const response = await fetch(url + path, how);
  if (!response.ok) {
    await response.body?.cancel();
    throw new Error(`${url}: the server returned ${response.status} ${response.statusText}`);
  }
  const reader = response.body.getReader();
  return async () => (await reader.read()).value ?? new Uint8Array(0);
}

/** All bytes of a response. */
async function whole(read) {
  const parts = [];
  for (let part = await read(); part.length; part = await read()) parts.push(part);
  return new Uint8Array(await new Blob(parts).arrayBuffer());
}

/** The server's advertisement, as the first response of a session. */
export async function advertisement(url, options = {}) {
  return withoutService(await whole(await ask(url, null, options)));
}

/**
 * Fetches what the refspecs ask for. Yields the packet lines of the pack, and none if there is
 * nothing to fetch. `onStep` is called with each step and with the session: the last step may be a
 * Pack, with the boundary after it. `headers` and `signal` are as of `fetch()`, and the other
 * options as of a Session. Throws GixpError with the server's words, or an Error with the status of
 * HTTP.
 */
export async function* fetchPack(url, specs, options = {}) {
  const session = new Session(specs, options);
  session.answer(await advertisement(url, options));
  let step = session.step(), read = null;
  for (options.onStep?.(step, session); step instanceof Request; options.onStep?.(step, session)) {
    read = await ask(url, step.data, options);
    step = await session.readStep(read);
  }
  if (step instanceof Pack) yield* readPieces(session.answers.at(-1), step.place, read);
}

/** A line of progress: the server's last message, and the size of the pack so far. */
export class Progress {
  #said = "";
  #size = 0;

  /** Counts a packet line, and returns the line. */
  add(piece) {
    if (piece.band === Band.CONTENT) this.#size += piece.text.length;
    else this.#said = new TextDecoder().decode(piece.text).split("\r").at(-1).trim();
    return `${this.#said}  ${(this.#size / 1024).toFixed(0)} KiB`.trim();
  }
}
