/** A program that uses each type of the module once: scripts/page.py checks that it compiles. */
import { Band, GixpError, Nothing, Pack, Request, Session, advertised, map, piece, pieces, prefixes,
  readPieces, refs, use, withoutService } from "./gixp.js";
import type { ErrorKind, Mappings, Piece, Ref, Step } from "./gixp.js";
import { Progress, advertisement, fetchPack } from "./http.js";

/** The names and ids of the refs, and how reading ended. */
function names(answer: Uint8Array): [string[], ErrorKind | null] {
  const found: string[] = [];
  try {
    for (const ref of refs(answer)) found.push(`${ref.name} ${ref.id ?? "unborn"}`);
    return [found, null];
  } catch (e) {
    if (!(e instanceof GixpError)) throw e;
    const place: number | bigint | null = e.place;
    return [[...found, `${place}: ${e.code}`], e.kind];
  }
}

function sizeOf(step: Step): number {
  if (step instanceof Request) return step.data.length;
  if (!(step instanceof Pack)) return 0;
  const ids: string[] = step.boundary, isUnasked: boolean = step.isUnasked;
  return step.place + (isUnasked ? 0 : ids.length);
}

async function packSize(url: string, read: () => Promise<Uint8Array>): Promise<number> {
  const session = new Session(["refs/heads/*:refs/x/*"], { haves: ["07".repeat(20)], depth: 1n });
  session.answer(withoutService(await advertisement(url, { headers: { "User-Agent": "example" } })));
  const step: Step = await session.readStep(read), progress = new Progress();
  let size = step instanceof Nothing ? 0 : sizeOf(step);
  const options = { since: 1n, exclude: ["refs/tags/v1"], filter: "blob:none" };
  for await (const one of fetchPack(url, ["refs/heads/*:refs/x/*"], options)) {
    if (one.band === Band.CONTENT) size += one.text.length;
    progress.add(one);
  }
  for await (const one of readPieces(new Uint8Array(0), 0, read)) size += one.next;
  return size;
}

const first: Ref | undefined = [...advertised(new ArrayBuffer(0))][0];
const mapped: Mappings = map([first?.name ?? "refs/heads/a"], ["refs/heads/*:refs/x/*"]);
const local: string | null | undefined = mapped.mappings[0]?.local;
const one: Piece = piece(new Uint8Array(4), 0n), all: Piece[] = [...pieces(new Uint8Array(4))];
const replace: (module: WebAssembly.Module) => void = use;
export { all, local, names, one, packSize, prefixes, replace };
