/** Types of http.js. */
import type { Piece, Session, SessionOptions, Step, Text } from "./gixp.js";

export interface FetchOptions extends SessionOptions {
  headers?: Record<string, string>;
  signal?: AbortSignal;
  onStep?: (step: Step, session: Session) => void;
}

export function advertisement(url: string, options?: FetchOptions): Promise<Uint8Array>;
export function fetchPack(url: string, specs: Iterable<Text>, options?: FetchOptions):
  AsyncGenerator<Piece, void, void>;

export class Progress {
  add(piece: Piece): string;
}
