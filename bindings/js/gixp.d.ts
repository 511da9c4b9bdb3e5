/** Types of gixp.js. */

export type Bytes = Uint8Array | ArrayBuffer;
export type Text = string | Uint8Array;
export type ErrorKind = "BAD_PLACE" | "NO_MEMORY" | "INCOMPLETE" | "MALFORMED" | "SERVER"
  | "UNEXPECTED" | "UNKNOWN_BAND" | "BAD_REF" | "ANSWERS" | "BAD_SPEC" | "HANDSHAKE" | "REFS"
  | "FETCH" | "NO_FILTERS" | "BAD_LIMIT" | "TRAP" | "OTHER";

/** The error of all calls. */
export class GixpError extends Error {
  readonly code: number;
  readonly kind: ErrorKind;
  /** The server's message, or no bytes. */
  readonly words: Uint8Array;
  /** The offset of the error in the response, where it is known. */
  readonly place: number | bigint | null;
}

/** A ref of a server. Ids are 40 hexadecimal digits. */
export class Ref {
  readonly name: string;
  /** The object, for a tag the tag itself. Null if the target of a symbolic ref is unborn. */
  readonly id: string | null;
  /** The peeled object of a tag. */
  readonly peeled: string | null;
  /** The target of a symbolic ref. */
  readonly target: string | null;
  /** The offset of the name in the response, and its length in bytes. */
  readonly place: number;
  readonly length: number;
}

export function refs(answer: Bytes): Generator<Ref, void, void>;
export function advertised(answer: Bytes): Generator<Ref, void, void>;

export interface Mapping {
  /** The index of the name in the argument, or null if the refspec names an object. */
  readonly item: number | null;
  /** The index of the refspec. */
  readonly spec: number;
  readonly local: string | null;
}

export interface Mappings {
  readonly mappings: Mapping[];
  /** Local names of removed mappings, which aren't names of refs. */
  readonly removed: string[];
  /** Local names with two different sources. If there are any, nothing is mapped. */
  readonly conflicts: string[];
}

export function map(names: Iterable<Text>, specs: Iterable<Text>): Mappings;
export function prefixes(specs: Iterable<Text>): string[];

export const Band: {
  readonly STOP: 0;
  readonly CONTENT: 1;
  readonly PROGRESS: 2;
  readonly ERROR: 3;
};

/** A packet line of a pack. */
export interface Piece {
  readonly band: 0 | 1 | 2 | 3;
  readonly text: Uint8Array;
  /** The offset after it. */
  readonly next: number;
}

export function piece(answer: Bytes, place: number | bigint): Piece;
export function pieces(answer: Bytes, place?: number): Generator<Piece, void, void>;
export function readPieces(data: Uint8Array, place: number,
  read: () => Promise<Uint8Array | null>): AsyncGenerator<Piece, void, void>;

export class Request {
  constructor(data: Uint8Array);
  readonly data: Uint8Array;
}

export class Pack {
  constructor(place: number, boundary?: string[], isUnasked?: boolean);
  readonly place: number;
  /** The ids of the shallow boundary after the server's shallow updates. */
  readonly boundary: string[];
  /** Whether the server changed it though the session has no limit of the history. */
  readonly isUnasked: boolean;
}

export class Nothing {}

export type Step = Request | Pack | Nothing;

export interface SessionOptions {
  /** Ids of objects that exist locally, as 40 hexadecimal digits or 20 bytes. */
  haves?: Iterable<Text>;
  /** Ids of the local repository's shallow boundary. */
  shallow?: Iterable<Text>;
  /** The number of commits to fetch from each ref. 0 leaves the boundary unchanged. */
  depth?: number | bigint;
  /** The number of commits to fetch beyond the present boundary. */
  deepen?: number | bigint;
  /** Fetches the commits since this time, in seconds since 1970-01-01 00:00:00 UTC. */
  since?: number | bigint;
  /** Refs of the server whose commits are left out. */
  exclude?: Iterable<Text>;
  /** Which objects the server leaves out, for example `blob:none` (git-rev-list, `--filter`). */
  filter?: Text;
}

export class Session {
  constructor(specs: Iterable<Text>, options?: SessionOptions);
  /** The responses so far. */
  answers: Uint8Array[];
  answer(data: Bytes): void;
  more(data: Uint8Array): void;
  step(): Step;
  readStep(read: () => Promise<Uint8Array>): Promise<Step>;
}

export function withoutService(answer: Uint8Array): Uint8Array;
/** Exchanges the WebAssembly module. */
export function use(module: WebAssembly.Module): void;
