/** What a tap is of. */
export type TapKind = "stream" | "node" | "client";

/** An entry of the stream: an event, or any other entry. */
export type StreamRecord =
  | {
      k: "ev";
      /** the entry's offset, which no other entry has */
      off: string;
      nsp: string;
      /** the rooms that it is for; none, or left out: the whole namespace */
      rooms?: readonly string[];
      /** the rooms whose members don't get it */
      except?: readonly string[];
      /** the Socket.IO packet as it is sent to clients, with the offset as its last argument, without Engine.IO's digit */
      text: string;
      /** the attachments, in base64 */
      bin?: readonly string[];
    }
  | { k: "other"; off: string };

export type NodeRecord =
  /** the first: the node reads the stream from after this entry, or from its start */
  | { k: "start"; off: string | null }
  /** it takes this entry, before it chooses whom to send it to */
  | { k: "take"; off: string }
  /** it takes all entries up to this one (version 2) */
  | { k: "takes"; off: string }
  | { k: "open"; pid: string; sid: string; nsp: string }
  | { k: "join" | "leave"; pid: string; room: string }
  /** its connection broke: the number of the turn that ends */
  | { k: "break"; pid: string; turn: number }
  /** it was recovered on this node: the number of the turn that begins */
  | { k: "back"; pid: string; turn: number }
  | { k: "gone"; pid: string };

export type ClientRecord =
  /** a connection begins: a greater number than that of the one before */
  | { k: "conn"; c: number }
  /** a text from the server, with Engine.IO's digit */
  | { k: "in"; t: string }
  /** a binary message from the server, in base64 */
  | { k: "inb"; b: string }
  /** a body of HTTP long-polling from the server */
  | { k: "poll"; t: string }
  /** a packet of the client, with Engine.IO's digit */
  | { k: "out"; t: string }
  | { k: "lost" };

/** The records of each kind of tap (docs/FORMAT.md). */
export interface Records {
  stream: StreamRecord;
  node: NodeRecord;
  client: ClientRecord;
}

/** What ends a tap, or keeps it from being begun. */
export class TapError extends Error {
  readonly name: "TapError";
  /**
   * Of a record: `Field`, `Limit`, `UnknownKind`, `LineTooLong`, `NotJson`, `OffsetTwice`, as the auditor refuses it.
   * Of a file: `Exists`, `Write`, `Header` (it isn't this tap's). Of a stream: `Trimmed`, `Redis`, `Ended`.
   * Of what is tapped: `Adapter`, `Start`, `Late`, `Pid`, `Turn`. Of the words: `Name`, `Version`, `Key`.
   */
  readonly code: string;
  /** the record that couldn't be written */
  readonly record?: object;
  constructor(code: string, message: string, details?: { cause?: unknown; record?: object });
}

/** Where the lines of a tap go that is in no file: each is written whole, by one call. */
export interface LineWriter {
  write(line: string): unknown;
  on?(event: "error", listener: (error: Error) => void): unknown;
}

/** Replaces what is secret in records by keyed hashes: see `redactor`. */
export interface Redactor {
  hash(text: string): string;
  attachment(base64: string): string;
  /** the text of a Socket.IO packet */
  packet(text: string): string;
  /** the text of an Engine.IO packet */
  message(text: string): string;
  record<R extends object>(record: R): R;
}

interface NamedTap {
  /** 1 to 32 bytes of `A-Za-z0-9_.-`, used once */
  name: string;
  /** a key of 16 bytes at least, the same for all taps of a recording; or what `redactor` made of it */
  redact?: Uint8Array | Redactor;
}

/** One of `dir`, `file` and `stream` is given. */
export type TapOptions<K extends TapKind> = NamedTap & {
  of: K;
  /** of the format; alone 2 for a node, else 1 */
  version?: 1 | 2;
  /** go on in a file that is there, after its last whole line; not for nodes */
  resume?: boolean;
} & (
    | { /** the file is `<name>.tap` in it */ dir: string; file?: undefined; stream?: undefined }
    | { file: string; dir?: undefined; stream?: undefined }
    | { stream: LineWriter; dir?: undefined; file?: undefined; resume?: false }
  );

/** The records of one observer, a line each, written at once. */
export class Tap<K extends TapKind = TapKind> {
  /** Writes the header. Throws a `TapError`: `Exists`, where the file is there already. */
  constructor(options: TapOptions<K>);
  readonly name: string;
  readonly of: K;
  readonly version: 1 | 2;
  readonly file?: string;
  /** how many records it has, the header not counted */
  readonly records: number;
  /** the offset of the last entry, of a stream or taken by a node */
  readonly last?: string;
  /** the number of a client's last connection */
  readonly connection?: number;
  readonly ended: boolean;
  /** what ended it, if anything did */
  readonly error?: TapError;
  /**
   * Writes a record: when it returns, the line is with the system. True where it was written, false where the tap has
   * ended before. Throws a `TapError` where the record can't be written, which ends the tap.
   */
  write(record: Records[K]): boolean;
  /** Closes the file; a stream is left open. */
  end(): void;
}

/** What `tapStream` and `tapped` use of a client of the package `redis`. */
export interface RedisClient {
  duplicate(options?: any): any;
  xRevRange(key: string, start: string, end: string, options?: { COUNT?: number }): Promise<Array<{ id: string }>>;
  sendCommand(args: any): Promise<any>;
}

/** An event, as the adapter stores it. */
export interface Broadcast {
  packet: { type: number; data: unknown[]; id?: number; nsp?: string };
  opts: { rooms?: Iterable<string>; except?: Iterable<string>; flags?: { volatile?: boolean } };
  requestId?: string;
}

/** Reads an entry's `data` as `@socket.io/redis-streams-adapter` does: JSON, or MessagePack in base64. */
export function decode(message: Record<string, string>): Broadcast;

/** The record of an entry of a Redis stream. Throws what `read` throws. */
export function recordOf(off: string, message: Record<string, string>, read?: (message: Record<string, string>) => Broadcast): StreamRecord;

export interface StreamOptions {
  /** a client of the package `redis`; a connection of its own is made like it */
  redis: RedisClient;
  /** the stream's key; alone `socket.io` */
  key?: string;
  tap: Tap<"stream">;
  /** how an entry is read; alone `decode` */
  decode?: (message: Record<string, string>) => Broadcast;
  /** asks it to end, once it has read what the stream has by then */
  signal?: { readonly aborted: boolean; addEventListener(type: "abort", listener: () => void, options?: any): void };
  /** begin after this offset; alone after the tap's last entry, and in a new tap at the oldest that the stream has */
  from?: string;
  /** entries at a time; alone 200 */
  count?: number;
  /** milliseconds that a read waits for an entry; alone 200 */
  block?: number;
  /** milliseconds for which it tries to come to the stream's end after `signal`, where Redis is away; alone 5000 */
  patience?: number;
  /** is told of an entry that `decode` refuses: nodes pass it over, and it is recorded as no event */
  onUndecoded?: (off: string, error: unknown) => void;
}

export interface StreamDone {
  /** how many entries were written */
  entries: number;
  /** the last of them */
  last: string | null;
  /** how many of them could not be decoded */
  undecoded: number;
}

/**
 * Writes each entry of a Redis stream into a tap, in the stream's order. Rejects with a `TapError` `Trimmed` where entries
 * were trimmed before they were read (from Redis 7 on): the tap then ends before them.
 */
export function tapStream(options: StreamOptions): Promise<StreamDone>;

/** `redis`, or `before` (and `newest`) where the stream isn't one of Redis. */
export type NodeOptions = (
  | (NamedTap & { /** a mark of the boot follows `name`, so that each process has a tap of its own */ dir: string; tap?: undefined })
  | { tap: Tap<"node">; dir?: undefined; name?: undefined; redact?: undefined }
) & {
  /**
   * Has the node send its own events when they come back from the stream, in the stream's order, and not as soon as they
   * are stored. It changes the order in which clients get events, to the one that is audited; alone false.
   */
  inOrder?: boolean;
  /**
   * is told, once, what ended the tap, and why sessions are left out of it (`Pid`, `Turn`); alone `process.emitWarning`
   */
  onError?: (error: TapError) => void;
} & (
    | { redis: RedisClient; /** alone `socket.io` */ key?: string; before?: undefined; newest?: undefined }
    | {
        /** the entry before this one in the stream; null where there is none */
        before: (off: string) => string | null | Promise<string | null>;
        /** the newest entry of the stream at boot; null where it is empty */
        newest?: () => string | null | Promise<string | null>;
        redis?: undefined;
        key?: undefined;
      }
  );

export interface TappedNode {
  readonly tap: Tap<"node">;
  /** Writes what is held, and ends the tap: after the node has closed. */
  end(): Promise<void>;
}

/**
 * An adapter for `io.adapter(..)`: what `createAdapter(..)` makes, with a tap. All namespaces of the process share it.
 * What the tap can't do never throws into the node: see `onError`.
 */
export function tapped<C>(create: C, options: NodeOptions): C & TappedNode;

export type ClientOptions = (
  | (NamedTap & { dir: string; /** go on in the tap's file, in a client that goes on with its `pid` */ resume?: boolean; tap?: undefined })
  | { tap: Tap<"client">; dir?: undefined; name?: undefined; redact?: undefined; resume?: undefined }
) & {
  /** is told, once, what ended the tap; alone `process.emitWarning` */
  onError?: (error: TapError) => void;
};

/**
 * Taps a client of socket.io-client: all namespaces of its manager, over all its connections. To be called before a
 * socket of the manager connects.
 */
export function tapClient(manager: { on(event: any, listener: any): any; engine?: any }, options: ClientOptions): Tap<"client">;

/** The key in a file: its bytes without a last newline. */
export function readKey(file: string): Uint8Array;

/** What replaces pids, sids, rooms and what events say by keyed hashes (taps/REDACTION.md): 16 bytes at least. */
export function redactor(key: Uint8Array): Redactor;
