import type { Redactor } from "../index";

export type FaultKind = "drop" | "double" | "hold" | "cut";

export interface ProxyOptions {
  /** URLs of the nodes, as `http://10.0.0.5:3000` */
  nodes: string[];
  /** the journal's file, which isn't there yet */
  journal: string;
  /** where it listens (127.0.0.1) */
  host?: string;
  /** 0, a free port, where it isn't given */
  port?: number;
  /** Engine.IO's path (/socket.io/) */
  path?: string;
  /** the largest body and message, in bytes (64 MiB) */
  maxBody?: number;
  /** what may wait for a slow side before the other one has to wait too, in bytes (1 MiB) */
  maxWaiting?: number;
  /** after how many ms a side that takes nothing, while something waits, ends its connection (60000) */
  stall?: number;
  /** after how many ms without a request a session of polling is forgotten (120000) */
  idle?: number;
  /** whether pings tell what clients have taken (true) */
  acknowledged?: boolean;
  /** a key of 16 bytes at least, the same for all taps of a recording; or what `redactor` made of it */
  redact?: Uint8Array | Redactor;
  /** faults on purpose, as `drop:0.01` */
  inject?: (string | { kind: FaultKind; probability: number })[];
  /** what the faults are chosen by (1) */
  seed?: number | string | bigint;
  /** is told what went wrong */
  log?: (text: string) => void;
}

export interface Proxy {
  readonly url: string;
  readonly port: number;
  readonly counts: Readonly<{ connections: number; frames: number; gaps: number; stalled: number; unknown: number }>;
  /** `error` is what ended it before its time */
  readonly journal: Readonly<{ file: string; id: string; bytes: number; error?: Error }>;
  /** Ends all connections and the journal. */
  close(): Promise<void>;
}

export function startProxy(options: ProxyOptions): Promise<Proxy>;
