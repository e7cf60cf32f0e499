import type { Redactor } from "../index";

export interface JoinOptions {
  /** the files of all proxies of one recording */
  journals: string[];
  /** the folder of the taps */
  into: string;
  /** taps of nodes, and of the stream, that are put beside the clients' */
  nodes?: string[];
  /** leaves out of the nodes' taps the sessions that no client's tap has */
  onlyTapped?: boolean;
  /** a key of 16 bytes at least, or what `redactor` made of it; for all taps that are written */
  redact?: Uint8Array | Redactor;
  /** what the names of the clients' taps begin with (c) */
  prefix?: string;
  /** whether what a client can't have taken is left out (true) */
  trimming?: boolean;
}

export interface JoinReport {
  journals: number;
  connections: number;
  clients: number;
  /** connections without a pid, which are given to nobody */
  nobody: number;
  /** how many packets from the servers stand in the clients' taps */
  packets: number;
  /** frames that were sent, and that their client can't have taken, by what it asked with */
  trimmed: number;
  /** packets that came on a connection after its client's next handshake */
  overlapped: number;
  /** pids that the clients' taps name */
  sessions: number;
  /** pids that were left out of the nodes' taps */
  leftOut: number;
  /** where a client's tap ends early; a connection without a client has null */
  gaps: { client: string | null; connection: number; proxy: string; why: string }[];
  /** faults that were injected, and the lines that tell of it */
  notes: number;
  warnings: string[];
}

export function join(options: JoinOptions): JoinReport;
