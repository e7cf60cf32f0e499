// What a user in TypeScript writes, and what is to be refused: compiled by package.test.js.
import { Tap, TapError, decode, readKey, recordOf, redactor, tapClient, tapStream, tapped } from "sioaudit-taps";
import type { Broadcast, NodeRecord, StreamDone } from "sioaudit-taps";
import { join } from "sioaudit-taps/join";
import { startProxy } from "sioaudit-taps/proxy";

declare const redis: any;
declare const manager: { on(event: string, listener: (...args: any[]) => void): void; engine: object };
declare function createAdapter(redis: unknown, options: { streamName: string }): (nsp: { name: string }) => { init(): void };
declare function adapter(create: (nsp: { name: string }) => { init(): void }): void;

const stream = new Tap({ name: "st", of: "stream", file: "st.tap", resume: true, redact: readKey("key") });
const ending = new AbortController();
const done: StreamDone = await tapStream({ redis, tap: stream, signal: ending.signal, decode: (message): Broadcast => decode(message) });
const last: string | null = done.last;
stream.write(recordOf("1-0", { type: "3" }));

const node = tapped(createAdapter(redis, { streamName: "s" }), { dir: ".", name: "a", redis, key: "s", onError: (error) => error.code });
adapter(node);
await node.end();
tapped(createAdapter(redis, { streamName: "s" }), { tap: new Tap({ name: "a", of: "node", dir: "." }), before: async () => null });

const client: Tap<"client"> = tapClient(manager, { dir: ".", name: "c1", redact: redactor(new Uint8Array(16)) });
client.write({ k: "conn", c: 1 });
client.end();
new Tap({ name: "a", of: "node", stream: { write: (line: string) => line.length } }).write({ k: "start", off: null });

const proxy = await startProxy({ nodes: ["http://127.0.0.1:3000"], journal: "p.journal", inject: ["drop:0.01", { kind: "cut", probability: 0.1 }], log: (text: string) => text });
await proxy.close();
const gaps: string[] = join({ journals: [proxy.journal.file], into: "joined", nodes: ["st.tap"], onlyTapped: true, redact: new Uint8Array(16) }).gaps.map((it) => it.why);

const record: NodeRecord = { k: "takes", off: last ?? "0-0" };
const error: TapError | undefined = client.error;

// @ts-expect-error: no record of a client
client.write(record);
// @ts-expect-error: the turn is missing
const broken: NodeRecord = { k: "break", pid: "P" };
// @ts-expect-error: neither dir, file nor stream
new Tap({ name: "a", of: "node" });
// @ts-expect-error: no way to know the entry before the first
tapped(createAdapter(redis, { streamName: "s" }), { dir: ".", name: "a" });
// @ts-expect-error: a node's tap
await tapStream({ redis, tap: node.tap });

// @ts-expect-error: no kind of fault
await startProxy({ nodes: [], journal: "p.journal", inject: [{ kind: "lose", probability: 1 }] });

export { broken, error, gaps };
