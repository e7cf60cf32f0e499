"use strict";

// STAND-IN of socket.io-adapter 2.5 and @socket.io/redis-streams-adapter 0.2, restated from memory of their interface
// and of the order of what they do. Nothing here is upstream's code.

const { EventEmitter } = require("node:events");
const { randomBytes } = require("node:crypto");
const { Encoder } = require("socket.io-parser");
const { unpack } = require("../../lib/msgpack");
const { pack } = require("./pack");

const hasBinary = (value) =>
  ArrayBuffer.isView(value) || (value !== null && typeof value === "object" && Object.values(value).some(hasBinary));

class Adapter extends EventEmitter {
  constructor(nsp) {
    super();
    this.nsp = nsp;
    this.rooms = new Map();
    this.sids = new Map();
    this.encoder = new Encoder();
  }

  addAll(id, rooms) {
    if (!this.sids.has(id)) this.sids.set(id, new Set());
    for (const room of rooms) {
      this.sids.get(id).add(room);
      if (!this.rooms.has(room)) this.rooms.set(room, new Set());
      this.rooms.get(room).add(id);
    }
  }

  del(id, room) {
    this.sids.get(id)?.delete(room);
    this._del(room, id);
  }

  _del(room, id) {
    const members = this.rooms.get(room);
    if (members?.delete(id) && members.size === 0) this.rooms.delete(room);
  }

  delAll(id) {
    if (!this.sids.has(id)) return;
    for (const room of this.sids.get(id)) this._del(room, id);
    this.sids.delete(id);
  }

  broadcast(packet, opts) {
    packet.nsp = this.nsp.name;
    const encoded = this.encoder.encode(packet);
    this.apply(opts, (socket) => socket.write(encoded));
  }

  apply(opts, send) {
    const except = new Set([...opts.except].flatMap((room) => [...(this.rooms.get(room) ?? [])]));
    const ids = opts.rooms.size === 0 ? this.sids.keys() : new Set([...opts.rooms].flatMap((room) => [...(this.rooms.get(room) ?? [])]));
    for (const id of ids) {
      const socket = except.has(id) ? undefined : this.nsp.sockets.get(id);
      if (socket) send(socket);
    }
  }
}

class RedisStreamsAdapter extends Adapter {
  #redis;
  #key;

  constructor(nsp, redis, key) {
    super(nsp);
    this.uid = randomBytes(8).toString("hex");
    this.#redis = redis;
    this.#key = key;
  }

  // stored and sent at once, and passed over when it comes back
  async broadcast(packet, opts) {
    if (opts.flags?.local) return super.broadcast(packet, opts);
    const options = { rooms: [...opts.rooms], except: [...opts.except], flags: opts.flags };
    const offset = await publish(this.#redis, this.#key, { uid: this.uid, nsp: this.nsp.name, data: { packet, opts: options } });
    if (packet.id === undefined && opts.flags?.volatile === undefined) packet.data.push(offset);
    super.broadcast(packet, opts);
  }

  onRawMessage(raw, offset) {
    if (raw.uid === this.uid || raw.type !== "3") return;
    const { packet, opts, requestId } = read(raw);
    if (packet.type === 2 && packet.id === undefined && requestId === undefined && opts.flags?.volatile === undefined) packet.data.push(offset);
    super.broadcast(packet, { rooms: new Set(opts.rooms), except: new Set(opts.except), flags: opts.flags });
  }

  persistSession(session) {
    this.#redis.set(`sio:session:${session.pid}`, pack(session).toString("base64"), { PX: 60_000 }).catch(() => {});
  }

  async restoreSession(pid, offset) {
    const [stored, there] = await Promise.all([this.#redis.getDel(`sio:session:${pid}`), this.#redis.xRange(this.#key, offset, offset)]);
    if (!stored || there.length === 0) throw new Error("session or offset not found");
    const session = unpack(Buffer.from(stored, "base64"));
    session.missedPackets = [];
    for (const { id, message } of await this.#redis.xRange(this.#key, `(${offset}`, "+")) {
      if (message.nsp !== this.nsp.name || message.type !== "3") continue;
      const { packet, opts } = read(message);
      const due = opts.rooms.length === 0 || session.rooms.some((room) => opts.rooms.includes(room));
      if (due && !session.rooms.some((room) => opts.except.includes(room))) session.missedPackets.push([...packet.data, id]);
    }
    return session;
  }
}

const read = (raw) => (raw.data.startsWith("{") ? JSON.parse(raw.data) : unpack(Buffer.from(raw.data, "base64")));

// as the adapter, and an emitter, store an entry
function publish(redis, key, { uid = "emitter", nsp = "/", type = "3", data }) {
  const stored = hasBinary(data) ? pack(data).toString("base64") : JSON.stringify(data);
  return redis.xAdd(key, "*", { uid, nsp, type, ...(data === undefined ? {} : { data: stored }) });
}

// `reads` is awaited before each read: a test says so when the node may begin, or go on
function createAdapter(redis, { streamName, reads = () => undefined }) {
  const adapters = new Map();
  let polling = false;
  async function poll() {
    await reads();
    // with "$" for it a node would miss what is added between two reads before its first entry
    let last = (await redis.xRevRange(streamName, "+", "-", { COUNT: 1 }))[0]?.id ?? "0-0";
    const reader = redis.duplicate();
    reader.on("error", () => {}); // told by the reads that fail
    await reader.connect();
    while (adapters.size > 0) {
      const answer = await reader.xRead({ key: streamName, id: last }, { BLOCK: 50, COUNT: 100 });
      for (const { id, message } of answer?.[0].messages ?? []) {
        if (message.nsp) adapters.get(message.nsp)?.onRawMessage(message, id);
        last = id;
      }
      await reads();
    }
    await reader.disconnect();
  }
  return function (nsp) {
    const adapter = new RedisStreamsAdapter(nsp, redis, streamName);
    adapters.set(nsp.name, adapter);
    adapter.close = () => adapters.delete(nsp.name);
    if (!polling) {
      polling = true;
      poll().catch(() => {}); // Redis went first
    }
    return adapter;
  };
}

module.exports = { createAdapter, publish };
