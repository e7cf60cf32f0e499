"use strict";

const { TapError } = require("./errors");
const { infoOf } = require("./stream");
const { Tap } = require("./tap");

/**
 * An adapter for `io.adapter(..)`: what `create` makes, with a tap that all namespaces of this process share.
 *
 * @param {any} create what `createAdapter(..)` gives, or a class of adapters
 * @param {import("./index").NodeOptions} options
 */
function tapped(create, options) {
  const node = new NodeTap(options);
  function TappedAdapter(nsp) {
    const adapter = new create(nsp);
    watch(adapter, node);
    if (options.inOrder) sendInOrder(adapter);
    return adapter;
  }
  TappedAdapter.tap = node.tap;
  TappedAdapter.end = () => node.end();
  return TappedAdapter;
}

/**
 * A node's records. The first, `start`, names the entry before the first one that the node is given: the newest entry at
 * boot would be too early, since others may be added before the node's first read, and then it is never given those.
 * So what is recorded before that entry is known is held, in its order.
 */
class NodeTap {
  #held = [];
  #before;
  #newest;
  #begun; // resolves when `start` is written
  #onError;
  #told = new Set();

  constructor({ tap, dir, name, redact, redis, key = "socket.io", before, newest, onError = (error) => process.emitWarning(error) }) {
    if (before === undefined && redis === undefined) throw new TapError("Field", "tapped needs redis, or before and newest");
    if (redis !== undefined && typeof redis.xRevRange !== "function") throw new TapError("Field", "redis is no client of the package redis: give before");
    this.#before = before ?? ((off) => entryBefore(redis, key, off));
    const ask = newest ?? (before === undefined ? () => newestEntry(redis, key) : async () => null);
    this.#onError = onError;
    this.tap = tap ?? booted(dir, name, redact);
    if (this.tap.of !== "node" || this.tap.version < 2) throw new TapError("UnknownKind", `the tap ${this.tap.name} is no node's of version 2`);
    // where the node is never given an entry
    this.#newest = Promise.resolve().then(ask);
    this.#newest.catch(() => {}); // told where it is needed
  }

  write(record) {
    if (this.#held !== undefined) this.#held.push(record);
    else this.#put(record);
  }

  entry(off) {
    if (typeof off !== "string") return this.#fail(new TapError("Adapter", "the adapter was given an entry without an offset"));
    this.#begun ??= this.#begin(() => this.#before(off));
    this.write({ k: "takes", off });
  }

  /** Writes what is held, and closes the file. */
  async end() {
    await (this.#begun ??= this.#begin(() => this.#newest));
    this.tap.end();
  }

  async #begin(ask) {
    try {
      this.#put({ k: "start", off: await ask() });
    } catch (error) {
      this.#fail(error instanceof TapError ? error : new TapError("Start", `the entry to start after is unknown: ${error.message}`, { cause: error }));
    }
    const held = this.#held;
    this.#held = undefined;
    for (const record of held) this.#put(record);
  }

  // what keeps sessions out of the tap, told once
  leftOut(code, message) {
    if (this.#told.has(code)) return;
    this.#told.add(code);
    this.#onError(new TapError(code, message));
  }

  // never throws: what a tap can't do is no matter of the node's
  #put(record) {
    try {
      this.tap.write(record);
    } catch (error) {
      this.#onError(error);
    }
  }

  #fail(error) {
    if (this.tap.ended) return;
    this.tap.end();
    this.tap.error = error;
    this.#onError(error);
  }
}

// Each process has a tap of its own: a mark of the boot follows the name.
function booted(dir, name, redact) {
  for (let mark = Date.now(); ; mark++) {
    try {
      return new Tap({ name: `${name}.${mark.toString(36)}`, of: "node", dir, redact });
    } catch (error) {
      if (error.code !== "Exists") throw error;
    }
  }
}

async function newestEntry(redis, key) {
  const [newest] = await redis.xRevRange(key, "+", "-", { COUNT: 1 });
  return newest?.id ?? null;
}

async function entryBefore(redis, key, off) {
  const [previous] = await redis.xRevRange(key, `(${off}`, "-", { COUNT: 1 });
  if (previous) return previous.id;
  // the first entry that there ever was, or the oldest that is left
  const info = infoOf(await redis.sendCommand(["XINFO", "STREAM", key]));
  if (info.added !== undefined && info.added > info.length) throw new TapError("Trimmed", `the entry before ${off} was trimmed`);
  return null;
}

const METHODS = ["addAll", "del", "delAll", "persistSession", "restoreSession", "onRawMessage"];

function watch(adapter, node) {
  const real = {};
  for (const name of METHODS) {
    if (typeof adapter[name] !== "function") throw new TapError("Adapter", `the adapter has no ${name}: it isn't one that can be tapped`);
    real[name] = adapter[name].bind(adapter);
  }
  const here = new Map(); // by sid: the sessions that this node sends to, with their pid, turn and rooms
  const coming = new Map(); // by sid: those that are being recovered, with their turn and rooms; null for one whose turn isn't known

  // A socket joins the rooms that were given back before the node sends to it. The node does so from when the socket
  // stands in nsp.sockets, and has it join its own room in the same step: so this is called in time.
  function arrive(sid) {
    const socket = adapter.nsp.sockets.get(sid);
    if (socket === undefined) return;
    const { pid } = socket;
    if (pid === undefined) return node.leftOut("Pid", "a session has no pid, and is left out: set connectionStateRecovery of the server");
    const back = coming.get(sid);
    if (back === null) return node.leftOut("Turn", "a session was recovered without its turn, and is left out: tap the node that stored it, too");
    coming.delete(sid);
    const session = { pid, turn: back?.turn ?? 0, rooms: new Set(back?.rooms ?? [sid]) };
    here.set(sid, session);
    if (back) node.write({ k: "back", pid, turn: session.turn });
    else node.write({ k: "open", pid, sid, nsp: adapter.nsp.name });
    const rooms = adapter.sids.get(sid) ?? new Set();
    for (const room of rooms) join(session, room);
    for (const room of session.rooms) if (!rooms.has(room)) leave(session, room);
  }

  function join(session, room) {
    if (session.rooms.has(room)) return;
    session.rooms.add(room);
    node.write({ k: "join", pid: session.pid, room: String(room) });
  }

  function leave(session, room) {
    session.rooms.delete(room);
    node.write({ k: "leave", pid: session.pid, room: String(room) });
  }

  adapter.addAll = (sid, rooms) => {
    const done = real.addAll(sid, rooms);
    const session = here.get(sid);
    if (session === undefined) arrive(sid);
    else for (const room of rooms) join(session, room);
    return done;
  };

  adapter.del = (sid, room) => {
    const done = real.del(sid, room);
    const session = here.get(sid);
    if (session?.rooms.has(room)) leave(session, room);
    return done;
  };

  adapter.persistSession = (stored) => {
    const session = here.get(stored.sid);
    if (session !== undefined) {
      here.delete(stored.sid);
      node.write({ k: "break", pid: session.pid, turn: session.turn });
      stored.turn = session.turn; // the next node goes on from it
    }
    return real.persistSession(stored);
  };

  adapter.restoreSession = async (pid, offset) => {
    const stored = await real.restoreSession(pid, offset);
    if (stored) coming.set(stored.sid, stored.turn === undefined ? null : { turn: stored.turn + 1, rooms: stored.rooms });
    return stored;
  };

  // comes after persistSession too, but then the session isn't here any more
  adapter.delAll = (sid) => {
    const session = here.get(sid);
    if (session !== undefined) node.write({ k: "gone", pid: session.pid });
    here.delete(sid);
    coming.delete(sid);
    return real.delAll(sid);
  };

  adapter.onRawMessage = (message, offset) => {
    node.entry(offset);
    return real.onRawMessage(message, offset);
  };
}

// Has a node send its own events when they come back from the stream, as it sends those of others, and not as soon as
// they are stored: its clients get all events in the stream's order then.
function sendInOrder(adapter) {
  if (typeof adapter.broadcast !== "function" || typeof adapter.apply !== "function") {
    throw new TapError("Adapter", "the adapter has no broadcast or no apply: its own events can't be sent in order");
  }
  const broadcast = adapter.broadcast.bind(adapter);
  const apply = adapter.apply.bind(adapter);
  const onRawMessage = adapter.onRawMessage; // with its tap
  const stored = new WeakSet(); // the options of events that are only stored

  adapter.broadcast = (packet, opts) => {
    if (!opts.flags?.local) stored.add(opts);
    return broadcast(packet, opts);
  };

  // where the adapter chooses the sockets
  adapter.apply = (opts, send) => {
    if (!stored.has(opts)) apply(opts, send);
  };

  // an event of its own comes in as one of an emitter's, which is no node
  adapter.onRawMessage = (message, offset) => {
    const own = message.uid === adapter.uid && message.type === "3";
    return onRawMessage(own ? { ...message, uid: "emitter" } : message, offset);
  };
}

module.exports = { tapped };
