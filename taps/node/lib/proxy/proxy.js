"use strict";

const fs = require("node:fs");
const http = require("node:http");
const https = require("node:https");
const { request } = require("./http");
const { parseFault } = require("./inject");
const { redactorOf } = require("../redact");
const { Journal } = require("./journal");
const { createServer, upgrade } = require("./websocket");

const MIB = 1 << 20;
const DEFAULTS = {
  host: "127.0.0.1",
  port: 0,
  path: "/socket.io/",
  maxBody: 64 * MIB,
  maxWaiting: MIB,
  stall: 60_000,
  idle: 120_000,
  acknowledged: true,
  inject: [],
  seed: 1,
};
const AWAY = 1000; // ms that a node isn't tried which took no connection
const SWEEP = 5000;
const FREE = 4000; // ms that a connection to a node is kept for the next request: less than a node keeps it
const LEAVING = 2000; // ms that the sides have to close at the end

/** A recording reverse proxy in front of the nodes of a cluster. */
class Proxy {
  #server;
  #sweeping;
  #next = 0;
  #log;

  /** @param {import("./index").ProxyOptions} options */
  constructor(options) {
    const { nodes, journal, redact, log = () => {}, ...rest } = options;
    const words = { ...DEFAULTS, ...Object.fromEntries(Object.entries(rest).filter(([, it]) => it !== undefined)) };
    if (!Array.isArray(nodes) || nodes.length === 0) throw new TypeError("a proxy needs a node at least");
    if (!words.path.startsWith("/")) throw new TypeError(`the path has to begin with /, not ${words.path}`);
    if (!/^(0|[1-9]\d*)$/.test(String(words.seed))) throw new TypeError(`the seed is a whole number, not ${words.seed}`);
    this.#log = log;
    this.host = words.host;
    this.port = words.port;
    this.path = words.path.endsWith("/") ? words.path : `${words.path}/`;
    this.maxBody = words.maxBody;
    this.maxWaiting = words.maxWaiting;
    this.stall = words.stall;
    this.idle = words.idle;
    this.acknowledged = words.acknowledged;
    this.faults = words.inject.map((it) => (typeof it === "string" ? parseFault(it) : it));
    this.seed = words.seed;
    this.nodes = nodes.map(nodeOf);
    this.redactor = redactorOf(redact);
    this.counts = { connections: 0, frames: 0, gaps: 0, stalled: 0, unknown: 0 };
    this.connections = new Map(); // by Engine.IO's sid
    this.bridges = new Set();
    this.websockets = createServer(this.maxBody);
    this.journal = new Journal(journal, {
      redacted: redact !== undefined,
      onFailure: (error) => log(`the journal ${journal} has ended, the proxy goes on without it: ${error.message}`),
      onFault: (error) => log(`what was to be sent could not be: ${error.stack}`),
    });
    if (this.faults.length) {
      this.journal.put(JSON.stringify({ k: "note", inject: this.faults.map((it) => `${it.kind}:${it.probability}`).join(" "), seed: String(this.seed) }));
    }
  }

  /** Listens; resolves with the address. */
  async listen() {
    const server = http.createServer({ keepAliveTimeout: 65_000 });
    this.#server = server;
    server.on("request", (req, res) => {
      res.on("error", () => {});
      request(this, req, res).catch((error) => this.#unexpected(error, res));
    });
    server.on("upgrade", (req, socket, head) => {
      upgrade(this, req, socket, head).catch((error) => this.#unexpected(error, socket));
    });
    await new Promise((resolve, reject) => {
      server.once("error", reject);
      server.listen(this.port, this.host, resolve);
    });
    server.on("error", (error) => this.#log(error.message));
    this.#sweeping = setInterval(() => this.sweep(), SWEEP);
    this.#sweeping.unref();
    return server.address();
  }

  /** Ends all connections and the journal. */
  async close() {
    if (!this.#server) return this.journal.end();
    const server = this.#server;
    this.#server = undefined;
    clearInterval(this.#sweeping);
    const closed = new Promise((resolve) => server.close(resolve));
    for (const bridge of [...this.bridges]) bridge.leave();
    for (const connection of this.connections.values()) connection.lost();
    this.journal.flush();
    server.closeIdleConnections();
    const late = setTimeout(() => {
      for (const bridge of this.bridges) bridge.terminate();
      server.closeAllConnections();
    }, LEAVING);
    while (this.bridges.size > 0) await new Promise((resolve) => setTimeout(resolve, 10));
    server.closeAllConnections();
    clearTimeout(late);
    await closed;
    for (const node of this.nodes) node.agent.destroy();
    this.journal.end();
  }

  /** Whether a path is Engine.IO's. */
  isEngine(path) {
    return path === this.path || path === this.path.slice(0, -1);
  }

  /** The nodes, from the one whose turn it is; those that just took no connection come last. */
  turn() {
    const { nodes } = this;
    const from = this.#next++ % nodes.length;
    const now = this.journal.now();
    const order = [...nodes.slice(from), ...nodes.slice(0, from)];
    return [...order.filter((it) => it.awayUntil <= now), ...order.filter((it) => it.awayUntil > now)].values();
  }

  away(node, error) {
    const now = this.journal.now();
    if (node.awayUntil <= now) this.#log(`${node.url.origin} takes no connection: ${error.message}`);
    node.awayUntil = now + AWAY;
  }

  /** Counts a request of a session that began elsewhere. */
  unknown() {
    if (this.counts.unknown++ === 0) this.#log("a session that didn't begin here was refused: all requests of one have to come through one proxy");
  }

  /** Forgets what nobody uses any more: sessions of polling simply end, and nothing tells. */
  sweep(now = this.journal.now()) {
    for (const [sid, connection] of this.connections) {
      if (connection.users > 0 || now - connection.touched < (connection.ended ? SWEEP : this.idle)) continue;
      connection.lost();
      this.connections.delete(sid);
    }
  }

  #unexpected(error, side) {
    this.#log(`a connection was ended: ${error.stack}`);
    side.destroy();
  }
}

function nodeOf(word) {
  let url;
  try {
    url = new URL(word);
  } catch {
    throw new TypeError(`a node is an URL as http://127.0.0.1:3001, not ${word}`);
  }
  if (!/^https?:$/.test(url.protocol) || url.pathname !== "/" || url.search || url.hash) {
    throw new TypeError(`a node is an URL of http or https without a path, not ${word}`);
  }
  const { Agent } = url.protocol === "https:" ? https : http;
  return { url, agent: new Agent({ keepAlive: true, timeout: FREE, maxFreeSockets: 1024 }), awayUntil: 0 };
}

/** Starts a proxy. */
async function startProxy(options) {
  const proxy = new Proxy(options);
  try {
    const address = await proxy.listen();
    proxy.port = address.port;
    proxy.url = `http://${address.family === "IPv6" ? `[${address.address}]` : address.address}:${address.port}`;
  } catch (error) {
    proxy.journal.end();
    fs.rmSync(proxy.journal.file, { force: true }); // nothing was passed on: the next try may have this name
    throw error;
  }
  return proxy;
}

module.exports = { DEFAULTS, Proxy, startProxy };
