"use strict";

// Runs a cluster of real software (cluster.py) behind recording proxies, with the tap of taps/python in each client beside
// the proxies'.

const assert = require("node:assert/strict");
const { spawn, spawnSync } = require("node:child_process");
const { once } = require("node:events");
const fs = require("node:fs");
const net = require("node:net");
const path = require("node:path");
const readline = require("node:readline");
const { join } = require("../../lib/join");
const { startProxy } = require("../../lib/proxy");
const { audit, directory, sleep, startRedis, until } = require("../helpers");

const PYTHON = fs.existsSync("/usr/bin/python3") ? "/usr/bin/python3" : "python3";
const NSPS = ["/"];

/** Why there is no cluster here; false where there is one. */
function lacks() {
  if (spawnSync(PYTHON, ["-c", "import aiohttp, redis.asyncio, socketio"]).status !== 0) return "python3-socketio, python3-aiohttp or python3-redis isn't there";
  return spawnSync("redis-server", ["--version"]).status === 0 ? false : "redis-server isn't there";
}

/** A process of cluster.py, that is told what to do. */
class Ops {
  #asked = new Map();
  #last = 0;

  static async start(t, ...words) {
    const made = new Ops();
    made.process = spawn(PYTHON, [path.join(__dirname, "cluster.py"), ...words], { stdio: ["pipe", "pipe", process.env.LAB_LOUD ? "inherit" : "ignore"], env: { ...process.env, PYTHONDONTWRITEBYTECODE: "1" } });
    made.process.stdin.on("error", () => {});
    t.after(() => made.stop());
    const lines = readline.createInterface({ input: made.process.stdout });
    const [first] = await Promise.race([once(lines, "line"), once(made.process, "exit").then(() => assert.fail(`cluster.py ${words[0]} ended`))]);
    made.hello = JSON.parse(first);
    lines.on("line", (line) => made.#answer(JSON.parse(line)));
    made.process.on("exit", () => {
      for (const { reject } of made.#asked.values()) reject(new Error("the process has ended"));
    });
    return made;
  }

  ask(op, words) {
    const id = ++this.#last;
    this.process.stdin.write(`${JSON.stringify({ id, op, ...words })}\n`);
    return new Promise((resolve, reject) => this.#asked.set(id, { resolve, reject, op }));
  }

  #answer({ id, r, error }) {
    const { resolve, reject, op } = this.#asked.get(id);
    this.#asked.delete(id);
    if (error === undefined) resolve(r);
    else reject(new Error(`${op}: ${error}`));
  }

  async stop(signal) {
    const { process } = this;
    if (process.exitCode !== null || process.signalCode !== null) return;
    const gone = once(process, "exit");
    if (signal) process.kill(signal);
    else process.stdin.end();
    const late = setTimeout(() => process.kill("SIGKILL"), 5000);
    await gone;
    clearTimeout(late);
  }
}

/** The way from a client to a proxy, that can be cut; what comes to the client takes `latency` ms. */
class Way {
  sockets = new Set();

  constructor(latency) {
    this.latency = latency;
    this.server = net.createServer((socket) => {
      const up = net.connect(this.port, "127.0.0.1");
      socket.setNoDelay();
      up.setNoDelay();
      this.sockets.add(socket).add(up);
      for (const it of [socket, up]) {
        it.on("error", () => it.destroy());
        it.on("close", () => {
          this.sockets.delete(it);
          socket.destroy();
          up.destroy();
        });
      }
      socket.pipe(up, { end: false });
      up.on("data", (bytes) => {
        if (this.latency === 0) socket.write(bytes);
        else setTimeout(() => socket.writable && socket.write(bytes), this.latency);
      });
    });
  }

  async start() {
    this.server.listen(0, "127.0.0.1");
    await once(this.server, "listening");
    this.url = `http://127.0.0.1:${this.server.address().port}`;
    return this;
  }

  cut() {
    for (const socket of this.sockets) socket.destroy();
  }

  stop() {
    this.cut();
    this.server.close();
  }
}

class Lab {
  clients = [];
  proxies = [];
  behind = [];

  /**
   * `options` are those of each proxy, or a list with those of each. With `redact` another proxy stands between them and
   * each node, which redacts its journal (`redacted`): so a run is recorded plain and redacted.
   */
  static async start(t, { nodes = ["a", "b"], proxies = 1, latency = 0, options = {}, redact } = {}) {
    const lab = new Lab();
    lab.t = t;
    lab.latency = latency;
    lab.dir = directory(t);
    for (const it of ["nodes", "truth", "joined"]) fs.mkdirSync(path.join(lab.dir, it));
    lab.redis = await startRedis(t);
    const all = [...nodes.map((name) => Ops.start(t, "node", name, lab.redis.socket, path.join(lab.dir, "nodes"))), Ops.start(t, "clients")];
    const started = await Promise.all(all);
    lab.driver = started.pop();
    lab.nodes = Object.fromEntries(nodes.map((name, i) => [name, started[i]]));
    const start = async (words) => {
      const proxy = await startProxy(words);
      t.after(() => proxy.close());
      return proxy;
    };
    const ways = {};
    for (const name of nodes) {
      ways[name] = `http://127.0.0.1:${lab.nodes[name].hello.port}`;
      if (redact === undefined) continue;
      const proxy = await start({ nodes: [ways[name]], journal: path.join(lab.dir, `${name}.redacted.journal`), redact });
      lab.behind.push(proxy);
      ways[name] = proxy.url;
    }
    // a proxy for each node alone, so that the test decides where a client goes, and one for all
    for (let i = 0; i < proxies; i++) {
      const made = {};
      for (const name of [...nodes, "all"]) {
        const urls = (name === "all" ? nodes : [name]).map((it) => ways[it]);
        made[name] = await start({ nodes: urls, journal: path.join(lab.dir, `${name}${i}.journal`), ...(Array.isArray(options) ? options[i] : options) });
      }
      lab.proxies.push(made);
    }
    return lab;
  }

  file(kind, name) {
    return path.join(this.dir, kind, `${name}.tap`);
  }

  async client(name, transports = ["websocket"], namespaces = NSPS) {
    const way = await new Way(this.latency).start();
    this.t.after(() => way.stop());
    const client = { name, way, transports, namespaces };
    this.clients.push(client);
    await this.driver.ask("new", { name, tap: this.file("truth", name) });
    return client;
  }

  /** Connects, or comes back, by the proxy of a node. */
  async connect(client, node, proxy = 0) {
    const { port } = this.proxies[proxy][node];
    if (client.way.sockets.size > 0 && client.way.port !== port) {
      client.way.cut(); // a connection that was kept leads to the old one
      await sleep(100);
    }
    client.way.port = port;
    const { name, transports, namespaces } = client;
    await this.driver.ask("connect", { name, url: client.way.url, transports, namespaces });
  }

  info(client) {
    return this.driver.ask("info", { name: client.name });
  }

  join(client, room, nsp = "/") {
    return this.driver.ask("join", { name: client.name, room, nsp });
  }

  publish(...events) {
    return this.live().ask("publish", { events });
  }

  live() {
    return Object.values(this.nodes).find((it) => it.process.exitCode === null && it.process.signalCode === null);
  }

  /** Cuts the connection, and waits until all have noticed. */
  async cut(client) {
    const { eio, pids: had } = await this.info(client);
    client.way.cut();
    await this.driver.ask("gone", { name: client.name });
    for (const node of Object.values(this.nodes)) if (node.process.exitCode === null && node.process.signalCode === null) await node.ask("abort", { eio });
    const pids = Object.values(had);
    await until(async () => {
      for (const node of Object.values(this.nodes)) {
        if (node.process.exitCode !== null || node.process.signalCode !== null) continue;
        if ((await node.ask("info")).pids.some((it) => pids.includes(it))) return false;
      }
      return true;
    }, "a cut");
  }

  /** Waits until the nodes have taken all, and the clients have what they are sent. */
  async quiet() {
    const last = await this.live().ask("publish", { events: [{ nsp: "/n", rooms: ["nobody"], data: ["mark"] }] });
    for (const node of Object.values(this.nodes)) {
      if (node.process.exitCode !== null || node.process.signalCode !== null) continue;
      await until(async () => place((await node.ask("info")).last) >= place(last), "the nodes");
    }
    let before;
    let same = 0;
    await until(async () => {
      await sleep(100 + 2 * this.latency);
      const now = JSON.stringify(await Promise.all(this.clients.map((it) => this.info(it))));
      same = now === before ? same + 1 : 0;
      before = now;
      return same === 2;
    }, "the clients");
  }

  /** Stops all in the right order, joins, and audits both: with the taps in the clients, and with the proxies'. */
  async judge({ words = [], join: options = {} } = {}) {
    await this.quiet();
    this.infos = await Promise.all(this.clients.map((it) => this.info(it)));
    await this.live().ask("stream", { tap: this.file("nodes", "st") });
    for (const client of this.clients) client.way.cut();
    await this.driver.stop();
    for (const proxy of [...this.proxies.flatMap((it) => Object.values(it)), ...this.behind]) await proxy.close();
    for (const node of Object.values(this.nodes)) await node.stop("SIGKILL");
    const at = path.join(this.dir, "joined");
    const journals = this.proxies.flatMap((it) => Object.values(it).map((proxy) => proxy.journal.file));
    const nodes = fs.readdirSync(path.join(this.dir, "nodes")).map((it) => path.join(this.dir, "nodes", it));
    this.journals = journals;
    this.redacted = this.behind.map((it) => it.journal.file);
    this.nodeTaps = nodes;
    const report = join({ journals, into: at, nodes, ...options });
    for (const file of nodes) fs.copyFileSync(file, path.join(this.dir, "truth", path.basename(file)));
    return { report, truth: audit(path.join(this.dir, "truth"), "audit", ...words), joined: audit(at, "audit", ...words) };
  }

  /** Joins once more, with other options. */
  again(options) {
    const into = fs.mkdtempSync(path.join(this.dir, "again-"));
    const report = join({ journals: this.journals, into, nodes: this.nodeTaps, ...options });
    return { report, into, joined: audit(into, "audit") };
  }
}

function place(off) {
  const [ms, n] = off.split("-").map(Number);
  return ms * 1e6 + n;
}

module.exports = { Lab, lacks };
