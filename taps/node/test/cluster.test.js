"use strict";

// The taps of nodes and clients on stand-ins of upstream's server, adapter and client (standin/), over a real Redis; what
// was recorded is audited.

const assert = require("node:assert/strict");
const fs = require("node:fs");
const path = require("node:path");
const { test } = require("node:test");
const { Tap, TapError, tapClient, tapStream, tapped } = require("..");
const { audit, directory, noProgram, records, sleep, startRedis, until } = require("./helpers");
const { createAdapter, publish } = require("./standin/adapter");
const { Manager } = require("./standin/client");
const { pack } = require("./standin/pack");
const { Server } = require("./standin/server");

const KEY = "socket.io";
const failsWith = (code) => (error) => error instanceof TapError && error.code === code;

// a cluster with its taps in `dir`; `stop` ends it in the right order
async function cluster(t, { nodes = ["a", "b"], redact, adapter = {}, middleware, before, inOrder } = {}) {
  const server = await startRedis(t);
  const redis = await server.connect();
  const dir = directory(t);
  const ending = new AbortController();
  const stream = new Tap({ name: "st", of: "stream", dir, redact });
  const streaming = tapStream({ redis, key: KEY, tap: stream, signal: ending.signal, block: 20 });
  streaming.catch(() => {});
  const made = { dir, redis, nodes: {}, clients: [], publish: (...it) => publish(redis, KEY, ...it) };
  for (const name of nodes) {
    const io = new Server(["/", "/chat"], middleware);
    t.after(() => io.close());
    const create = tapped(createAdapter(redis, { streamName: KEY, ...adapter }), { dir, name, redact, redis, key: KEY, before, inOrder, onError: (error) => made.errors.push(error) });
    io.adapter(create);
    made.nodes[name] = { io, create, url: await io.url() };
  }
  made.errors = [];
  made.event = (word, rooms = ["r"], nsp = "/", except = []) => made.publish({ nsp, data: { packet: { type: 2, data: ["hi", word], nsp }, opts: { rooms, except } } });
  // until all nodes have read an entry
  made.heartbeat = () =>
    until(async () => {
      await made.publish({ type: "2" });
      return Object.keys(made.nodes).every((name) => made.tap(name).length > 1);
    }, "all nodes' first entry");
  made.client = async (node, names = ["/"]) => {
    const manager = new Manager(made.nodes[node].url);
    tapClient(manager, { dir, name: `c${made.clients.length + 1}`, redact });
    const sockets = names.map((name) => manager.socket(name).connect());
    made.clients.push(manager);
    t.after(() => manager.engine.close());
    await until(() => sockets.every((it) => it.id !== undefined), "a client's connection");
    return { manager, sockets, socket: sockets[0] };
  };
  made.cut = async ({ manager }) => {
    manager.engine.ws.terminate();
    await until(() => manager.engine.readyState === "closed", "a cut");
    await sleep(50); // until the node has noticed
  };
  made.recover = async ({ manager, socket }, node) => {
    manager.url = made.nodes[node].url;
    socket.recovered = undefined;
    manager.open();
    await until(() => socket.recovered !== undefined, "a recovery");
    assert.equal(socket.recovered, true);
  };
  made.stop = async () => {
    await sleep(150);
    for (const manager of made.clients) manager.engine.close();
    await sleep(50);
    for (const { io, create } of Object.values(made.nodes)) {
      io.close();
      await create.end();
    }
    ending.abort();
    await streaming;
    stream.end();
  };
  made.tap = (node) => records(made.nodes[node].create.tap.file);
  return made;
}

async function joined(node, client, room) {
  client.socket.send("join", room);
  await until(() => [...node.io.nsps.get(client.socket.nsp).adapter.sids.get(client.socket.id) ?? []].includes(room), `a join of ${room}`);
}

test("two nodes, three clients, a cut, two namespaces, attachments", { skip: noProgram }, async (t) => {
  const it = await cluster(t);
  await it.heartbeat();
  const c1 = await it.client("a", ["/", "/chat"]);
  const c2 = await it.client("a");
  const c3 = await it.client("b");
  for (const [client, node] of [[c1, "a"], [c2, "a"], [c3, "b"]]) await joined(it.nodes[node], client, "r");
  for (let i = 0; i < 5; i++) await it.event(`before ${i}`);
  await it.event("to all of chat", [], "/chat");
  await it.event("to one", [c2.socket.id]);
  await it.event("but one", ["r"], "/", [c3.socket.id]);
  await it.publish({ data: { packet: { type: 2, data: ["bytes", Buffer.from([1, 2, 255])], nsp: "/" }, opts: { rooms: ["r"], except: [] } } });
  await it.heartbeat();
  await until(() => c1.socket.got.length === 7 && c3.socket.got.length === 6, "events");
  await it.cut(c1);
  for (let i = 0; i < 4; i++) await it.event(`while it is away ${i}`);
  await sleep(100); // until both nodes have taken them
  await it.recover(c1, "b");
  for (let i = 0; i < 3; i++) await it.event(`after ${i}`);
  c2.socket.send("leave", "r");
  await until(() => !it.nodes.a.io.nsps.get("/").adapter.sids.get(c2.socket.id).has("r"), "a leave");
  await it.event("not for one that left");
  await sleep(50);
  c3.socket.disconnect();
  await it.stop();
  assert.deepEqual(it.errors, []);
  const pids = [c1.sockets[0].pid, c1.sockets[1].pid, c2.socket.pid, c3.socket.pid];
  assert.deepEqual(audit(it.dir, "order").at(-1).split("=")[0], "steps");
  const verdicts = audit(it.dir, "audit", "--whole");
  assert.equal(verdicts.at(-1), "sessions=4 yes=4 no=0", verdicts.join("\n"));
  const of = (pid) => verdicts.find((line) => line.includes(pid));
  assert.equal(of(pids[0]), `yes ${pids[0]} got=15 tail=0 turns=2`);
  assert.equal(of(pids[1]), `yes ${pids[1]} got=1 tail=0 turns=2`);
  assert.equal(of(pids[2]), `yes ${pids[2]} got=15 tail=0 turns=1`);
  assert.equal(of(pids[3]), `yes ${pids[3]} got=14 tail=0 turns=1`);
  const a = it.tap("a");
  assert.deepEqual(a[0], { k: "tap", v: 2, of: "node" });
  assert.deepEqual(a.filter((record) => record.pid === pids[0]).map(({ k, turn, room }) => turn ?? room ?? k), ["open", "r", 0]);
  assert.deepEqual(it.tap("b").filter((record) => record.pid === pids[0]).map(({ k, turn }) => turn ?? k), [1, 1]);
  assert.deepEqual(it.tap("b").filter((record) => record.pid === pids[3]).map(({ k }) => k), ["open", "join", "gone"]);
});

test("the start is the entry before the first that the node is given", { skip: noProgram }, async (t) => {
  // entries are added between the node's boot and its first read: they are none of its own
  let begin;
  const started = new Promise((resolve) => (begin = resolve));
  const it = await cluster(t, { nodes: ["a"], adapter: { reads: () => started } });
  const newest = await it.event("before the client");
  await sleep(50);
  const client = await it.client("a");
  await joined(it.nodes.a, client, "r");
  const missed = await it.event("before the node's first read");
  begin();
  await sleep(100);
  assert.deepEqual(it.tap("a"), [{ k: "tap", v: 2, of: "node" }]); // held
  const first = await it.event("the first that it is given");
  await until(() => client.socket.got.length === 1, "an event");
  await until(() => it.tap("a").length === 5, "the records");
  assert.deepEqual(it.tap("a").slice(1), [
    { k: "start", off: missed },
    { k: "open", pid: client.socket.pid, sid: client.socket.id, nsp: "/" },
    { k: "join", pid: client.socket.pid, room: "r" },
    { k: "takes", off: first },
  ]);
  await it.event("a second");
  await it.stop();
  assert.deepEqual(audit(it.dir, "audit", "--whole"), [`yes ${client.socket.pid} got=2 tail=0 turns=1`, "sessions=1 yes=1 no=0"]);
  // with the entry that was the newest at boot the session would be said to lack what its node was never given
  const { file } = it.nodes.a.create.tap;
  fs.writeFileSync(file, fs.readFileSync(file, "utf8").replace(missed, newest));
  assert.equal(audit(it.dir)[0], `no ${client.socket.pid} LOST ${missed}`);
});

test("the first entry that there ever was, and none at all", { skip: noProgram }, async (t) => {
  const it = await cluster(t, { nodes: ["a"] });
  await sleep(100);
  const client = await it.client("a");
  const [off] = [await it.event("hi", [])];
  await until(() => client.socket.got.length === 1, "an event");
  await it.stop();
  assert.deepEqual(it.tap("a")[1], { k: "start", off: null });
  assert.equal(audit(it.dir).at(-1), "sessions=1 yes=1 no=0");

  const quiet = await cluster(t, { nodes: ["a"] });
  const other = await quiet.client("a");
  await quiet.stop();
  assert.deepEqual(quiet.tap("a").map(({ k }) => k), ["tap", "start", "open", "break"]);
  assert.deepEqual(audit(quiet.dir), [
    `yes ${other.socket.pid} got=0 tail=0 turns=1`,
    "sessions=1 yes=1 no=0",
    "sioaudit: a yes says nothing here: no entry of the stream is recoverable",
  ]);
  assert.ok(off);
});

test("a node that drops an event behind its tap", { skip: noProgram }, async (t) => {
  const it = await cluster(t, { nodes: ["a"] });
  await it.heartbeat();
  const client = await it.client("a");
  await joined(it.nodes.a, client, "r");
  await it.event("1");
  await until(() => client.socket.got.length === 1, "an event");
  const socket = it.nodes.a.io.nsps.get("/").sockets.get(client.socket.id);
  const write = socket.write;
  socket.write = () => (socket.write = write);
  const lost = await it.event("2");
  await it.event("3");
  await until(() => client.socket.got.length === 2, "another event");
  await it.stop();
  assert.equal(audit(it.dir)[0], `no ${client.socket.pid} LOST ${lost}`);
});

// a node sends an event of its own while it hasn't read the one before it
async function ownEvent(t, inOrder) {
  let gate;
  const it = await cluster(t, { nodes: ["a"], adapter: { reads: () => gate }, inOrder });
  await it.heartbeat();
  const c1 = await it.client("a");
  const c2 = await it.client("a");
  for (const client of [c1, c2]) await joined(it.nodes.a, client, "r");
  await it.event("first");
  await until(() => c1.socket.got.length === 1, "an event");
  let open;
  gate = new Promise((resolve) => (open = resolve));
  await it.event("may be read yet");
  await sleep(100);
  const length = await it.redis.xLen(KEY);
  await it.event("waits to be read");
  c1.socket.send("say", "r", "said", "by the first");
  await until(async () => (await it.redis.xLen(KEY)) === length + 2, "what the node stores");
  await sleep(50);
  gate = undefined;
  open();
  await until(() => c2.socket.got.length === 4, "all events");
  await it.stop();
  return { words: c2.socket.got.map(([, word]) => word), verdicts: audit(it.dir, "audit", "--whole") };
}

test("a node's own events, sent as soon as they are stored and in order", { skip: noProgram }, async (t) => {
  const asItIs = await ownEvent(t, false);
  assert.deepEqual(asItIs.words, ["first", "may be read yet", "by the first", "waits to be read"]);
  assert.match(asItIs.verdicts[0], /^no \S+ SWAPPED /);
  const inOrder = await ownEvent(t, true);
  assert.deepEqual(inOrder.words, ["first", "may be read yet", "waits to be read", "by the first"]);
  assert.equal(inOrder.verdicts.at(-1), "sessions=2 yes=2 no=0");
});

test("middleware that joins a room, and that refuses", { skip: noProgram }, async (t) => {
  let refuse = false;
  const it = await cluster(t, {
    middleware: (socket, next) => {
      socket.join("user");
      setTimeout(() => next(refuse ? new Error("no") : undefined), 20);
    },
  });
  await it.heartbeat();
  const client = await it.client("a");
  await it.event("1", ["user"]);
  await until(() => client.socket.got.length === 1, "an event");
  await it.cut(client);
  await it.event("2", ["user"]);
  await sleep(50);
  await it.recover(client, "b");
  await it.cut(client);
  refuse = true;
  const refused = new Promise((resolve) => client.socket.on("connect_error", resolve));
  client.manager.open();
  await refused;
  await it.stop();
  assert.deepEqual(it.tap("b").filter(({ pid }) => pid).map(({ k }) => k), ["back", "break"]);
  assert.equal(audit(it.dir, "audit", "--whole")[0], `yes ${client.socket.pid} got=2 tail=0 turns=2`);
});

test("redacted taps have the same verdicts, and no payload", { skip: noProgram }, async (t) => {
  const it = await cluster(t, { redact: Buffer.from("sixteen bytes at least") });
  await it.heartbeat();
  const c1 = await it.client("a");
  const c2 = await it.client("b");
  await joined(it.nodes.a, c1, "the room");
  await it.event("secret", ["the room"]);
  await it.publish({ data: { packet: { type: 2, data: ["secret", { secret: Buffer.from("secret") }], nsp: "/" }, opts: { rooms: ["the room"], except: [] } } });
  await it.event("secret", [c2.socket.id]);
  await until(() => c1.socket.got.length === 2 && c2.socket.got.length === 1, "events");
  await it.cut(c1);
  await it.event("secret", ["the room"]);
  await sleep(50);
  await it.recover(c1, "b");
  await it.stop();
  const verdicts = audit(it.dir, "audit", "--whole");
  assert.deepEqual(verdicts.map((line) => line.replace(/ [0-9a-f]{20} /, " pid ")).sort(), ["sessions=2 yes=2 no=0", "yes pid got=1 tail=0 turns=1", "yes pid got=3 tail=0 turns=2"]);
  const all = fs.readdirSync(it.dir).map((name) => fs.readFileSync(path.join(it.dir, name), "utf8")).join("");
  for (const secret of ["secret", "the room", "c2VjcmV0", c1.socket.pid, c1.socket.id, c2.socket.pid]) assert.ok(!all.includes(secret), secret);
});

test("a client that goes on with its pid after a restart", { skip: noProgram }, async (t) => {
  const it = await cluster(t);
  await it.heartbeat();
  const { manager, socket } = await it.client("a");
  await it.event("1", []);
  await until(() => socket.got.length === 1, "an event");
  await it.cut({ manager });
  await it.event("2", []);
  await sleep(50);
  const again = new Manager(it.nodes.b.url);
  const tap = tapClient(again, { dir: it.dir, name: "c1", resume: true });
  assert.equal(tap.connection, 1);
  it.clients[0] = again;
  const restarted = Object.assign(again.socket("/"), { pid: socket.pid, offset: socket.offset }).connect();
  await until(() => restarted.recovered, "a recovery");
  await it.stop();
  assert.deepEqual(records(tap.file).filter(({ k }) => k === "conn").map(({ c }) => c), [1, 2]);
  assert.equal(audit(it.dir, "audit", "--whole")[0], `yes ${socket.pid} got=2 tail=0 turns=2`);
});

test("sessions without a pid, or without their turn, are left out, and that is told", { skip: noProgram }, async (t) => {
  const it = await cluster(t);
  await it.heartbeat();
  const { io } = it.nodes.a;
  io.middleware = (socket, next) => {
    delete socket.pid;
    next();
  };
  const none = await it.client("a");
  await it.client("a");
  io.middleware = (socket, next) => next();
  const client = await it.client("a");
  await it.event("1", []);
  await until(() => client.socket.got.length === 1 && none.socket.got.length === 1, "an event");
  const { adapter } = io.nsps.get("/");
  const persist = adapter.persistSession;
  adapter.persistSession = (session) => {
    persist(session);
    const key = `sio:session:${session.pid}`;
    const { turn, ...others } = session; // as a node without a tap stores it
    it.redis.set(key, pack(others).toString("base64")).catch(() => {});
  };
  await it.cut(client);
  adapter.persistSession = persist;
  await it.recover(client, "b");
  await it.stop();
  assert.deepEqual(it.errors.map(({ code }) => code), ["Pid", "Turn"]);
  assert.deepEqual(it.tap("a").filter(({ pid }) => pid).map(({ k }) => k), ["open", "break"]);
  assert.deepEqual(it.tap("b").filter(({ pid }) => pid), []);
});

test("what can't be tapped is refused, and what goes wrong is told once and no matter of the node's", async (t) => {
  const dir = directory(t);
  assert.throws(() => tapped(createAdapter({}, {}), { dir, name: "a" }), failsWith("Field"));
  assert.throws(() => tapped(createAdapter({}, {}), { dir, name: "a", redis: { xrevrange() {} } }), failsWith("Field"));
  const redis = { xRevRange: async () => [], sendCommand: async () => [] };
  const inMemory = tapped(class { addAll() {} }, { dir, name: "a", redis });
  assert.throws(() => new inMemory({ name: "/" }), failsWith("Adapter"));
  // two processes that boot under one name
  const [one, two] = [tapped(class {}, { dir, name: "a", redis }), tapped(class {}, { dir, name: "a", redis })];
  assert.notEqual(one.tap.name, two.tap.name);
  assert.match(one.tap.name, /^a\.[0-9a-z]+$/);

  const it = await cluster(t, { nodes: ["a"], before: () => Promise.reject(new Error("asked in vain")) });
  const client = await it.client("a");
  await it.event("1", []);
  await it.event("2", []);
  await until(() => client.socket.got.length === 2, "events");
  await it.stop();
  assert.deepEqual(it.errors.map(({ code }) => code), ["Start"]);
  assert.equal(it.tap("a").length, 1);
});

test("a tap that comes too late for a client, and one that is called again", async (t) => {
  const dir = directory(t);
  const manager = new Manager("ws://127.0.0.1:9");
  manager.socket("/").subs = true;
  assert.throws(() => tapClient(manager, { dir, name: "c1" }), failsWith("Late"));
  const tap = new Tap({ name: "a", of: "node", dir });
  assert.throws(() => tapClient(new Manager("ws://127.0.0.1:9"), { tap }), failsWith("UnknownKind"));
  tapClient(new Manager("ws://127.0.0.1:9"), { dir, name: "c1" });
  assert.throws(() => tapClient(new Manager("ws://127.0.0.1:9"), { dir, name: "c1" }), failsWith("Exists"));
});
