"use strict";

// The proxy by itself, in front of servers that are made for each test.

const assert = require("node:assert/strict");
const { fork, spawn } = require("node:child_process");
const { once } = require("node:events");
const fs = require("node:fs");
const http = require("node:http");
const net = require("node:net");
const path = require("node:path");
const { test } = require("node:test");
const zlib = require("node:zlib");
const { WebSocket, WebSocketServer } = require("ws");
const { join } = require("../lib/join");
const { startProxy } = require("../lib/proxy");
const { encode } = require("../lib/proxy/frames");
const { parseFault, splitmix64 } = require("../lib/proxy/inject");
const { redactor } = require("../lib/redact");
const { directory, sleep, until } = require("./helpers");

const OPEN = (sid) => `0${JSON.stringify({ sid, upgrades: ["websocket"], pingInterval: 25000, pingTimeout: 20000, maxPayload: 1000000 })}`;
const WS = "/socket.io/?EIO=4&transport=websocket";
const POLL = "/socket.io/?EIO=4&transport=polling";

// a server on a free port: `request` and `socket` say what it does
async function serve(t, { request = (_, res) => res.end(), socket, options } = {}) {
  const server = http.createServer(request);
  const sockets = new WebSocketServer({ noServer: true, perMessageDeflate: false, ...options });
  server.on("upgrade", (req, raw, head) => {
    raw.on("error", () => {});
    if (socket) sockets.handleUpgrade(req, raw, head, (it) => socket(it, req));
    else raw.end("HTTP/1.1 400 Bad Request\r\nContent-Length: 3\r\nX-Why: no\r\n\r\nno\n");
  });
  server.listen(0, "127.0.0.1");
  await once(server, "listening");
  t.after(() => {
    for (const it of sockets.clients) it.terminate();
    server.closeAllConnections();
    server.close();
  });
  return { server, url: `http://127.0.0.1:${server.address().port}` };
}

async function proxied(t, nodes, options = {}) {
  const journal = path.join(directory(t), "journal");
  const proxy = await startProxy({ nodes: nodes.map((it) => it.url ?? it), journal, ...options });
  t.after(() => proxy.close());
  return {
    proxy,
    url: proxy.url,
    port: proxy.port,
    // the records of a connection, or all, without the times
    records: (c) => {
      const all = fs.readFileSync(journal, "utf8").trimEnd().split("\n").map((it) => JSON.parse(it)).filter((it) => it.k !== "at");
      return c === undefined ? all : all.filter((it) => it.c === c).map(({ c: _, ...rest }) => rest);
    },
  };
}

async function connect(t, url, query = WS, options = {}) {
  const socket = new WebSocket(url.replace("http", "ws") + query, options);
  const got = [];
  socket.on("message", (data, binary) => got.push(binary ? data : data.toString()));
  socket.on("error", () => {});
  t.after(() => socket.terminate());
  await Promise.race([once(socket, "open"), once(socket, "close")]);
  return Object.assign(socket, { got });
}

function fetched(url, { method = "GET", headers = {}, body, agent } = {}) {
  return new Promise((resolve, reject) => {
    const request = http.request(url, { method, headers, agent }, (res) => {
      const pieces = [];
      res.on("data", (it) => pieces.push(it));
      res.on("end", () => resolve({ status: res.statusCode, headers: res.headers, raw: res.rawHeaders, body: Buffer.concat(pieces) }));
      res.on("error", reject);
    });
    request.on("error", reject);
    request.end(body);
  });
}

// a server of Engine.IO over polling: `push` answers the GETs
function polling() {
  const waiting = [];
  const bodies = [];
  const posts = [];
  let handshakes = 0;
  const more = () => {
    while (waiting.length && bodies.length) {
      const [res, body] = [waiting.shift(), bodies.shift()];
      if (typeof body === "number") res.writeHead(body).end("no");
      else res.end(body);
    }
  };
  const request = (req, res) => {
    if (req.method === "POST") {
      let body = "";
      req.on("data", (it) => (body += it)).on("end", () => {
        posts.push(body);
        res.end("ok");
      });
    } else if (req.url.includes("sid=")) {
      waiting.push(res);
      more();
    } else res.end(OPEN(`p${++handshakes}`));
  };
  return {
    request,
    posts,
    push: (body) => {
      bodies.push(body);
      more();
    },
  };
}

test("a WebSocket is recorded, before what is recorded is sent on", async (t) => {
  const seen = [];
  let side;
  const node = await serve(t, {
    socket: (it, req) => {
      side = it;
      side.headers = req.headers;
      it.send(OPEN("e1"));
      it.on("message", (data, binary) => seen.push(binary ? data : data.toString()));
    },
  });
  const { url, records } = await proxied(t, [node]);
  const socket = await connect(t, url, `${WS}&x=1`, { headers: { "X-Own": "1", Cookie: "a=b", "X-Forwarded-For": "10.0.0.1" }, origin: "http://page" });
  await until(() => socket.got.length === 1, "open");
  assert.equal(socket.extensions, "");
  assert.equal(side.headers["sec-websocket-extensions"], undefined);
  assert.equal(side.headers["x-own"], "1");
  assert.equal(side.headers.cookie, "a=b");
  assert.equal(side.headers.origin, "http://page");
  assert.equal(side.headers.host, new URL(url).host);
  assert.equal(side.headers["x-forwarded-for"], "10.0.0.1, 127.0.0.1");
  socket.send('40{"pid":"P","offset":"1-0"}');
  socket.send('42["secret of the client"]');
  socket.send(Buffer.from([1, 2]));
  await until(() => seen.length === 3, "the client's packets");
  assert.deepEqual(seen, ['40{"pid":"P","offset":"1-0"}', '42["secret of the client"]', Buffer.from([1, 2])]);
  assert.deepEqual(records(1).slice(2), [{ k: "ack", n: 1 }, { k: "out", t: '40{"pid":"P","offset":"1-0"}' }].sort((a) => (records(1)[2].k === "ack" ? (a.k === "ack" ? -1 : 1) : a.k === "ack" ? 1 : -1)));
  side.send('40{"sid":"S","pid":"P"}');
  side.send('451-["é\\u0001😀",{"_placeholder":true,"num":0},"2-0"]');
  side.send(Buffer.from([0, 255]));
  const long = `42["${"x".repeat(200_000)}","3-0"]`;
  side.send(long);
  await until(() => socket.got.length === 5, "the server's packets");
  assert.deepEqual(socket.got.slice(1), ['40{"sid":"S","pid":"P"}', '451-["é\\u0001😀",{"_placeholder":true,"num":0},"2-0"]', Buffer.from([0, 255]), long]);
  await until(() => records(1).some((it) => it.k === "ack" && it.n === 5), "acknowledgement");
  assert.deepEqual(records(1).filter((it) => it.k.startsWith("in")).slice(1), [
    { k: "in", t: '40{"sid":"S","pid":"P"}' },
    { k: "in", t: '451-["é\\u0001😀",{"_placeholder":true,"num":0},"2-0"]' },
    { k: "inb", b: "AP8=" },
    { k: "in", t: long },
  ]);
  const closed = once(side, "close");
  socket.close(3001, "bye");
  const [code, reason] = await closed;
  assert.deepEqual([code, reason.toString()], [3001, "bye"]);
  await until(() => records(1).at(-1).k === "lost", "lost");
  const [conn] = records(1);
  assert.deepEqual([conn.k, conn.eio, conn.via], ["conn", "e1", "websocket"]);
  assert.ok(Math.abs(conn.at - Date.now()) < 60_000);
});

test("nothing is sent on that isn't in the journal", async (t) => {
  const engine = polling();
  const seen = [];
  let side;
  const node = await serve(t, {
    request: engine.request,
    socket: (it) => {
      side = it;
      it.send(OPEN("e"));
      it.on("message", (data) => seen.push(data.toString()));
    },
  });
  const { proxy, url, records } = await proxied(t, [node]);
  const socket = await connect(t, url);
  await until(() => records(1).at(-1)?.k === "ack", "open");
  await fetched(url + POLL);
  const { journal } = proxy;
  const flush = journal.flush.bind(journal);
  journal.flush = () => {};
  side.send('42["m","1-0"]');
  socket.send("40");
  engine.push('42["n","1-0"]');
  let polled;
  const answered = fetched(`${url}${POLL}&sid=p1`).then((it) => (polled = it.body.toString()));
  const posted = fetched(`${url}${POLL}&sid=p1`, { method: "POST", body: "40/chat," });
  await sleep(150);
  assert.deepEqual([socket.got.length, seen, polled, engine.posts], [1, [], undefined, []]);
  journal.flush = flush;
  flush();
  await Promise.all([answered, posted]);
  await until(() => socket.got.length === 2 && seen.length === 1, "all");
  assert.deepEqual([polled, engine.posts], ['42["n","1-0"]', ["40/chat,"]]);
});

test("a body that is longer than a line of a tap is no gap", async (t) => {
  const engine = polling();
  const node = await serve(t, { request: engine.request });
  const { proxy, url } = await proxied(t, [node]);
  await fetched(url + POLL);
  engine.push(['40{"sid":"S","pid":"P"}', ...[1, 2, 3].map((it) => `42["${"x".repeat(2_000_000)}","${it}-0"]`)].join("\x1e"));
  await fetched(`${url}${POLL}&sid=p1`);
  await proxy.close();
  const into = directory(t);
  assert.deepEqual(join({ journals: [proxy.journal.file], into }).gaps, []);
  const lines = fs.readFileSync(path.join(into, "c1.tap"), "utf8").split("\n");
  assert.ok(lines.length === 9 && lines.every((it) => it.length <= 4_194_304));
});

test("the node's close and its refusal reach the client", async (t) => {
  const node = await serve(t, { socket: (it) => it.send(OPEN("e"), () => it.close(4001, "away")) });
  const { url, records } = await proxied(t, [node]);
  const socket = await connect(t, url);
  const [code, reason] = await once(socket, "close");
  assert.deepEqual([code, reason.toString(), socket.got.length], [4001, "away", 1]);
  await until(() => records(1).at(-1).k === "lost", "lost");
  const refuses = await serve(t);
  const { url: other, records: none } = await proxied(t, [refuses]);
  const refused = new WebSocket(other.replace("http", "ws") + WS);
  refused.on("error", () => {});
  const [, answer] = await once(refused, "unexpected-response");
  assert.deepEqual([answer.statusCode, answer.headers["x-why"]], [400, "no"]);
  assert.equal(none().length, 1);
});

test("polling: a record for each packet, acknowledged by the next GET", async (t) => {
  const engine = polling();
  const headers = [];
  const node = await serve(t, {
    request: (req, res) => {
      headers.push(req.headers);
      res.setHeader("Set-Cookie", ["a=1", "b=2"]);
      engine.request(req, res);
    },
  });
  const { url, records } = await proxied(t, [node]);
  const agent = new http.Agent({ keepAlive: true, maxSockets: 2 });
  t.after(() => agent.destroy());
  const first = await fetched(url + POLL, { agent, headers: { "Accept-Encoding": "gzip", Connection: "keep-alive, X-Hop", "X-Hop": "1" } });
  assert.deepEqual(first.headers["set-cookie"], ["a=1", "b=2"]);
  assert.deepEqual([headers[0]["accept-encoding"], headers[0]["x-hop"]], [undefined, undefined]);
  const sid = `${POLL}&sid=p1`;
  assert.equal((await fetched(url + sid, { agent, method: "POST", body: '40{"pid":"P"}\x1e42["x"]\x1e41/chat,' })).body.toString(), "ok");
  assert.deepEqual(engine.posts, ['40{"pid":"P"}\x1e42["x"]\x1e41/chat,']);
  engine.push('40{"sid":"S","pid":"P"}\x1e451-["é",{"_placeholder":true,"num":0},"1-0"]\x1ebAP8=');
  const body = await fetched(url + sid, { agent });
  assert.equal(body.body.toString(), '40{"sid":"S","pid":"P"}\x1e451-["é",{"_placeholder":true,"num":0},"1-0"]\x1ebAP8=');
  const made = records(1);
  assert.deepEqual(made.slice(1), [
    { k: "in", t: OPEN("p1") },
    { k: "out", t: '40{"pid":"P"}' },
    { k: "out", t: "41/chat," },
    { k: "ack", n: 1 },
    { k: "in", t: '40{"sid":"S","pid":"P"}' },
    { k: "in", t: '451-["é",{"_placeholder":true,"num":0},"1-0"]' },
    { k: "in", t: "bAP8=" },
  ]);
  engine.push("2\x1e1");
  await fetched(url + sid, { agent });
  assert.deepEqual(records(1).slice(made.length), [{ k: "ack", n: 4 }, { k: "in", t: "2" }, { k: "in", t: "1" }, { k: "lost" }]);
  engine.push(400);
  assert.equal((await fetched(url + sid, { agent })).status, 400);
  assert.equal(records(1).at(-1).k, "lost");
  // a GET that isn't answered 200, and a client that says it goes
  for (const [end, number] of [["get", 2], ["post", 3]]) {
    await fetched(url + POLL, { agent });
    if (end === "post") await fetched(`${url}${POLL}&sid=p${number}`, { agent, method: "POST", body: "41\x1e1" });
    else {
      engine.push(400);
      await fetched(`${url}${POLL}&sid=p${number}`, { agent });
    }
    assert.equal(records(number).at(-1).k, "lost");
  }
});

test("a session of polling that simply stops is lost, and forgotten", async (t) => {
  const engine = polling();
  const node = await serve(t, { request: engine.request });
  const { proxy, url, records } = await proxied(t, [node], { idle: 1000 });
  await fetched(url + POLL);
  const waits = fetched(`${url}${POLL}&sid=p1`);
  await until(() => records(1).at(-1).k === "ack", "the GET");
  proxy.sweep(Date.now() + 5000);
  assert.equal(proxy.connections.size, 1, "a GET that waits is no stop");
  engine.push("2");
  await waits;
  await sleep(20);
  proxy.sweep(Date.now() + 900);
  assert.equal(records(1).at(-1).k, "in");
  proxy.sweep(Date.now() + 1100);
  await until(() => records(1).at(-1).k === "lost", "lost");
  assert.equal(proxy.connections.size, 0);
});

test("a GET that its client gives up is given up at the node, and nothing is recorded of it", async (t) => {
  let gone = 0;
  const node = await serve(t, {
    request: (req, res) => {
      if (!req.url.includes("sid=")) return res.end(OPEN("p1"));
      return res.on("close", () => gone++);
    },
  });
  const { url, records } = await proxied(t, [node]);
  await fetched(url + POLL);
  const request = http.get(`${url}${POLL}&sid=p1`);
  request.on("error", () => {});
  await until(() => records(1).at(-1).k === "ack", "the GET");
  request.destroy();
  await until(() => gone === 1, "the node's side");
  assert.equal(records(1).at(-1).k, "ack");
});

test("an upgrade stays one connection; polling's bodies are acknowledged by the upgrade alone", async (t) => {
  const engine = polling();
  let side;
  const node = await serve(t, {
    request: engine.request,
    socket: (it) => {
      side = it;
      it.on("message", (data) => data.toString() === "2probe" && it.send("3probe"));
    },
  });
  const { url, records } = await proxied(t, [node]);
  await fetched(url + POLL);
  engine.push('40{"sid":"S","pid":"P"}');
  await fetched(`${url}${POLL}&sid=p1`);
  const failed = await connect(t, url, `${WS}&sid=p1`);
  failed.terminate();
  await sleep(100);
  assert.ok(!records(1).some((it) => it.k === "lost"), "a probe that fails ends nothing");
  const socket = await connect(t, url, `${WS}&sid=p1`);
  let pings = 0;
  socket.on("ping", () => pings++);
  socket.send("2probe");
  await until(() => socket.got.includes("3probe"), "the probe");
  await sleep(50);
  assert.equal(pings, 0);
  assert.deepEqual(records(1).at(-1), { k: "in", t: "3probe" });
  socket.send("5");
  await until(() => records(1).at(-1).k === "ack", "the upgrade");
  assert.deepEqual(records(1).at(-1), { k: "ack", n: 3 });
  side.send('42["m","1-0"]');
  await until(() => records(1).at(-1).n === 4, "the pong");
  assert.equal(pings, 1);
  side.terminate();
  await once(socket, "close");
  await until(() => records(1).at(-1).k === "lost", "lost");
  assert.equal(records().filter((it) => it.k === "conn").length, 1);
});

test("sessions stay on the node that they began on; a node that is away is passed over", async (t) => {
  const engines = [polling(), polling()];
  const hits = [0, 0];
  const nodes = [];
  for (const [i, engine] of engines.entries()) {
    nodes.push(await serve(t, { request: (req, res) => (req.url.includes("sid=") ? (hits[i]++, res.end("2")) : res.end(OPEN(`n${i}-${Math.random()}`)), engine) }));
  }
  const away = net.createServer().listen(0, "127.0.0.1");
  await once(away, "listening");
  const dead = `http://127.0.0.1:${away.address().port}`;
  away.close();
  const { url } = await proxied(t, [nodes[0], dead, nodes[1]]);
  const sids = [];
  for (let i = 0; i < 6; i++) sids.push(JSON.parse((await fetched(url + POLL)).body.toString().slice(1)).sid);
  assert.ok(sids.some((it) => it.startsWith("n0")) && sids.some((it) => it.startsWith("n1")));
  for (const sid of [...sids, ...sids]) await fetched(`${url}${POLL}&sid=${sid}`);
  assert.deepEqual(hits, [0, 1].map((i) => 2 * sids.filter((it) => it.startsWith(`n${i}`)).length));
  const all = await proxied(t, [dead]);
  assert.equal((await fetched(all.url + POLL)).status, 502);
  assert.equal(all.records().length, 1);
  const socket = new WebSocket(all.url.replace("http", "ws") + WS);
  socket.on("error", () => {});
  assert.equal((await once(socket, "unexpected-response"))[1].statusCode, 502);
});

test("all that isn't Engine.IO goes through as it is", async (t) => {
  const seen = [];
  const node = await serve(t, {
    request: (req, res) => {
      let body = "";
      req.on("data", (it) => (body += it)).on("end", () => {
        seen.push({ method: req.method, url: req.url, headers: req.headers, body });
        res.writeHead(req.method === "OPTIONS" ? 204 : 201, "Made", { "Access-Control-Allow-Origin": "*", ETag: "x", "Content-Encoding": "gzip" });
        if (req.method === "OPTIONS") return res.end();
        res.write("a piece, ");
        return setTimeout(() => res.end("and another"), 20);
      });
    },
    socket: (it) => it.on("message", (data) => it.send(`echo ${data}`)),
    options: { perMessageDeflate: true },
  });
  const { url, records } = await proxied(t, [node]);
  const preflight = await fetched(url + POLL, { method: "OPTIONS", headers: { Origin: "http://page", "Access-Control-Request-Method": "POST" } });
  assert.deepEqual([preflight.status, preflight.headers["access-control-allow-origin"], preflight.body.length], [204, "*", 0]);
  const got = await fetched(`${url}/other?x=%20#`, { method: "PUT", headers: { "Transfer-Encoding": "chunked", "Accept-Encoding": "gzip", Host: "some.host" }, body: "sent in chunks" });
  assert.deepEqual([got.status, got.headers.etag, got.headers["content-encoding"], got.body.toString()], [201, "x", "gzip", "a piece, and another"]);
  assert.deepEqual(seen.map((it) => [it.method, it.url, it.body]), [["OPTIONS", POLL, ""], ["PUT", "/other?x=%20", "sent in chunks"]]);
  assert.deepEqual([seen[1].headers["accept-encoding"], seen[1].headers.host, seen[1].headers["x-forwarded-host"]], ["gzip", "some.host", "some.host"]);
  assert.equal((await fetched(`${url}/socket.io/socket.io.js`)).status, 201);
  const socket = await connect(t, url, "/live");
  assert.equal(socket.extensions, "permessage-deflate");
  socket.send("hi");
  await until(() => socket.got.length === 1, "the echo");
  assert.equal(socket.got[0], "echo hi");
  assert.equal(records().length, 1);
});

test("what is past the limit, and garbage, ends one connection and not the proxy", async (t) => {
  const engine = polling();
  let side;
  const node = await serve(t, {
    request: engine.request,
    socket: (it) => {
      side = it;
      it.on("error", () => {});
      it.send(OPEN("e"));
    },
  });
  const { url, port, records } = await proxied(t, [node], { maxBody: 1000 });
  const good = await connect(t, url);
  const goodSide = side;
  // a POST
  await fetched(url + POLL);
  const posted = await fetched(`${url}${POLL}&sid=p1`, { method: "POST", body: "x".repeat(1001) });
  assert.equal(posted.status, 413);
  assert.equal(records(2).at(-1).k, "lost");
  assert.equal(engine.posts.length, 0);
  // a body of the node
  await fetched(url + POLL);
  engine.push("4".repeat(1001));
  assert.equal((await fetched(`${url}${POLL}&sid=p2`)).status, 502);
  assert.equal(records(3).at(-1).k, "lost");
  // messages
  for (const fault of ["client", "server", "garbage", "no UTF-8", "no UTF-8 of the server"]) {
    const socket = await connect(t, url);
    await until(() => socket.got.length === 1, "open");
    const closed = once(socket, "close");
    if (fault === "client") socket.send("x".repeat(1001));
    else if (fault === "server") side.send("x".repeat(1001));
    else if (fault === "no UTF-8") socket.send(Buffer.from([0x34, 0xff]), { binary: false });
    else if (fault === "no UTF-8 of the server") side.send(Buffer.from([0x34, 0xff]), { binary: false });
    else socket._socket.write(Buffer.from([0xff, 0xff, 0xff, 0xff]));
    await closed;
    await until(() => records(records().filter((it) => it.k === "conn").length).at(-1).k === "lost", "lost");
  }
  // no HTTP, half a handshake, a bad key
  for (const bytes of ["\x00\x01\x02garbage\r\n\r\n", `GET ${WS} HTTP/1.1\r\nHost: x\r\nUpgrade: websocket\r\nConnection: Upgrade\r\n\r\n`, `GET ${WS} HTTP/1.1\r\nHost`]) {
    const socket = net.connect(port, "127.0.0.1");
    socket.on("error", () => {});
    socket.resume();
    socket.end(bytes);
    await once(socket, "close");
  }
  goodSide.send('42["still","1-0"]');
  await until(() => good.got.at(-1) === '42["still","1-0"]', "the good one");
});

test("a slow client has its node wait, blocks no other, and is ended in the end", async (t) => {
  const sides = [];
  const node = await serve(t, { socket: (it) => (sides.push(it), it.send(OPEN(`e${sides.length}`))) });
  const { proxy, url, records } = await proxied(t, [node], { maxWaiting: 100_000, stall: 500 });
  const slow = await connect(t, url);
  await until(() => slow.got.length === 1, "open");
  slow._socket.pause();
  const quick = await connect(t, url);
  const text = `42["${"x".repeat(10_000)}","1-0"]`;
  const before = process.memoryUsage.rss();
  for (let i = 0; i < 5000; i++) sides[0].send(text);
  for (let i = 0; i < 10; i++) {
    sides[1].send(`42["m",${i},"1-${i}"]`);
    await until(() => quick.got.length === i + 2, "the quick one");
  }
  const waiting = [...proxy.bridges].map((it) => it.downSocket.writableLength);
  assert.ok(Math.max(...waiting) < 1_000_000, `${waiting}`);
  assert.ok(sides[0].bufferedAmount > 10_000_000);
  await until(() => proxy.counts.stalled === 1, "the stall");
  await until(() => records(1).at(-1).k === "lost", "lost");
  assert.ok(process.memoryUsage.rss() - before < 300_000_000);
  sides[1].send("2");
  await until(() => quick.got.at(-1) === "2", "the quick one");
});

test("sessions that aren't read stay on their nodes too", async (t) => {
  const nodes = [];
  for (const name of ["a", "b"]) {
    const request = (req, res) => {
      if (req.url.includes("sid=")) return res.end(name);
      const open = `0${JSON.stringify({ sid: `${name}${Math.random()}`, upgrades: [] })}`;
      if (req.url.includes("zip")) return res.setHeader("Content-Encoding", "gzip").end(zlib.gzipSync(open));
      return res.end(req.url.includes("j=") ? `___eio[0](${JSON.stringify(open)});` : `${open.length}:${open}`);
    };
    nodes.push(await serve(t, { request }));
  }
  const { url } = await proxied(t, nodes);
  for (const query of [`${POLL}&j=0`, "/socket.io/?EIO=3&transport=polling", `${POLL}&zip`, POLL, POLL]) {
    const { body } = await fetched(url + query);
    const [, sid] = /sid\\?":\\?"([^"\\]+)/.exec(query.endsWith("zip") ? zlib.gunzipSync(body) : body);
    for (let i = 0; i < 3; i++) assert.equal((await fetched(`${url}${query}&sid=${sid}`)).body.toString(), sid[0]);
  }
});

test("a session that the proxy hasn't seen begin doesn't go on unrecorded", async (t) => {
  let reached = 0;
  const node = await serve(t, { request: (_, res) => (reached++, res.end("2")), socket: () => reached++ });
  const { proxy, url, records } = await proxied(t, [node]);
  const got = await fetched(`${url}${POLL}&sid=elsewhere`);
  assert.deepEqual([got.status, JSON.parse(got.body)], [400, { code: 1, message: "Session ID unknown" }]);
  assert.equal((await fetched(`${url}${POLL}&sid=elsewhere`, { method: "POST", body: "40" })).status, 400);
  const socket = new WebSocket(`${url.replace("http", "ws")}${WS}&sid=elsewhere`);
  socket.on("error", () => {});
  assert.equal((await once(socket, "unexpected-response"))[1].statusCode, 400);
  assert.deepEqual([reached, proxy.counts.unknown, records().length], [0, 3, 1]);
});

test("what can't be read is a gap, and goes through", async (t) => {
  const node = await serve(t, {
    request: (req, res) => {
      if (req.url.includes("j=")) res.setHeader("Content-Type", "text/javascript; charset=UTF-8");
      if (req.url.includes("zip")) res.setHeader("Content-Encoding", "gzip");
      res.end(req.url.includes("html") ? "<html>" : OPEN(`p${Math.random()}`));
    },
  });
  const { url, records, proxy } = await proxied(t, [node]);
  for (const [query, why] of [["&j=0", /JSONP/], ["&zip", /compressed/], ["&html", /first packet/]]) {
    assert.equal((await fetched(url + POLL + query)).status, 200);
    const made = records(proxy.counts.connections);
    assert.deepEqual(made.map((it) => it.k), ["conn", "gap"]);
    assert.match(made[1].why, why);
  }
  await fetched(`${url}/socket.io/?EIO=3&transport=polling`);
  assert.match(records(4).at(-1).why, /protocol 4/);
});

test("faults by a seed", async (t) => {
  assert.deepEqual([0, 1].map(splitmix64.bind(null, 1234567n)).map((it) => it.next()), [6457827717110365317n, 6457827717110365317n]);
  const numbers = splitmix64(1234567n);
  assert.deepEqual([numbers.next(), numbers.next()], [6457827717110365317n, 3203168211198807973n]); // the published ones
  assert.deepEqual(parseFault("drop:0.25"), { kind: "drop", probability: 0.25 });
  for (const word of ["lose:1", "drop", "drop:2", "drop:x"]) assert.throws(() => parseFault(word), RangeError);
  const node = await serve(t, {
    socket: (it) => {
      it.send(OPEN("e"));
      it.on("message", () => {
        for (let i = 1; i <= 40; i++) {
          it.send(i % 8 ? `42["m","${i}-0"]` : `451-[{"_placeholder":true,"num":0},"${i}-0"]`);
          if (i % 8 === 0) it.send(Buffer.from([i]));
          if (i % 5 === 0) it.send("2");
        }
        it.send("6");
      });
    },
  });
  const runs = {};
  for (const [inject, seed] of [[["drop:0.2"], 1], [["drop:0.2"], 1], [["drop:0.2"], 2], [["double:0.2"], 1], [["hold:0.2"], 1], [["cut:0.1"], 1]]) {
    const { url, records } = await proxied(t, [node], { inject, seed });
    const socket = await connect(t, url);
    socket.send("40");
    await until(() => socket.got.at(-1) === "6" || socket.readyState === WebSocket.CLOSED, "all");
    const offsets = socket.got.map((it) => /"(\d+)-0"\]$/.exec(it)?.[1]).filter((it) => it !== undefined).map(Number);
    const notes = records(1).filter((it) => it.k === "note");
    assert.ok(notes.length > 0 && notes.every((it) => it.inject === inject[0].split(":")[0]));
    assert.deepEqual(records().find((it) => it.k === "note").seed, String(seed));
    // the journal has what the client got
    const recorded = records(1).filter((it) => it.k === "in" || it.k === "inb").map((it) => it.t ?? Buffer.from(it.b, "base64"));
    if (inject[0] !== "cut:0.1") assert.deepEqual(recorded, socket.got);
    (runs[inject[0]] ??= []).push({ offsets, noted: notes.map((it) => Number(/"(\d+)-0"\]$/.exec(it.t)[1])), records: records(1) });
  }
  const all = Array.from({ length: 40 }, (_, i) => i + 1);
  const [one, same, other] = runs["drop:0.2"];
  assert.deepEqual(one.noted, same.noted);
  assert.notDeepEqual(one.noted, other.noted);
  assert.deepEqual(one.offsets, all.filter((it) => !one.noted.includes(it)));
  const [double] = runs["double:0.2"];
  assert.deepEqual(double.offsets, all.flatMap((it) => (double.noted.includes(it) ? [it, it] : [it])));
  const [hold] = runs["hold:0.2"];
  const held = [];
  for (let i = 0; i < all.length; i++) {
    if (hold.noted.includes(all[i]) && i + 1 < all.length) held.push(all[i + 1], all[i++]);
    else if (!hold.noted.includes(all[i])) held.push(all[i]);
  }
  assert.deepEqual(hold.offsets, held);
  const [cut] = runs["cut:0.1"];
  assert.deepEqual([cut.noted.length, cut.records.at(-1).k], [1, "lost"]);
  assert.deepEqual(cut.records.filter((it) => it.k === "in").map((it) => /"(\d+)-0"/.exec(it.t)?.[1]).filter(Boolean).map(Number), all.slice(0, cut.noted[0] - 1));
});

test("faults in bodies of polling", async (t) => {
  const engine = polling();
  const node = await serve(t, { request: engine.request });
  const { url, records } = await proxied(t, [node], { inject: ["drop:1"] });
  await fetched(url + POLL);
  engine.push('42["m","1-0"]');
  assert.equal((await fetched(`${url}${POLL}&sid=p1`)).body.toString(), "6");
  engine.push('2\x1e451-[{"_placeholder":true,"num":0},"2-0"]\x1ebAA==\x1e42["volatile",1]');
  assert.equal((await fetched(`${url}${POLL}&sid=p1`)).body.toString(), '2\x1e42["volatile",1]');
  assert.equal(records(1).filter((it) => it.k === "note").length, 2);
  const { url: cut } = await proxied(t, [node], { inject: ["cut:1"] });
  const { sid } = JSON.parse((await fetched(cut + POLL)).body.toString().slice(1));
  engine.push('42["m","1-0"]');
  await assert.rejects(fetched(`${cut}${POLL}&sid=${sid}`), /socket hang up/);
});

test("a redacted journal has nothing that was said", async (t) => {
  const node = await serve(t, { socket: (it) => (it.send(OPEN("engine-sid")), it.on("message", () => (it.send('40{"sid":"socket-sid","pid":"the-pid"}'), it.send('451-["said",{"_placeholder":true,"num":0},"1-0"]'), it.send(Buffer.from("attached bytes"))))) });
  const key = Buffer.alloc(32, 7);
  const redact = redactor(key);
  const { url, records } = await proxied(t, [node], { redact: key });
  const socket = await connect(t, url);
  socket.send('40{"pid":"the-pid","offset":"0-0","token":"a secret"}');
  await until(() => records(1).filter((it) => it.k === "inb").length === 1, "all");
  assert.equal(records()[0].redacted, true);
  const text = JSON.stringify(records());
  for (const word of ["engine-sid", "socket-sid", "the-pid", "said", "a secret", Buffer.from("attached bytes").toString("base64")]) assert.ok(!text.includes(word), word);
  assert.ok(text.includes(redact.hash("the-pid")) && text.includes("1-0") && text.includes("0-0"));
  await until(() => socket.got.at(-1).toString() === "attached bytes", "what the client gets");
});

test("a proxy that is killed has in its journal all that it sent on; one that is ended closes it", async (t) => {
  let count = 0;
  const sides = new Set();
  const node = await serve(t, {
    socket: (it) => {
      sides.add(it);
      it.send(OPEN(`e${sides.size}`));
      const more = () => {
        for (let i = 0; i < 20; i++) it.send(`42["m","${++count}-0"]`);
        if (it.readyState === WebSocket.OPEN) setImmediate(more);
      };
      more();
    },
  });
  for (const signal of ["SIGKILL", "SIGTERM"]) {
    const journal = path.join(directory(t), "journal");
    const child = spawn(process.execPath, [path.join(__dirname, "../bin/sioaudit-proxy.js"), "--journal", journal, node.url], { stdio: ["ignore", "pipe", "ignore"] });
    t.after(() => child.kill("SIGKILL"));
    const [line] = await once(child.stdout, "data");
    const url = /^listening on (\S+)\n$/.exec(line.toString())[1];
    const clients = [await connect(t, url), await connect(t, url)];
    await until(() => clients.every((it) => it.got.length > 300), "frames");
    const closed = clients.map((it) => once(it, "close"));
    child.kill(signal);
    const [[status]] = [await once(child, "exit"), await Promise.all(closed)];
    const lines = fs.readFileSync(journal, "utf8").split("\n");
    lines.pop(); // "", or half a line
    const recorded = lines.map((it) => JSON.parse(it)).filter((it) => it.k === "in");
    for (const client of clients) {
      const number = recorded.find((it) => it.t === client.got[0]).c;
      const texts = recorded.filter((it) => it.c === number).map((it) => it.t);
      assert.deepEqual(client.got, texts.slice(0, client.got.length));
    }
    if (signal === "SIGKILL") continue;
    assert.equal(status, 0);
    assert.deepEqual(lines.map((it) => JSON.parse(it)).filter((it) => it.k === "lost" || it.k === "end").map((it) => it.k), ["lost", "lost", "end"]);
  }
});

test("the proxy's words", async (t) => {
  const run = async (...words) => {
    const child = spawn(process.execPath, [path.join(__dirname, "../bin/sioaudit-proxy.js"), ...words], { stdio: ["ignore", "ignore", "pipe"] });
    let text = "";
    child.stderr.on("data", (it) => (text += it));
    const [status] = await once(child, "exit");
    return [status, text.split("\n")[0]];
  };
  const there = path.join(directory(t), "there");
  fs.writeFileSync(there, "");
  const journal = path.join(directory(t), "journal");
  const { server } = await serve(t, { request: (req, res) => res.end() });
  for (const [words, why] of [
    [["http://x"], /--journal FILE is missing/],
    [["--journal", journal], /no NODE/],
    [["--journal", there, "http://127.0.0.1:1"], /is there already/],
    [["--journal", journal, "ftp://x"], /a node is an URL/],
    [["--journal", journal, "--inject", "drop:7", "http://x"], /probability/],
    [["--journal", journal, "--max-body", "0", "http://x"], /--max-body/],
    [["--journal", journal, "--wrong", "http://x"], /--wrong/],
    [["--journal", journal, "--listen", `127.0.0.1:${server.address().port}`, "http://127.0.0.1:1"], /EADDRINUSE/],
  ]) {
    const [status, text] = await run(...words);
    assert.equal(status, 2);
    assert.match(text, why);
  }
  assert.ok(!fs.existsSync(journal));
});

test("memory doesn't grow with connections, nor with frames", { timeout: 120_000 }, async (t) => {
  let all = 0;
  const node = await serve(t, {
    request: (req, res) => res.end(req.url.includes("sid=") ? '42["m","1-0"]' : OPEN(`p${++all}`)),
    socket: (it) => {
      it.on("error", () => {});
      it.send(OPEN(`w${++all}`));
      for (let i = 0; i < 100; i++) it.send(`42["m","${"x".repeat(300)}","1-${i}"]`);
    },
  });
  const journal = path.join(directory(t), "journal");
  const proxy = fork(path.join(__dirname, "lab/measured.js"), [journal, node.url], { execArgv: ["--expose-gc"] });
  t.after(() => proxy.connected && proxy.disconnect());
  const [url] = await once(proxy, "message");
  const agent = new http.Agent({ keepAlive: true });
  t.after(() => agent.destroy());
  const round = async () => {
    for (let i = 0; i < 30; i++) {
      const socket = new WebSocket(url.replace("http", "ws") + WS);
      let got = 0;
      socket.on("message", () => ++got === 101 && socket.close());
      await once(socket, "close");
      const { sid } = JSON.parse((await fetched(url + POLL, { agent })).body.toString().slice(1));
      await fetched(`${url}${POLL}&sid=${sid}`, { agent });
    }
    let heap;
    await until(async () => {
      proxy.send("measure");
      const [answer] = await once(proxy, "message");
      heap = answer.heap;
      return answer.kept === 0;
    }, "the ends");
    return heap;
  };
  // what is at hand when it is measured differs by some 100 KB from round to round: the least of three counts
  const least = async () => Math.min(await round(), await round(), await round());
  for (let i = 0; i < 4; i++) await round();
  const before = await least();
  for (let i = 0; i < 4; i++) await round();
  const after = await least();
  assert.ok(after - before < 200 * 1024, `${after - before} bytes more after 420 connections and 21,000 frames`);
  assert.ok(fs.statSync(journal).size > 5_000_000);
});

test("frames are those of RFC 6455", () => {
  for (const size of [0, 1, 125, 126, 65535, 65536, 70000]) {
    const data = Buffer.alloc(size, 1);
    const bytes = Buffer.concat(encode([[data, true], [Buffer.from("é"), false]], "12"));
    const head = size < 126 ? [0x82, size] : size < 65536 ? [0x82, 126, size >> 8, size & 255] : [0x82, 127, 0, 0, 0, 0, 0, size >> 16, (size >> 8) & 255, size & 255];
    assert.deepEqual(bytes, Buffer.concat([Buffer.from(head), data, Buffer.from([0x81, 2, 0xc3, 0xa9, 0x89, 2, 0x31, 0x32])]));
  }
});
