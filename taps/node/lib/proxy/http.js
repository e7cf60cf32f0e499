"use strict";

const http = require("node:http");
const https = require("node:https");
const { Connection, plain } = require("./connection");
const { answered, endToEnd, forwarded } = require("./headers");

const CONNECTING = 10_000; // ms that a node has to take a connection
const LINGER = 1000; // ms
const NOT_REACHED = new Set(["ECONNREFUSED", "EHOSTUNREACH", "ENETUNREACH", "EHOSTDOWN", "ETIMEDOUT", "ENOTFOUND", "EAI_AGAIN"]);

// What Engine.IO answers. A session that this proxy hasn't seen begin would go on unrecorded; so its client connects anew.
const UNKNOWN = '{"code":1,"message":"Session ID unknown"}';

class TooLarge extends Error {}

/** The path and the query of a request's target. */
function target(url) {
  const mark = url.indexOf("?");
  return mark === -1 ? { path: url, query: new URLSearchParams() } : { path: url.slice(0, mark), query: new URLSearchParams(url.slice(mark + 1)) };
}

/** All of a message's body. Rejects where it is larger than `most`, or ends early. */
function collect(message, most) {
  return new Promise((resolve, reject) => {
    const pieces = [];
    let size = 0;
    const take = (piece) => {
      size += piece.length;
      pieces.push(piece);
      if (size <= most) return;
      message.off("data", take);
      message.pause();
      reject(new TooLarge(`a body has more than ${most} bytes`));
    };
    message.on("data", take);
    message.on("end", () => resolve(Buffer.concat(pieces)));
    message.on("error", reject);
    message.on("close", () => reject(new Error("the body ended early")));
  });
}

/** A request to a node, whose answer is resolved; `started` is given the request before. */
function ask(node, { method, path, headers, body, keep = false, started }) {
  return new Promise((resolve, reject) => {
    const request = (node.url.protocol === "https:" ? https : http).request({
      protocol: node.url.protocol,
      hostname: node.url.hostname.replace(/^\[|\]$/g, ""),
      port: node.url.port || undefined,
      servername: node.url.hostname,
      method,
      path,
      headers,
      agent: keep ? node.agent : false,
      setHost: false,
    });
    const late = setTimeout(() => request.destroy(Object.assign(new Error("connecting took too long"), { code: "ETIMEDOUT" })), CONNECTING);
    request.on("socket", (socket) => {
      if (socket.connecting) socket.once("connect", () => clearTimeout(late));
      else clearTimeout(late);
    });
    request.on("response", resolve);
    request.on("close", () => {
      clearTimeout(late);
      reject(new Error("closed without an answer"));
    });
    request.on("error", (error) => {
      clearTimeout(late);
      error.reused = request.reusedSocket;
      reject(error);
    });
    started?.(request);
    if (body !== null) request.end(body);
  });
}

// a kept connection that the node closed just then: the request never reached it
const stale = (error) => error.reused && (error.code === "ECONNRESET" || error.code === "EPIPE");

async function askAgain(node, request) {
  try {
    return await ask(node, request);
  } catch (error) {
    if (!stale(error)) throw error;
    return ask(node, { ...request, keep: false });
  }
}

/** Tries the nodes in turn until one takes a connection. `tried` asks one. */
async function anyNode(proxy, tried) {
  let failure;
  for (const node of proxy.turn()) {
    try {
      return await tried(node);
    } catch (error) {
      if (!NOT_REACHED.has(error.code)) throw error;
      proxy.away(node, error);
      failure = error;
    }
  }
  throw failure;
}

function refuse(res, status, why, type = "text/plain; charset=utf-8") {
  if (res.headersSent || res.destroyed) return res.destroy();
  res.writeHead(status, { "Content-Type": type, "Content-Length": Buffer.byteLength(why) });
  return res.end(why);
}

/** Every request but an upgrade. */
async function request(proxy, req, res) {
  res.sendDate = false;
  const { path, query } = target(req.url);
  const known = proxy.isEngine(path) ? proxy.connections.get(query.get("sid")) : undefined;
  const polls = proxy.isEngine(path) && query.get("transport") === "polling";
  if (polls && req.method === "GET" && (known !== undefined || !query.has("sid"))) return poll(proxy, req, res, known, query);
  if (polls && req.method === "POST" && known !== undefined) return post(proxy, req, res, known);
  if (polls && (req.method === "GET" || req.method === "POST")) {
    proxy.unknown();
    return refuse(res, 400, UNKNOWN, "application/json");
  }
  return pass(proxy, req, res, known?.node);
}

// A GET of polling: the handshake, or the next body. The GET after a body says that the client has taken it.
async function poll(proxy, req, res, known, query) {
  if (known !== undefined) {
    known.touched = proxy.journal.now();
    if (known.body?.broken) known.gap("a body was cut on its way, and the client went on");
    else if (known.body?.sent) known.ack(known.body.count);
  }
  let asked;
  let connection = known;
  let cut = false;
  res.on("close", () => {
    if (!res.writableFinished) {
      cut = true;
      asked?.destroy();
    }
  });
  if (known !== undefined) known.users++;
  try {
    const words = {
      method: "GET",
      path: req.url,
      headers: forwarded(req, ["accept-encoding"]),
      keep: true,
      started: (it) => {
        asked = it;
        if (cut) it.destroy();
      },
    };
    const at = proxy.journal.now();
    let answer;
    if (known !== undefined) answer = await askAgain(known.node, words);
    else {
      answer = await anyNode(proxy, async (node) => {
        connection = new Connection(proxy, node, "polling");
        connection.at = at;
        return askAgain(node, words);
      });
    }
    const bytes = await collect(answer, proxy.maxBody);
    if (cut) return; // it never was on its way
    if (answer.statusCode !== 200) {
      connection.lost();
      proxy.journal.after(() => reply(res, answer, bytes));
      return;
    }
    if (known === undefined && query.get("EIO") !== "4") connection.gap(`Engine.IO ${query.get("EIO") ?? "without EIO"}: protocol 4 alone is read`, plain(bytes, answer.headers));
    const on = connection.body200(bytes, answer.headers);
    if (on === undefined) {
      connection.lost();
      proxy.journal.after(() => res.destroy());
      return;
    }
    const body = { count: connection.count, sent: false, broken: false };
    connection.body = body;
    proxy.journal.after(() => {
      if (res.destroyed) {
        body.broken = true;
        return;
      }
      res.on("close", () => {
        if (!res.writableFinished) body.broken = true;
      });
      reply(res, answer, on);
      body.sent = true;
    });
  } catch (error) {
    asked?.destroy();
    if (cut) return;
    connection?.lost();
    proxy.journal.after(() => refuse(res, 502, `${error.message}\n`));
  } finally {
    if (known !== undefined) {
      known.users--;
      known.touched = proxy.journal.now();
    }
  }
}

// the whole answer, whatever its framing was
function reply(res, answer, bytes) {
  if (res.destroyed) return;
  const headers = answered(answer, ["content-length"]);
  headers["Content-Length"] = bytes.length;
  try {
    res.writeHead(answer.statusCode, answer.statusMessage, headers);
    res.end(bytes);
  } catch {
    res.destroy(); // a head that node:http reads, but doesn't write
  }
}

async function post(proxy, req, res, connection) {
  connection.users++;
  connection.touched = proxy.journal.now();
  let asked;
  res.on("close", () => {
    if (!res.writableFinished) asked?.destroy();
  });
  try {
    const body = await collect(req, proxy.maxBody);
    if (!/^application\/x-www-form-urlencoded/.test(req.headers["content-type"] ?? "")) connection.posted(body);
    else connection.gap("polling by JSONP isn't read");
    await new Promise((resolve) => proxy.journal.after(resolve));
    const headers = forwarded(req, ["content-length"]);
    headers["Content-Length"] = body.length;
    const words = { method: "POST", path: req.url, headers, body, keep: true, started: (it) => (asked = it) };
    const answer = await askAgain(connection.node, words);
    reply(res, answer, await collect(answer, proxy.maxBody));
  } catch (error) {
    asked?.destroy();
    if (error instanceof TooLarge) {
      connection.lost();
      proxy.journal.after(() => {
        // a client that is still sending hears of it if what it sends is read for a while
        res.setHeader("Connection", "close");
        refuse(res, 413, `${error.message}\n`);
        req.resume();
        setTimeout(() => req.destroy(), LINGER).unref();
      });
    } else if (!res.destroyed) {
      connection.lost();
      proxy.journal.after(() => refuse(res, 502, `${error.message}\n`));
    }
  } finally {
    connection.users--;
    connection.touched = proxy.journal.now();
  }
}

// everything else goes through as it is
async function pass(proxy, req, res, node) {
  let asked;
  res.on("close", () => {
    if (!res.writableFinished) asked?.destroy();
  });
  const hasBody = req.headers["content-length"] !== undefined || req.headers["transfer-encoding"] !== undefined;
  const headers = forwarded(req);
  if (req.headers["transfer-encoding"] !== undefined) headers["Transfer-Encoding"] = "chunked";
  try {
    const tried = (it) =>
      ask(it, {
        method: req.method,
        path: req.url,
        headers,
        body: hasBody ? null : undefined,
        started: (started) => {
          asked = started;
          if (hasBody) req.pipe(started);
        },
      });
    const answer = node === undefined && !hasBody ? await anyNode(proxy, tried) : await tried(node ?? proxy.turn().next().value);
    res.writeHead(answer.statusCode, answer.statusMessage, answered(answer));
    res.flushHeaders();
    answer.on("error", () => res.destroy());
    answer.on("close", () => answer.complete || res.destroy());
    answer.pipe(res);
  } catch (error) {
    refuse(res, 502, `${error.message}\n`);
  }
}

/** An upgrade that isn't Engine.IO's: bytes both ways, whatever they are. */
async function tunnel(proxy, req, socket, head, node) {
  socket.on("error", () => socket.destroy());
  const headers = forwarded(req);
  headers.Connection = "Upgrade";
  headers.Upgrade = req.headers.upgrade;
  let asked;
  socket.on("close", () => asked?.destroy());
  const tried = (it) =>
    ask(it, {
      method: req.method,
      path: req.url,
      headers,
      started: (started) => {
        asked = started;
        started.on("upgrade", (answer, up, upHead) => {
          up.on("error", () => up.destroy());
          up.on("close", () => socket.destroy());
          socket.on("close", () => up.destroy());
          socket.write(headOf(answer, answer.rawHeaders));
          if (upHead.length) socket.write(upHead);
          if (head.length) up.write(head);
          up.pipe(socket);
          socket.pipe(up);
        });
      },
    });
  try {
    answerRaw(socket, node === undefined ? await anyNode(proxy, tried) : await tried(node));
  } catch (error) {
    if (!socket.destroyed && socket.bytesWritten === 0) refuseRaw(socket, 502, `${error.message}\n`);
  }
}

function headOf(answer, raw) {
  let head = `HTTP/1.1 ${answer.statusCode} ${answer.statusMessage}\r\n`;
  for (let i = 0; i < raw.length; i += 2) head += `${raw[i]}: ${raw[i + 1]}\r\n`;
  return Buffer.from(`${head}\r\n`, "latin1");
}

/** An answer to an upgrade that was refused, after which the connection ends. */
function answerRaw(socket, answer) {
  const headers = endToEnd(answer).flat();
  socket.write(headOf(answer, [...headers, "Connection", "close"]));
  answer.on("error", () => socket.destroy());
  answer.pipe(socket);
}

function refuseRaw(socket, status, why) {
  const raw = ["Content-Type", "text/plain; charset=utf-8", "Content-Length", String(Buffer.byteLength(why)), "Connection", "close"];
  socket.end(Buffer.concat([headOf({ statusCode: status, statusMessage: http.STATUS_CODES[status] }, raw), Buffer.from(why)]));
}

module.exports = { NOT_REACHED, UNKNOWN, anyNode, answerRaw, refuseRaw, request, target, tunnel };
