"use strict";

// WebSocket ends in the proxy, on both sides, so that nothing is compressed and each message is seen whole.

const { isUtf8 } = require("node:buffer");
const { WebSocket, WebSocketServer } = require("ws");
const { Connection } = require("./connection");
const { encode } = require("./frames");
const { endToEnd, forwarded } = require("./headers");
const { NOT_REACHED, UNKNOWN, answerRaw, refuseRaw, target, tunnel } = require("./http");

const OPENING = 10_000; // ms
const LEAVE_OUT = ["sec-websocket-key", "sec-websocket-version", "sec-websocket-extensions", "sec-websocket-accept", "sec-websocket-protocol"];

function createServer(maxPayload) {
  const server = new WebSocketServer({
    noServer: true,
    clientTracking: false,
    perMessageDeflate: false,
    skipUTF8Validation: true, // it is looked at here, and quicker
    maxPayload,
    handleProtocols: (_, req) => req.answer.protocol || false,
  });
  server.on("headers", (headers, req) => {
    for (const [name, value] of req.answer.headers) headers.push(`${name}: ${value}`);
  });
  return server;
}

/** A request with `Upgrade`. */
async function upgrade(proxy, req, socket, head) {
  const { path, query } = target(req.url);
  const engine = proxy.isEngine(path);
  const known = engine ? proxy.connections.get(query.get("sid")) : undefined;
  const websocket = /^websocket$/i.test(req.headers.upgrade ?? "");
  if (!engine || !websocket || query.get("transport") !== "websocket") return tunnel(proxy, req, socket, head, known?.node);
  if (query.has("sid") && known === undefined) {
    socket.on("error", () => socket.destroy());
    proxy.unknown();
    return refuseRaw(socket, 400, UNKNOWN);
  }
  const failed = () => socket.destroy();
  socket.on("error", failed);
  const at = proxy.journal.now();
  let connection = known;
  let opened;
  try {
    if (known !== undefined) opened = await open(proxy, known.node, req, socket);
    else {
      for (const node of proxy.turn()) {
        connection = new Connection(proxy, node, "websocket");
        connection.at = at;
        opened = await open(proxy, node, req, socket);
        if (!NOT_REACHED.has(opened.error?.code)) break;
        proxy.away(node, opened.error);
      }
    }
  } catch (error) {
    opened = { error }; // a subprotocol that is none, say
  }
  socket.off("error", failed);
  if (opened.refused) {
    socket.on("error", failed);
    return answerRaw(socket, opened.refused);
  }
  if (opened.error) {
    socket.on("error", failed);
    return refuseRaw(socket, 502, `${opened.error.message}\n`);
  }
  const { up, answer } = opened;
  if (socket.destroyed) {
    up.on("error", () => {});
    up.terminate();
    return undefined;
  }
  req.answer = { protocol: up.protocol, headers: endToEnd(answer, LEAVE_OUT) };
  const noHandshake = () => up.terminate();
  socket.on("close", noHandshake);
  up.on("error", () => {});
  proxy.websockets.handleUpgrade(req, socket, head, (down) => {
    socket.off("close", noHandshake);
    if (known === undefined && query.get("EIO") !== "4") connection.gap(`Engine.IO ${query.get("EIO") ?? "without EIO"}: protocol 4 alone is read`);
    new Bridge(proxy, connection, { up, upSocket: answer.socket, down, downSocket: socket, probes: known !== undefined }).start(opened.early);
  });
}

// Opens the node's side: `{ up, answer, early }`, `{ refused }` with the node's answer, or `{ error }`.
function open(proxy, node, req, socket) {
  return new Promise((resolve) => {
    const url = new URL(req.url, node.url);
    url.protocol = node.url.protocol === "https:" ? "wss:" : "ws:";
    const protocols = (req.headers["sec-websocket-protocol"] ?? "").split(",").map((it) => it.trim()).filter((it) => it !== "");
    const up = new WebSocket(url, protocols, {
      headers: forwarded(req, LEAVE_OUT),
      perMessageDeflate: false,
      skipUTF8Validation: true,
      maxPayload: proxy.maxBody,
      handshakeTimeout: OPENING,
    });
    const early = []; // what comes before the client's side stands
    const collect = (data, isBinary) => early.push([data, isBinary]);
    const gone = () => up.terminate();
    let answer;
    socket.once("close", gone);
    const done = (result) => {
      socket.off("close", gone);
      resolve(result);
    };
    up.on("upgrade", (it) => (answer = it));
    up.on("message", collect);
    up.on("open", () => done({ up, answer, early: { packets: early, collect } }));
    up.on("unexpected-response", (_, refused) => done({ refused }));
    up.on("error", (error) => done({ error }));
  });
}

// One direction of a bridge: what waits for the end of the turn, and then for the side that it goes to. Where that one is
// slow, the side that it comes from isn't read meanwhile; where it takes nothing for long, `stalled` is called.
class Lane {
  #messages = [];
  #bytes = 0;
  #timer;

  constructor(from, socket, { most, patience, stalled }) {
    this.from = from;
    this.socket = socket; // that it goes to
    this.most = most;
    this.patience = patience;
    this.stalled = stalled;
  }

  get empty() {
    return this.#messages.length === 0;
  }

  push(data, binary) {
    this.#messages.push([data, binary]);
    this.#bytes += data.length;
    if (this.#bytes > this.most) this.from.pause();
  }

  /** All that has waited for the end of the turn. */
  take() {
    const messages = this.#messages;
    this.#messages = [];
    this.#bytes = 0;
    return messages;
  }

  /** After it was handed to the socket. */
  settle() {
    if (this.#timer !== undefined) return;
    if (this.socket.writableLength <= this.most) {
      if (this.from.isPaused) this.from.resume();
      return;
    }
    this.from.pause();
    this.#timer = setTimeout(this.stalled, this.patience);
    const goesOn = () => {
      clearTimeout(this.#timer);
      this.#timer = undefined;
      this.socket.off("drain", goesOn);
      this.socket.off("close", goesOn);
      this.from.resume();
    };
    this.socket.on("drain", goesOn);
    this.socket.on("close", goesOn);
  }
}

/** Both sides of a WebSocket of Engine.IO. */
class Bridge {
  #scheduled = false;
  #pinged = 0; // the count in the last ping
  #onItsWay = false; // a ping without its pong
  #end; // how the client's side is to be closed once all has been sent
  #upEnd;
  #toClient;
  #toServer;

  constructor(proxy, connection, { up, upSocket, down, downSocket, probes }) {
    this.proxy = proxy;
    this.connection = connection;
    this.up = up;
    this.upSocket = upSocket;
    this.down = down;
    this.downSocket = downSocket;
    this.probes = probes; // until the client's `5` the connection is that of polling
    const words = {
      most: proxy.maxWaiting,
      patience: proxy.stall,
      stalled: () => {
        proxy.counts.stalled++;
        connection.lost();
        this.terminate();
      },
    };
    this.#toClient = new Lane(up, downSocket, words);
    this.#toServer = new Lane(down, upSocket, words);
  }

  start({ packets, collect }) {
    const { up, down, proxy, connection } = this;
    proxy.bridges.add(this);
    connection.users++;
    up.off("message", collect);
    up.on("message", (data, isBinary) => this.#fromServer(data, isBinary));
    down.on("message", (data, isBinary) => this.#fromClient(data, isBinary));
    down.on("pong", (data) => this.#pong(data));
    up.on("error", () => {});
    down.on("error", () => {});
    up.on("close", (code, reason) => this.#closed(code, reason, true));
    down.on("close", (code, reason) => this.#closed(code, reason, false));
    for (const [data, isBinary] of packets) this.#fromServer(data, isBinary);
    if (up.readyState === WebSocket.CLOSED) this.#closed(1006, "", true);
  }

  #fromServer(data, isBinary) {
    if (this.#end) return;
    const { connection, proxy } = this;
    if (!isBinary && !isUtf8(data)) return this.#refuse(this.up);
    const packet = isBinary ? data : data.toString();
    if (proxy.faults.length === 0) {
      connection.record(packet);
      this.#toClient.push(data, isBinary);
    } else {
      const { packets, cut } = connection.disturbed(isBinary ? { bytes: data } : { text: packet });
      for (const it of packets) this.#toClient.push(it.bytes ?? Buffer.from(it.text), it.bytes !== undefined);
      if (cut) {
        connection.lost();
        this.#end = [1006];
      }
    }
    if (packet === "1") connection.lost();
    this.#schedule();
    return undefined;
  }

  #fromClient(data, isBinary) {
    const { connection } = this;
    if (!isBinary) {
      if (!isUtf8(data)) return this.#refuse(this.down);
      const text = data.toString();
      connection.fromClient(text);
      if (text === "5" && this.probes) {
        // all that came by polling has been taken, and the answer to the probe
        this.probes = false;
        connection.via = "websocket";
        connection.ack(connection.count);
      }
      if (text === "1") connection.lost();
    }
    this.#toServer.push(data, isBinary);
    this.#schedule();
    return undefined;
  }

  // a text that isn't UTF-8
  #refuse(side) {
    side.close(1007);
  }

  #pong(data) {
    const text = data.toString();
    if (text !== String(this.#pinged) || !this.#onItsWay) return; // one that nobody asked for
    this.#onItsWay = false;
    this.connection.ack(this.#pinged);
    if (!this.#toClient.empty || this.down.readyState !== WebSocket.OPEN) return;
    for (const bytes of encode([], this.#ping())) this.downSocket.write(bytes);
  }

  // What a ping says that is to be sent now, if any: how many records were sent before it. One at a time is on its way, so
  // a quick stream costs few.
  #ping() {
    const { connection, proxy } = this;
    if (!proxy.acknowledged || this.probes || this.#onItsWay || connection.over || connection.count === this.#pinged) return undefined;
    this.#pinged = connection.count;
    this.#onItsWay = true;
    return String(this.#pinged);
  }

  #schedule() {
    if (this.#scheduled) return;
    this.#scheduled = true;
    this.proxy.journal.after(() => {
      this.#scheduled = false;
      this.#send();
    });
  }

  // all of it stands in the journal by now
  #send() {
    const { up, down, upSocket, downSocket } = this;
    const toServer = this.#toServer.take();
    if (toServer.length > 0 && up.readyState === WebSocket.OPEN) {
      upSocket.cork();
      for (const [data, binary] of toServer) up.send(data, { binary });
      upSocket.uncork();
      this.#toServer.settle();
    }
    const toClient = this.#toClient.take();
    if (toClient.length > 0 && down.readyState === WebSocket.OPEN && this.#end?.[0] !== 1006) {
      downSocket.cork();
      for (const bytes of encode(toClient, this.#ping())) downSocket.write(bytes);
      downSocket.uncork();
      this.#toClient.settle();
    }
    if (this.#end) close(down, ...this.#end);
    if (this.#upEnd) close(up, ...this.#upEnd);
  }

  #closed(code, reason, byServer) {
    const { connection, proxy } = this;
    if (!this.probes) connection.lost(); // a probe that failed ends nothing
    if (byServer) this.#end ??= [code, reason];
    else this.#upEnd ??= [code, reason];
    (byServer ? this.down : this.up).resume(); // or it would never hear of the end
    this.#schedule();
    if (!proxy.bridges.delete(this)) return;
    connection.users--;
    connection.touched = proxy.journal.now();
  }

  /** Ends both sides at the end of the proxy. */
  leave() {
    this.connection.lost();
    this.#end ??= [1001, "the proxy ends"];
    this.#upEnd ??= [1001, "the proxy ends"];
    this.#schedule();
  }

  terminate() {
    this.down.terminate();
    this.up.terminate();
  }
}

function close(socket, code, reason) {
  if (socket.readyState !== WebSocket.OPEN) return;
  if (code === 1005) socket.close();
  else if ((code >= 1000 && code <= 1014 && ![1004, 1005, 1006].includes(code)) || (code >= 3000 && code <= 4999)) socket.close(code, reason);
  else socket.terminate();
}

module.exports = { createServer, upgrade };
