"use strict";

// STAND-IN of socket.io 4.7's Server, Namespace and Socket, restated from memory of the order of what they do; over
// node-ws alone, without polling. Nothing here is upstream's code.

const { randomBytes } = require("node:crypto");
const { EventEmitter } = require("node:events");
const { once } = require("node:events");
const { WebSocketServer } = require("ws");
const { Decoder, Encoder, PacketType } = require("socket.io-parser");

const identifier = () => randomBytes(15).toString("base64url");

class Socket extends EventEmitter {
  constructor(nsp, client, previous) {
    super();
    this.nsp = nsp;
    this.client = client;
    this.connected = false;
    this.id = previous?.sid ?? identifier();
    this.pid = previous?.pid ?? identifier();
    this.data = previous?.data ?? {};
    for (const room of previous?.rooms ?? []) this.join(room);
    for (const data of previous?.missedPackets ?? []) this.packet({ type: PacketType.EVENT, data });
  }

  join(rooms) {
    return this.nsp.adapter.addAll(this.id, new Set([rooms].flat()));
  }

  leave(room) {
    return this.nsp.adapter.del(this.id, room);
  }

  packet(packet) {
    packet.nsp = this.nsp.name;
    this.write(new Encoder().encode(packet));
  }

  write(encoded) {
    this.client.write(encoded);
  }

  _onconnect() {
    this.connected = true;
    this.join(this.id);
    this.packet({ type: PacketType.CONNECT, data: { sid: this.id, pid: this.pid } });
  }

  _onclose(recoverable) {
    if (!this.connected) return;
    const { adapter } = this.nsp;
    if (recoverable) adapter.persistSession({ sid: this.id, pid: this.pid, rooms: [...(adapter.sids.get(this.id) ?? [])], data: this.data });
    this._cleanup();
    this.connected = false;
  }

  _cleanup() {
    this.nsp.adapter.delAll(this.id);
    this.nsp.sockets.delete(this.id);
    this.join = () => {};
  }
}

class Server {
  constructor(names, middleware = (socket, next) => next()) {
    this.nsps = new Map(names.map((name) => [name, { name, sockets: new Map() }]));
    this.middleware = middleware;
    this.sockets = new WebSocketServer({ port: 0, host: "127.0.0.1" });
    this.sockets.on("connection", (ws) => this.#client(ws));
  }

  adapter(create) {
    for (const nsp of this.nsps.values()) nsp.adapter = new create(nsp);
  }

  async url() {
    if (!this.sockets.address()) await once(this.sockets, "listening");
    return `ws://127.0.0.1:${this.sockets.address().port}`;
  }

  close(done) {
    for (const nsp of this.nsps.values()) {
      for (const socket of nsp.sockets.values()) socket._onclose(true);
      nsp.adapter.close();
    }
    for (const ws of this.sockets.clients) ws.terminate();
    this.sockets.close(done);
  }

  #client(ws) {
    const client = {
      open: true,
      write: (parts) => {
        for (const part of parts) if (client.open) ws.send(typeof part === "string" ? `4${part}` : part);
      },
    };
    const mine = new Map();
    const decoder = new Decoder();
    decoder.on("decoded", async ({ type, nsp: name, data }) => {
      const nsp = this.nsps.get(name);
      if (type === PacketType.CONNECT) {
        const asks = typeof data?.pid === "string" && typeof data?.offset === "string";
        const session = asks ? await nsp.adapter.restoreSession(data.pid, data.offset).catch(() => undefined) : undefined;
        const socket = new Socket(nsp, client, session);
        this.middleware(socket, (refused) =>
          process.nextTick(() => {
            if (!client.open) return socket._cleanup();
            if (refused) {
              socket._cleanup();
              return socket.packet({ type: PacketType.CONNECT_ERROR, data: { message: refused.message } });
            }
            nsp.sockets.set(socket.id, socket);
            mine.set(name, socket);
            socket._onconnect();
          }),
        );
      } else if (type === PacketType.DISCONNECT) {
        mine.get(name)?._onclose(false);
        mine.delete(name);
      } else if (type === PacketType.EVENT && data[0] === "join") mine.get(name)?.join(data[1]);
      else if (type === PacketType.EVENT && data[0] === "leave") mine.get(name)?.leave(data[1]);
      else if (type === PacketType.EVENT && data[0] === "say") {
        mine.get(name)?.nsp.adapter.broadcast({ type: PacketType.EVENT, data: data.slice(2) }, { rooms: new Set([data[1]]), except: new Set() });
      }
    });
    ws.send(`0${JSON.stringify({ sid: identifier(), upgrades: [], pingInterval: 25000, pingTimeout: 20000, maxPayload: 1e6 })}`);
    ws.on("message", (bytes, binary) => {
      if (!binary && bytes[0] === 0x34) decoder.add(bytes.toString().slice(1));
    });
    ws.on("close", () => {
      client.open = false;
      for (const socket of mine.values()) socket._onclose(true);
    });
  }
}

module.exports = { Server };
