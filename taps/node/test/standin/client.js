"use strict";

// STAND-IN of socket.io-client 4.7's Manager and Socket and of its engine, restated from memory of the order of what they
// do; over node-ws alone. Nothing here is upstream's code.

const WebSocket = require("ws");
const { Emitter } = require("@socket.io/component-emitter");
const { Decoder, Encoder, PacketType } = require("socket.io-parser");

const TYPES = ["open", "close", "ping", "pong", "message", "upgrade", "noop"];

class Engine extends Emitter {
  constructor(url) {
    super();
    this.readyState = "opening";
    this.ws = new WebSocket(url);
    this.ws.on("message", (bytes, binary) => this.onPacket(binary ? { type: "message", data: bytes } : { type: TYPES[bytes[0] - 0x30], data: bytes.toString().slice(1) }));
    this.ws.on("error", () => {});
    this.ws.on("close", () => {
      if (this.readyState === "closed") return;
      this.readyState = "closed";
      this.emit("close", "transport close");
    });
  }

  onPacket(packet) {
    this.emit("packet", packet);
    if (packet.type === "open") {
      this.readyState = "open";
      this.emit("open");
    } else if (packet.type === "ping") this.sendPacket("pong");
    else if (packet.type === "message") this.emit("data", packet.data);
  }

  write(data) {
    this.sendPacket("message", data);
  }

  sendPacket(type, data) {
    if (this.readyState !== "open") return;
    this.emit("packetCreate", { type, data });
    this.ws.send(typeof data === "string" || data === undefined ? `${TYPES.indexOf(type)}${data ?? ""}` : data);
  }

  close() {
    this.ws.close();
  }
}

class Manager extends Emitter {
  constructor(url) {
    super();
    this.url = url;
    this.nsps = {};
  }

  socket(nsp) {
    return (this.nsps[nsp] ??= new Socket(this, nsp));
  }

  open() {
    this.engine = new Engine(this.url);
    this.engine.on("open", () => {
      this.decoder = new Decoder();
      this.emit("open");
      this.engine.on("data", (data) => this.decoder.add(data));
      this.engine.on("close", () => this.emit("close"));
      this.decoder.on("decoded", (packet) => this.emit("packet", packet));
    });
  }

  _packet(packet) {
    for (const part of new Encoder().encode(packet)) this.engine.write(part);
  }
}

class Socket extends Emitter {
  constructor(io, nsp) {
    super();
    this.io = io;
    this.nsp = nsp;
    this.got = [];
  }

  get active() {
    return this.subs !== undefined;
  }

  connect() {
    if (!this.subs) {
      this.subs = true;
      this.io.on("open", () => this.onopen());
      this.io.on("packet", (packet) => this.onpacket(packet));
    }
    if (this.io.engine === undefined) this.io.open();
    else if (this.io.engine.readyState === "open") this.onopen();
    return this;
  }

  onopen() {
    this.io._packet({ type: PacketType.CONNECT, nsp: this.nsp, data: this.pid ? { pid: this.pid, offset: this.offset } : undefined });
  }

  onpacket({ type, nsp, data }) {
    if (nsp !== this.nsp) return;
    if (type === PacketType.CONNECT) {
      this.recovered = this.pid !== undefined && this.pid === data.pid;
      this.id = data.sid;
      this.pid = data.pid;
      this.emit("connect");
    } else if (type === PacketType.CONNECT_ERROR) this.emit("connect_error", data);
    else if (type === PacketType.EVENT || type === PacketType.BINARY_EVENT) {
      this.got.push(data);
      if (this.pid && typeof data.at(-1) === "string") this.offset = data.at(-1);
      this.emit("event");
    }
  }

  send(...data) {
    this.io._packet({ type: PacketType.EVENT, nsp: this.nsp, data });
  }

  disconnect() {
    this.io._packet({ type: PacketType.DISCONNECT, nsp: this.nsp });
  }
}

module.exports = { Manager };
