"use strict";

const { isUtf8 } = require("node:buffer");
const { brotliDecompressSync, gunzipSync, inflateSync } = require("node:zlib");
const { Injector } = require("./inject");

const SEPARATOR = "\x1e";
const SID = /"sid\\*"\s*:\s*\\*"([^"\\]{1,128})/; // in JSON, and in JSON within a text of JavaScript

/** One connection of Engine.IO, over polling, WebSocket, or the one and then the other, as the journal has it. */
class Connection {
  /** @param {import("./proxy").Proxy} proxy */
  constructor(proxy, node, via) {
    this.proxy = proxy;
    this.node = node;
    this.via = via;
    this.at = proxy.journal.now(); // of the handshake
    this.number = 0; // in the journal, from its first record on
    this.sid = undefined;
    this.count = 0; // its `in` and `inb` records
    this.acked = 0; // how many of them the client has surely taken
    this.over = false; // nothing is recorded any more
    this.ended = false; // nobody comes back to it
    this.injector = undefined;
    this.users = 0; // requests and sockets
    this.touched = this.at;
    this.body = undefined; // the last body of a GET: how many records there were after it, and whether it went out whole
  }

  /** A packet of the server, a text or bytes, where no faults are injected: it goes on as it is. */
  record(packet) {
    if (this.over) return;
    if (typeof packet === "string") {
      if (this.number === 0) {
        this.#begin(packet);
        if (this.over) return;
      }
      this.proxy.journal.put(`{"k":"in","c":${this.number},"t":${JSON.stringify(this.#hidden(packet))}}`);
    } else {
      if (this.number === 0) this.#begin(undefined);
      const base64 = packet.toString("base64");
      this.#put(`"inb","c":${this.number},"b":"${this.proxy.redactor?.attachment(base64) ?? base64}"`);
    }
    this.count++;
    this.proxy.counts.frames++;
  }

  /** The same where faults may be: what goes on to the client, a list of `{ text }` and `{ bytes }`. */
  disturbed(packet) {
    if (this.number === 0) this.#begin(packet.text);
    this.injector ??= new Injector(this.proxy.faults, this.proxy.seed, this.number);
    const { packets, note, cut } = this.injector.push(packet);
    if (note) this.#put(`"note","c":${this.number},"inject":"${note.kind}","t":${JSON.stringify(this.#hidden(note.text))}`);
    for (const it of packets) this.record(it.text ?? it.bytes);
    return { packets, cut };
  }

  /** A body of a GET with status 200: what goes on, undefined where the connection is to be cut. */
  body200(bytes, headers) {
    const why = unreadable(bytes, headers);
    if (why !== undefined) {
      this.gap(why, plain(bytes, headers));
      return bytes;
    }
    const disturbed = this.proxy.faults.length > 0;
    const on = [];
    for (const text of bytes.toString("utf8").split(SEPARATOR)) {
      if (disturbed) {
        const { packets, cut } = this.disturbed({ text });
        for (const packet of packets) on.push(packet.text);
        if (cut) return undefined;
      } else this.record(text);
      if (text === "1") this.lost();
    }
    if (!disturbed) return bytes;
    return Buffer.from(on.length ? on.join(SEPARATOR) : "6"); // an empty body is no answer: a noop
  }

  /** A packet of the client: CONNECT and DISCONNECT alone are kept. */
  fromClient(text) {
    if (this.over || !(text.startsWith("40") || text.startsWith("41"))) return;
    if (this.number === 0) this.#begin(undefined);
    this.#put(`"out","c":${this.number},"t":${JSON.stringify(this.#hidden(text))}`);
  }

  /** A body of a POST. */
  posted(bytes) {
    if (this.over) return;
    if (!isUtf8(bytes)) {
      this.gap("a body of the client isn't UTF-8");
      return;
    }
    for (const text of bytes.toString("utf8").split(SEPARATOR)) {
      this.fromClient(text);
      if (text === "1") this.lost();
    }
  }

  ack(count) {
    if (this.over || count <= this.acked || count > this.count) return;
    this.acked = count;
    this.#put(`"ack","c":${this.number},"n":${count}`);
  }

  lost() {
    this.ended = true;
    if (this.over) return;
    this.over = true;
    if (this.number !== 0) this.#put(`"lost","c":${this.number}`);
  }

  /**
   * Tells that from here on the connection isn't recorded; its requests go to its node all the same.
   *
   * @param {string} why
   * @param {string} [first] what the server sent first, where that is it
   */
  gap(why, first) {
    if (this.over) return;
    if (this.number === 0) this.#begin(first, false);
    this.#put(`"gap","c":${this.number},"why":${JSON.stringify(why)}`);
    this.over = true;
    this.proxy.counts.gaps++;
  }

  // what came first tells the id, also where it isn't read
  #begin(first, read = true) {
    this.number = ++this.proxy.counts.connections;
    this.sid = SID.exec(first ?? "")?.[1];
    if (this.sid !== undefined) this.proxy.connections.set(this.sid, this);
    const eio = this.sid === undefined ? "" : (this.proxy.redactor?.hash(this.sid) ?? this.sid);
    this.#put(`"conn","c":${this.number},"at":${this.at},"eio":${JSON.stringify(eio)},"via":"${this.via}"`);
    if (read && first !== undefined && (this.sid === undefined || !first.startsWith("0{"))) this.gap("the server's first packet isn't that of Engine.IO 4");
  }

  #put(fields) {
    this.proxy.journal.put(`{"k":${fields}}`);
  }

  #hidden(text) {
    return this.proxy.redactor === undefined ? text : this.proxy.redactor.message(text);
  }
}

function unreadable(bytes, headers) {
  const encoding = headers["content-encoding"];
  if (encoding !== undefined && encoding !== "identity") return `a body came compressed (${encoding}), though it wasn't asked to`;
  if (/javascript/.test(headers["content-type"] ?? "")) return "polling by JSONP isn't read";
  if (!isUtf8(bytes)) return "a body isn't UTF-8";
  return undefined;
}

/** A body's text, as far as its session's id can be found in it. */
function plain(bytes, headers) {
  const decompress = { gzip: gunzipSync, deflate: inflateSync, br: brotliDecompressSync }[headers["content-encoding"]];
  try {
    return (decompress === undefined ? bytes : decompress(bytes, { maxOutputLength: 1 << 20 })).toString("latin1");
  } catch {
    return "";
  }
}

module.exports = { Connection, plain };
