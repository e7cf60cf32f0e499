"use strict";

// Redaction (taps/REDACTION.md): pids, sids, rooms and what events say are replaced by keyed hashes, alike in all taps, so
// that the verdicts are the same.

const { createHmac } = require("node:crypto");
const fs = require("node:fs");
const { TapError } = require("./errors");
const { isBase64 } = require("./records");
const json = require("./json");

const KEY = 16; // bytes at least
const KEPT = 4096; // hashes of short texts: a pid or room stands in many records
const EVENT = /^[25]/;
const CONNECT = /^0/;
const STAY = new Set(["pid", "sid", "offset"]); // names of a CONNECT's payload
const IDENTIFIER = /^[\x21-\x7e]{1,128}$/;

/**
 * The key in a file: its bytes without a last newline.
 *
 * @param {string} file
 */
function readKey(file) {
  let key;
  try {
    key = fs.readFileSync(file);
  } catch (error) {
    throw new TapError("Key", `the key ${file} can't be read: ${error.message}`, { cause: error });
  }
  return key.at(-1) === 0x0a ? key.subarray(0, -1) : key;
}

/** @param {Uint8Array} key */
function redactor(key) {
  if (!(key instanceof Uint8Array)) throw new TapError("Key", "the key of a redaction is bytes");
  if (key.length < KEY) throw new TapError("Key", `the key of a redaction has ${key.length} bytes, at least ${KEY} are needed`);
  return new Redactor(key);
}

/**
 * What `redact` is given as: a key, or what was made of one.
 *
 * @param {Uint8Array | import("./index").Redactor | undefined} redact
 */
function redactorOf(redact) {
  if (redact === undefined) return undefined;
  return redact !== null && typeof redact === "object" && "record" in redact ? redact : redactor(redact);
}

class Redactor {
  #key;
  #known = new Map();

  constructor(key) {
    this.#key = Buffer.from(key);
  }

  /** What stands for a text: as long as it, but 8 to 32 hexadecimal digits. */
  hash(text) {
    const known = this.#known.get(text);
    if (known !== undefined) return known;
    const length = Math.min(Math.max(8, codePoints(text, 32)), 32);
    const hash = createHmac("sha256", this.#key).update(text, "utf8").digest("hex").slice(0, length);
    if (text.length <= 128) {
      if (this.#known.size === KEPT) this.#known.clear();
      this.#known.set(text, hash);
    }
    return hash;
  }

  /** What stands for an attachment, both in base64. */
  attachment(base64) {
    const bytes = Buffer.from(base64, "base64");
    const hash = createHmac("sha256", this.#key).update(bytes).digest();
    return hash.subarray(0, Math.min(bytes.length, 32)).toString("base64");
  }

  /** What stands for the text of a Socket.IO packet. */
  packet(text) {
    const packet = split(text);
    if (packet === undefined) return this.#noPacket(text);
    const { front, payload, rest } = packet;
    if (payload === undefined) return text;
    // texts are replaced where they stand, and all else stays as it is, so that what differs still does
    let made = front;
    let at = 0;
    for (const { from, to, by } of this.#changes(front, payload, rest)) {
      made += `${rest.slice(at, from)}"${by}"`;
      at = to;
    }
    return made + rest.slice(at);
  }

  /** What stands for the text of an Engine.IO packet. */
  message(text) {
    if (text.startsWith("4")) return `4${this.packet(text.slice(1))}`;
    if (text.startsWith("b")) return isBase64(text.slice(1)) ? `b${this.attachment(text.slice(1))}` : this.#noPacket(text);
    if (!/^[0-6]/.test(text)) return this.#noPacket(text);
    return text.length === 1 ? text : `${text[0]}["${this.hash(text.slice(1))}"]`; // it is read past, whatever it says
  }

  /** What stands for a record, whole and of any tap. */
  record(record) {
    const made = { ...record };
    for (const name of ["pid", "sid", "room"]) if (made[name] !== undefined) made[name] = this.hash(made[name]);
    for (const name of ["rooms", "except"]) if (made[name] !== undefined) made[name] = made[name].map((it) => this.hash(it));
    if (made.text !== undefined) made.text = this.packet(made.text);
    if (made.bin !== undefined) made.bin = made.bin.map((it) => this.attachment(it));
    if (made.k === "poll") made.t = made.t.split("\x1e").map((it) => this.message(it)).join("\x1e");
    else if (made.t !== undefined) made.t = this.message(made.t);
    if (made.b !== undefined) made.b = this.attachment(made.b);
    return made;
  }

  *#changes(front, payload, rest) {
    if (EVENT.test(front)) {
      // the last argument is the offset
      const last = payload.items.length - 1;
      for (const [i, it] of payload.items.entries()) if (i !== last || it.text === undefined) yield* this.#all(it, rest);
    } else if (CONNECT.test(front) && payload.members !== undefined) {
      for (const [name, it] of payload.members) {
        if (!STAY.has(name.text)) yield this.#one(name, rest);
        if (it.text === undefined || !STAY.has(name.text)) yield* this.#all(it, rest);
        else if (name.text !== "offset") yield { ...it, by: this.hash(it.text) + (IDENTIFIER.test(it.text) ? "" : " ") };
      }
    } else yield* this.#all(payload, rest);
  }

  // each text in it, at any depth
  *#all(node, rest) {
    if (node.text !== undefined) yield this.#one(node, rest);
    for (const it of node.items ?? []) yield* this.#all(it, rest);
    if (node.members === undefined || isPlaceholder(node)) return;
    for (const [name, it] of node.members) {
      yield this.#one(name, rest);
      yield* this.#all(it, rest);
    }
  }

  // a text that is written in another way than it needs to be stays another one
  #one({ text, from, to }, rest) {
    const token = rest.slice(from, to);
    return { from, to, by: this.hash(token === JSON.stringify(text) ? text : token) };
  }

  // of what is no packet comes no packet
  #noPacket(text) {
    return `${/^[0-9]*/.exec(text)[0]}["${this.hash(text)}`;
  }
}

function isPlaceholder({ members }) {
  const has = (wanted, token) => members.some(([name, it]) => name.text === wanted && token.test(it.token ?? ""));
  return members.length === 2 && has("_placeholder", /^true$/) && has("num", /^[-0-9]/);
}

// up to `most`
function codePoints(text, most) {
  let count = 0;
  for (const _ of text) if (++count === most) break;
  return count;
}

// The front of a packet's text (docs/FORMAT.md) and its payload, undefined where it has none; undefined where it is no packet.
function split(text) {
  const front = /^(?:[0-4]|[56](\d{1,2})-)(\/[^,]*,?)?(\d*)/.exec(text);
  if (front === null || Number(front[1] ?? 0) > 64 || front[3].length > 18) return undefined;
  const rest = text.slice(front[0].length);
  const array = /^[2356]/.test(text);
  if (rest === "") return array ? undefined : { front: front[0] };
  const payload = json.parse(rest);
  if (payload === undefined || (array && payload.items === undefined)) return undefined;
  return { front: front[0], payload, rest };
}

module.exports = { readKey, redactor, redactorOf };
