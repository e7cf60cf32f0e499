"use strict";

const { setTimeout: sleep } = require("node:timers/promises");
const { Encoder } = require("socket.io-parser");
const { TapError } = require("./errors");
const { unpack } = require("./msgpack");

const BROADCAST = "3"; // MessageType.BROADCAST of socket.io-adapter
const EVENT = 2; // PacketType.EVENT of socket.io-parser
const BEGIN = "0-0";

/**
 * What an entry's `data` says, as the Redis Streams adapter writes it: JSON, or MessagePack in base64 where it has
 * attachments.
 *
 * @param {Record<string, string>} message
 */
function decode(message) {
  return message.data.startsWith("{") ? JSON.parse(message.data) : unpack(Buffer.from(message.data, "base64"));
}

const encoder = new Encoder();

/**
 * The record of an entry. Throws what `decode` throws.
 *
 * @param {string} off
 * @param {Record<string, string>} message
 * @param {(message: Record<string, string>) => any} [read]
 */
function recordOf(off, message, read = decode) {
  if (message.type !== BROADCAST || !message.nsp || !message.data) return { k: "other", off };
  const { packet, opts, requestId } = read(message);
  const recoverable =
    packet.type === EVENT && packet.id === undefined && requestId === undefined && opts.flags?.volatile === undefined;
  if (!recoverable) return { k: "other", off };
  // a packet of our own, since the encoder changes what it is given
  const [text, ...attachments] = encoder.encode({ type: EVENT, nsp: message.nsp, data: [...packet.data, off] });
  return {
    k: "ev",
    off,
    nsp: message.nsp,
    rooms: Array.from(opts.rooms ?? [], String),
    except: Array.from(opts.except ?? [], String),
    text,
    bin: attachments.map(toBase64),
  };
}

function toBase64(bytes) {
  const buffer = bytes instanceof ArrayBuffer ? Buffer.from(bytes) : Buffer.from(bytes.buffer, bytes.byteOffset, bytes.byteLength);
  return buffer.toString("base64");
}

/**
 * Writes each entry of a Redis stream into a tap, in the stream's order, until `signal` is aborted; then those that the
 * stream has by then, and no more.
 *
 * It begins after `from`; where that isn't given, after the tap's last entry, and in a new tap at the oldest entry that
 * the stream has. Connections to Redis that are lost are made again. Where entries were trimmed before they were read,
 * it rejects with a TapError `Trimmed`, and the tap ends before the hole.
 *
 * @param {import("./index").StreamOptions} options
 */
async function tapStream({ redis, key = "socket.io", tap, decode: read, signal, from, count = 200, block = 200, patience = 5000, onUndecoded }) {
  if (tap.of !== "stream") throw new TapError("UnknownKind", `the tap ${tap.name} is a ${tap.of}'s`);
  // of our own: a read that waits holds up what else is sent over its connection, and a command shall fail, not wait,
  // while there is none
  const client = redis.duplicate({ disableOfflineQueue: true });
  client.on("error", () => {}); // told by the commands that fail
  const place = new Place(from ?? tap.last ?? BEGIN);
  const done = { entries: 0, last: place.last === BEGIN ? null : place.last, undecoded: 0 };
  let goal; // the newest entry when it was asked to end
  let busy = true; // whether more entries are there for certain
  let since; // when it was asked to end

  const write = ({ id, message }) => {
    let record;
    try {
      record = recordOf(id, message, read);
    } catch (error) {
      done.undecoded++; // nodes pass it over as well
      onUndecoded?.(id, error);
      record = { k: "other", off: id };
    }
    if (!tap.write(record)) throw tap.error ?? new TapError("Ended", `the tap ${tap.name} has ended`);
    done.entries++;
    done.last = id;
  };

  // what Redis answers; a fault that will pass is told apart from all others
  const ask = async (question) => {
    try {
      return await question();
    } catch (error) {
      if (/no such key/.test(error.message) || error.replies?.some((it) => /no such key/.test(it?.message))) return undefined; // it is empty
      throw client.isOpen && !isReply(error) ? new Away(error) : error;
    }
  };

  // one turn: false where there is nothing more to do
  const turn = async () => {
    if (signal?.aborted) goal ??= infoOf(await ask(() => client.sendCommand(["XINFO", "STREAM", key])))?.newest ?? BEGIN;
    if (goal !== undefined && compare(place.last, goal) >= 0) return false;
    if (goal === undefined && !busy && !(await ask(() => client.xRead({ key, id: place.last }, { BLOCK: block, COUNT: 1 })))) return true;
    const both = client.multi();
    both.addCommand(["XINFO", "STREAM", key]);
    both.addCommand(["XRANGE", key, `(${place.last}`, "+", "COUNT", String(count)]);
    const answer = await ask(() => both.exec());
    const info = infoOf(answer?.[0]);
    const entries = entriesOf(answer?.[1] ?? []);
    place.look(info, tap);
    for (const entry of entries) {
      write(entry);
      place.passed(entry.id);
    }
    busy = entries.length === count;
    if (info && !busy) place.position = info.added;
    return entries.length > 0 || goal === undefined;
  };

  try {
    const stop = new AbortController();
    await Promise.race([client.connect(), refusedAfter(signal, patience, stop.signal)]).finally(() => stop.abort());
    for (;;) {
      try {
        if (!(await turn())) return done;
        since = undefined;
      } catch (error) {
        if (!(error instanceof Away)) throw error;
        if (signal?.aborted) since ??= Date.now();
        if (since !== undefined && Date.now() - since > patience) {
          throw new TapError("Redis", `the stream's end could not be read: ${error.message}`, { cause: error });
        }
        await sleep(100);
      }
    }
  } catch (error) {
    if (!tap.ended) tap.end(); // complete up to its end
    throw error;
  } finally {
    if (client.isOpen) await client.disconnect().catch(() => {});
  }
}

// Where the tap is in the stream. `position` is how many entries had been added to the stream up to the last one that
// was read, where that is known: in a tap that goes on it is so only once it has come to the stream's end.
class Place {
  constructor(last) {
    this.last = last;
    this.position = undefined;
    this.begun = last !== BEGIN;
  }

  // Looks for a hole, before what is read next: `info` is of the same moment. Where the oldest entry that is left is
  // not past the last one that was read, nothing after that was trimmed; where it is, it is the next one to be read, and
  // as many entries were trimmed as are missing from the count.
  look(info, tap) {
    if (!info || info.added === undefined) return; // Redis before 7 doesn't count
    const gone = info.added - info.length;
    if (this.begun && (info.oldest === undefined || compare(info.oldest, this.last) > 0)) {
      if (this.position === undefined && info.newest !== this.last) {
        throw new TapError("Trimmed", `the entry ${this.last} was trimmed, and what followed it may have been: the tap ${tap.name} can't go on`);
      }
      if (this.position < gone) {
        throw new TapError("Trimmed", `entries trimmed before they were read: ${gone - this.position}, after ${this.last}; the tap ${tap.name} ends there`);
      }
    }
    if (!this.begun) this.position = gone; // it begins at the oldest
  }

  passed(id) {
    this.last = id;
    this.begun = true;
    if (this.position !== undefined) this.position++;
  }
}

// the answer to XINFO STREAM, as a list (RESP 2) or a map (RESP 3); undefined where it is a fault
function infoOf(answer) {
  if (answer === undefined || answer === null || answer instanceof Error) return undefined;
  const map = Array.isArray(answer) ? new Map(answer.flatMap((it, i) => (i % 2 === 0 ? [[String(it), answer[i + 1]]] : []))) : new Map(Object.entries(answer));
  const added = map.get("entries-added");
  return {
    length: Number(map.get("length")),
    added: added === undefined ? undefined : Number(added),
    oldest: map.get("first-entry")?.[0],
    newest: map.get("last-generated-id"),
  };
}

function entriesOf(answer) {
  if (answer instanceof Error) throw answer;
  return answer.map(([id, fields]) => {
    const message = {};
    for (let i = 0; i < fields.length; i += 2) message[String(fields[i])] = String(fields[i + 1]);
    return { id: String(id), message };
  });
}

// Redis can't be asked at the moment
class Away extends Error {
  constructor(cause) {
    super(cause.message, { cause });
  }
}

// whether Redis answered, and not that it will do so in a moment
function isReply(error) {
  return /Reply$|^SimpleError$|^BlobError$/.test(error.constructor.name) && !/^(LOADING|TRYAGAIN|MASTERDOWN|CLUSTERDOWN)/.test(error.message);
}

// rejects once `signal` is aborted and `patience` milliseconds have passed
function refusedAfter(signal, patience, stop) {
  return new Promise((_, reject) => {
    const refuse = () => {
      const timer = setTimeout(() => reject(new TapError("Redis", "Redis could not be reached")), patience);
      stop.addEventListener("abort", () => clearTimeout(timer));
    };
    if (signal?.aborted) refuse();
    else signal?.addEventListener("abort", refuse, { once: true, signal: stop });
  });
}

// compares two ids of entries, `<milliseconds>-<number>` in decimal digits
function compare(a, b) {
  const [aTime, aNumber] = a.split("-");
  const [bTime, bNumber] = b.split("-");
  return digits(aTime, bTime) || digits(aNumber, bNumber);
}

function digits(a, b) {
  if (a.length !== b.length) return a.length - b.length;
  return a === b ? 0 : a < b ? -1 : 1;
}

module.exports = { compare, decode, infoOf, recordOf, tapStream };
