"use strict";

// A reader of MessagePack, for the entries that the Redis Streams adapter writes where an event has attachments.
//
// It is here, and not a dependency, since it is small, since each adapter's packer (notepack.io, @msgpack/msgpack) has
// its own way with dates and `undefined`, which a reader of one of them doesn't know of the other, and since a tap must
// not fail where a newer packer is used. All types of the specification are read; of the extensions these:
//
//   -1 (timestamp)  a Date: by @msgpack/msgpack, and by notepack.io from version 3 on
//    0, one byte    undefined: by notepack.io
//    0, eight bytes a Date, as a 64-bit count of milliseconds: by notepack.io
//
// 64-bit whole numbers become numbers, rounded past 2^53, as both of those readers have it: the nodes send what
// they read so.

class Reader {
  constructor(bytes) {
    this.bytes = bytes;
    this.view = new DataView(bytes.buffer, bytes.byteOffset, bytes.byteLength);
    this.at = 0;
  }

  // moves on by `count` bytes, and gives where they begin
  skip(count) {
    const from = this.at;
    if (count > this.bytes.length - from) throw new RangeError("MessagePack: the end is missing");
    this.at = from + count;
    return from;
  }

  uint(size) {
    const from = this.skip(size);
    if (size === 1) return this.view.getUint8(from);
    if (size === 2) return this.view.getUint16(from);
    if (size === 4) return this.view.getUint32(from);
    return Number(this.view.getBigUint64(from));
  }

  int(size) {
    const from = this.skip(size);
    if (size === 1) return this.view.getInt8(from);
    if (size === 2) return this.view.getInt16(from);
    if (size === 4) return this.view.getInt32(from);
    return Number(this.view.getBigInt64(from));
  }

  text(size) {
    const from = this.skip(size);
    return this.bytes.toString("utf8", from, this.at);
  }

  // a copy: what it was cut from may be large, and be kept by it
  blob(size) {
    const from = this.skip(size);
    return Buffer.from(this.bytes.subarray(from, this.at));
  }

  array(size, depth) {
    if (size > this.bytes.length - this.at) throw new RangeError("MessagePack: the end is missing");
    const items = new Array(size);
    for (let i = 0; i < size; i++) items[i] = this.value(depth + 1);
    return items;
  }

  map(size, depth) {
    const map = {};
    for (let i = 0; i < size; i++) {
      const key = this.value(depth + 1);
      if (typeof key !== "string" && typeof key !== "number") throw new TypeError("MessagePack: a key is no text");
      const value = this.value(depth + 1);
      if (key === "__proto__") Object.defineProperty(map, key, { value, enumerable: true, configurable: true, writable: true });
      else map[key] = value;
    }
    return map;
  }

  ext(size) {
    const type = this.int(1);
    const from = this.skip(size);
    if (type === -1) return this.timestamp(size, from);
    if (type === 0 && size === 1) return undefined;
    if (type === 0 && size === 8) return new Date(Number(this.view.getBigInt64(from)));
    throw new TypeError(`MessagePack: extension ${type} of ${size} bytes is unknown`);
  }

  timestamp(size, from) {
    if (size === 4) return new Date(this.view.getUint32(from) * 1000);
    if (size === 8) {
      const high = this.view.getUint32(from);
      const seconds = (high & 3) * 0x1_0000_0000 + this.view.getUint32(from + 4);
      return new Date(seconds * 1000 + Math.floor((high >>> 2) / 1e6));
    }
    if (size === 12) return new Date(Number(this.view.getBigInt64(from + 4)) * 1000 + Math.floor(this.view.getUint32(from) / 1e6));
    throw new TypeError(`MessagePack: a timestamp of ${size} bytes`);
  }

  value(depth) {
    if (depth > 512) throw new RangeError("MessagePack: nested past 512");
    const type = this.uint(1);
    if (type < 0x80) return type;
    if (type < 0x90) return this.map(type & 0x0f, depth);
    if (type < 0xa0) return this.array(type & 0x0f, depth);
    if (type < 0xc0) return this.text(type & 0x1f);
    if (type >= 0xe0) return type - 0x100;
    switch (type) {
      case 0xc0: return null;
      case 0xc2: return false;
      case 0xc3: return true;
      case 0xc4: return this.blob(this.uint(1));
      case 0xc5: return this.blob(this.uint(2));
      case 0xc6: return this.blob(this.uint(4));
      case 0xc7: return this.ext(this.uint(1));
      case 0xc8: return this.ext(this.uint(2));
      case 0xc9: return this.ext(this.uint(4));
      case 0xca: return this.view.getFloat32(this.skip(4));
      case 0xcb: return this.view.getFloat64(this.skip(8));
      case 0xcc: return this.uint(1);
      case 0xcd: return this.uint(2);
      case 0xce: return this.uint(4);
      case 0xcf: return this.uint(8);
      case 0xd0: return this.int(1);
      case 0xd1: return this.int(2);
      case 0xd2: return this.int(4);
      case 0xd3: return this.int(8);
      case 0xd4: return this.ext(1);
      case 0xd5: return this.ext(2);
      case 0xd6: return this.ext(4);
      case 0xd7: return this.ext(8);
      case 0xd8: return this.ext(16);
      case 0xd9: return this.text(this.uint(1));
      case 0xda: return this.text(this.uint(2));
      case 0xdb: return this.text(this.uint(4));
      case 0xdc: return this.array(this.uint(2), depth);
      case 0xdd: return this.array(this.uint(4), depth);
      case 0xde: return this.map(this.uint(2), depth);
      case 0xdf: return this.map(this.uint(4), depth);
      default: throw new TypeError("MessagePack: 0xc1 is no type"); // the one byte that is left
    }
  }
}

/**
 * The value that the bytes spell, which has to be all that they spell.
 *
 * @param {Uint8Array} bytes
 */
function unpack(bytes) {
  const reader = new Reader(Buffer.isBuffer(bytes) ? bytes : Buffer.from(bytes.buffer, bytes.byteOffset, bytes.byteLength));
  const value = reader.value(0);
  if (reader.at !== reader.bytes.length) throw new RangeError("MessagePack: something follows the value");
  return value;
}

module.exports = { unpack };
