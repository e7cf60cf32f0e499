"use strict";

// STAND-IN of a MessagePack writer: enough for what the adapter's stand-in stores.

const head = (type, size, bytes) => {
  const buffer = Buffer.alloc(1 + bytes);
  buffer[0] = type;
  buffer.writeUIntBE(size, 1, bytes);
  return buffer;
};

function pack(value) {
  if (value === null || value === undefined) return Buffer.from([0xc0]);
  if (typeof value === "boolean") return Buffer.from([value ? 0xc3 : 0xc2]);
  if (Number.isInteger(value) && value >= 0 && value < 0x1_0000_0000) return value < 128 ? Buffer.from([value]) : head(0xce, value, 4);
  if (typeof value === "number") {
    const buffer = Buffer.alloc(9, 0xcb);
    buffer.writeDoubleBE(value, 1);
    return buffer;
  }
  if (typeof value === "string") return Buffer.concat([head(0xdb, Buffer.byteLength(value), 4), Buffer.from(value)]);
  if (ArrayBuffer.isView(value)) return Buffer.concat([head(0xc6, value.byteLength, 4), value]);
  if (Array.isArray(value)) return Buffer.concat([head(0xdd, value.length, 4), ...value.map(pack)]);
  const members = Object.entries(value);
  return Buffer.concat([head(0xdf, members.length, 4), ...members.flatMap(([name, it]) => [pack(name), pack(it)])]);
}

module.exports = { pack };
