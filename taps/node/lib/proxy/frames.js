"use strict";

// The messages of one turn as one piece of bytes: frames of a server (RFC 6455, section 5.2), whole and without a mask.
// Sending each by itself costs more than all else that the proxy does with it.

const TEXT = 0x81;
const BINARY = 0x82;
const PING = 0x89;
const COPIED = 1 << 16; // a larger message isn't copied

function headSize(size) {
  return size < 126 ? 2 : size < 65536 ? 4 : 10;
}

function writeHead(bytes, at, opcode, size) {
  bytes[at] = opcode;
  if (size < 126) bytes[at + 1] = size;
  else if (size < 65536) {
    bytes[at + 1] = 126;
    bytes.writeUInt16BE(size, at + 2);
  } else {
    bytes[at + 1] = 127;
    bytes.writeUInt32BE(Math.floor(size / 2 ** 32), at + 2);
    bytes.writeUInt32BE(size >>> 0, at + 6);
  }
  return at + headSize(size);
}

/**
 * @param {[data: Buffer, binary: boolean][]} messages
 * @param {string} [ping] what a ping after them carries
 * @returns {Buffer[]}
 */
function encode(messages, ping) {
  const pieces = [];
  let from = 0;
  while (from < messages.length) {
    // a run of messages that are copied, or one that isn't
    let to = from;
    let size = 0;
    for (; to < messages.length && size < COPIED; to++) {
      const { length } = messages[to][0];
      if (length > COPIED) break;
      size += headSize(length) + length;
    }
    if (to > from) {
      const bytes = Buffer.allocUnsafe(size);
      let at = 0;
      for (; from < to; from++) {
        const [data, binary] = messages[from];
        at = writeHead(bytes, at, binary ? BINARY : TEXT, data.length);
        bytes.set(data, at);
        at += data.length;
      }
      pieces.push(bytes);
    } else {
      const [data, binary] = messages[from++];
      const head = Buffer.allocUnsafe(headSize(data.length));
      writeHead(head, 0, binary ? BINARY : TEXT, data.length);
      pieces.push(head, data);
    }
  }
  if (ping !== undefined) {
    const bytes = Buffer.allocUnsafe(2 + ping.length);
    bytes[0] = PING;
    bytes[1] = ping.length;
    bytes.write(ping, 2, "latin1");
    pieces.push(bytes);
  }
  return pieces;
}

module.exports = { encode };
