"use strict";

// As much of Engine.IO 4 and Socket.IO 5 packets as a recording needs.

const HEAD = /^4(?:([02])|5(\d{1,2})-)/;
const LAST = /[[,][ \t\n\r]*("(?:[^"\\]|\\.)*")[ \t\n\r]*\][ \t\n\r]*$/;
const TAIL = 512; // an offset has at most 64 bytes, each of which JSON may write with 6

/** The namespace of a Socket.IO packet, and what stands after it, from a place in its text. */
function namespaceAt(text, from) {
  if (text[from] !== "/") return { nsp: "/", at: from };
  const comma = text.indexOf(",", from);
  return comma === -1 ? { nsp: text.slice(from), at: text.length } : { nsp: text.slice(from, comma), at: comma + 1 };
}

/**
 * A CONNECT, of the client or the server.
 *
 * @returns {{ nsp: string, pid?: string, offset?: string } | undefined}
 */
function connectOf(text) {
  if (!text.startsWith("40")) return undefined;
  const { nsp, at } = namespaceAt(text, 2);
  let data;
  try {
    data = at < text.length ? JSON.parse(text.slice(at)) : undefined;
  } catch {
    return undefined;
  }
  const made = { nsp };
  if (typeof data?.pid === "string") made.pid = data.pid;
  if (typeof data?.offset === "string") made.offset = data.offset;
  return made;
}

/**
 * An event without acknowledgement whose last argument is a text, as an offset is.
 *
 * @returns {{ nsp: string, offset: string, attachments: number } | undefined}
 */
function frameOf(text) {
  const head = HEAD.exec(text);
  if (head === null || head[1] === "0") return undefined;
  const { nsp, at } = namespaceAt(text, head[0].length);
  if (text[at] !== "[") return undefined; // an id, or no packet
  const last = LAST.exec(text.length > TAIL ? text.slice(-TAIL) : text);
  if (last === null) return undefined;
  try {
    return { nsp, offset: JSON.parse(last[1]), attachments: Number(head[2] ?? 0) };
  } catch {
    return undefined;
  }
}

/** How many binary messages belong to a packet, with an acknowledgement id or without. */
function attachmentsOf(text) {
  const head = /^4[56](\d{1,2})-/.exec(text);
  return head === null ? 0 : Number(head[1]);
}

module.exports = { attachmentsOf, connectOf, frameOf };
