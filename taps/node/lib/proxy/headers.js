"use strict";

// What a proxy may pass on of a message's head (RFC 9110, section 7.6.1), with names and order kept.

const HOP_BY_HOP = new Set([
  "connection",
  "keep-alive",
  "proxy-authenticate",
  "proxy-authorization",
  "proxy-connection",
  "te",
  "trailer",
  "transfer-encoding",
  "upgrade",
]);

/** `[name, value]` of what is to go on. */
function endToEnd(message, leaveOut = []) {
  const out = new Set(HOP_BY_HOP);
  for (const name of (message.headers.connection ?? "").split(",")) out.add(name.trim().toLowerCase());
  for (const name of leaveOut) out.add(name);
  const pairs = [];
  const raw = message.rawHeaders;
  for (let i = 0; i < raw.length; i += 2) if (!out.has(raw[i].toLowerCase())) pairs.push([raw[i], raw[i + 1]]);
  return pairs;
}

// a header that stands several times has a list
function grouped(pairs) {
  const byName = new Map();
  for (const [name, value] of pairs) {
    const key = name.toLowerCase();
    const known = byName.get(key);
    if (known === undefined) byName.set(key, [name, value]);
    else known[1] = [].concat(known[1], value);
  }
  return Object.fromEntries(byName.values());
}

/** The headers of a request as the node gets them. */
function forwarded(req, leaveOut) {
  const headers = grouped(endToEnd(req, ["x-forwarded-for", "expect", ...(leaveOut ?? [])]));
  const before = req.headers["x-forwarded-for"];
  const from = req.socket.remoteAddress ?? "unknown";
  headers["X-Forwarded-For"] = before ? `${before}, ${from}` : from;
  if (!req.headers["x-forwarded-proto"]) headers["X-Forwarded-Proto"] = req.socket.encrypted ? "https" : "http";
  if (!req.headers["x-forwarded-host"] && req.headers.host) headers["X-Forwarded-Host"] = req.headers.host;
  return headers;
}

/** The headers of an answer as the client gets them. */
const answered = (res, leaveOut) => grouped(endToEnd(res, leaveOut));

module.exports = { answered, endToEnd, forwarded };
