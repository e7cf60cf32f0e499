"use strict";

const { TapError } = require("./errors");
const { Tap } = require("./tap");

/**
 * Taps a client: all namespaces of socket.io-client's `manager`, over all its connections. To be called before a socket
 * of the manager connects, so that the tap hears of a connection first. Gives the tap, to be ended with the client.
 *
 * @param {any} manager
 * @param {import("./index").ClientOptions} options
 */
function tapClient(manager, { tap, dir, name, resume, redact, onError = (error) => process.emitWarning(error) }) {
  if (manager.engine?.readyState === "open" || Object.values(manager.nsps ?? {}).some((socket) => socket.active)) {
    throw new TapError("Late", "a socket of the manager connects already: make the manager, tap it, and then make its sockets");
  }
  const into = tap ?? new Tap({ name, of: "client", dir, resume, redact });
  if (into.of !== "client") throw new TapError("UnknownKind", `the tap ${into.name} is a ${into.of}'s`);

  // never throws: what a tap can't do is no matter of the client's
  const write = (record) => {
    try {
      into.write(record);
    } catch (error) {
      onError(error);
    }
  };

  manager.on("open", () => {
    const { engine } = manager;
    let open = true;
    write({ k: "conn", c: (into.connection ?? 0) + 1 });
    // the engine tells of a packet before it hands it on, and before it sends it, whatever carries it
    engine.on("packet", ({ type, data }) => {
      if (!open || type !== "message") return;
      if (typeof data === "string") write({ k: "in", t: `4${data}` });
      else write({ k: "inb", b: base64(data) });
    });
    engine.on("packetCreate", ({ type, data }) => {
      // CONNECT and DISCONNECT: no other packet of a client is looked at
      if (open && type === "message" && typeof data === "string" && /^[01]/.test(data)) write({ k: "out", t: `4${data}` });
    });
    engine.on("close", () => {
      if (!open) return;
      open = false;
      write({ k: "lost" });
    });
  });
  return into;
}

function base64(data) {
  const bytes = data instanceof ArrayBuffer ? Buffer.from(data) : Buffer.from(data.buffer, data.byteOffset, data.byteLength);
  return bytes.toString("base64");
}

module.exports = { tapClient };
