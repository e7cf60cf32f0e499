"use strict";

// Clients' taps of the journals of all proxies.
//
// A client is what keeps a pid: the connections that any pid joins, asked or given in any namespace, over all journals, in
// the order of their handshakes. What the proxy sent last, and the client can't have taken (it came back and asked for what
// is before it), is left out. Two passes over the journals, with memory by connection and by what isn't acknowledged.

const fs = require("node:fs");
const path = require("node:path");
const { TapError } = require("../errors");
const { connectOf, frameOf } = require("../proxy/packets");
const { LIMITS } = require("../records");
const { redactorOf } = require("../redact");
const { Lines } = require("./lines");
const { Writer } = require("./writer");

const DIGITS = /^\{"k":"inb","c":(\d+),/;

/** A connection as the first pass finds it. */
class Found {
  constructor(journal, number, at) {
    this.journal = journal;
    this.number = number;
    this.at = at;
    this.pids = []; // asked and given
    this.asks = new Map(); // by namespace: the offset in its first CONNECT there, null without one
    this.count = 0;
    this.acked = 0;
    this.tail = []; // its frames that aren't acknowledged: { nsp, offset, from, to }, by the numbers of their records
    this.missing = 0; // attachments of the last of them that haven't come
    this.client = undefined;
    this.place = 0; // among its client's connections
    this.leftOut = undefined; // numbers of records: [from, to] of each frame that is trimmed
  }

  record(text) {
    this.count++;
    if (text === undefined || text.startsWith("b")) {
      if (this.missing > 0) {
        this.missing--;
        this.tail.at(-1).to = this.count;
      }
      return;
    }
    const frame = frameOf(text);
    if (frame === undefined) return;
    this.tail.push({ nsp: frame.nsp, offset: frame.offset, from: this.count, to: this.count });
    this.missing = frame.attachments;
  }

  ack(count) {
    if (!(count > this.acked)) return;
    this.acked = count;
    const { tail } = this;
    const last = tail.at(-1);
    let taken = 0;
    while (taken < tail.length && tail[taken].to <= count && !(tail[taken] === last && this.missing > 0)) taken++;
    if (taken > 0) this.tail = tail.slice(taken);
  }

  pid(pid) {
    if (pid !== undefined && !this.pids.includes(pid)) this.pids.push(pid);
  }
}

/** The lines of a journal, each with the time at which it was written. */
class Journal {
  constructor(file) {
    this.file = file;
    this.lines = new Lines(file);
    this.time = 0;
    this.ended = false;
    const header = this.next();
    if (header?.k !== "proxy") throw new TapError("Header", `${file} is no journal of sioaudit-proxy`);
    if (header.v !== 1) throw new TapError("Version", `${file}: version ${header.v} isn't known`);
    if (typeof header.id !== "string") throw new TapError("Header", `${file}: the header has no id`);
    this.id = header.id;
    this.redacted = header.redacted === true;
  }

  /** The next line but those of the time; undefined at the end. */
  next() {
    for (;;) {
      const line = this.lines.next();
      if (line === undefined) return undefined;
      // most bytes are in attachments, of which the first pass needs nothing
      const inb = DIGITS.exec(line.length > 64 ? line.slice(0, 64) : line);
      if (inb !== null) return { k: "inb", c: Number(inb[1]), line };
      let record;
      try {
        record = JSON.parse(line);
      } catch {
        throw new TapError("NotJson", `${this.file}: line ${this.lines.number} is no JSON`);
      }
      if (record?.k === "at") this.time = Math.max(this.time, record.at);
      else if (record?.k === "end") this.ended = true;
      else return record;
    }
  }

  close() {
    this.lines.close();
  }
}

/**
 * Makes the taps. The report tells what was found.
 *
 * @param {import("./index").JoinOptions} options
 * @returns {import("./index").JoinReport}
 */
function join({ journals: files, into, nodes = [], onlyTapped = false, redact: given, prefix = "c", trimming = true }) {
  if (files.length === 0) throw new TypeError("no journal is given");
  const redact = redactorOf(given);
  const report = {
    journals: files.length,
    connections: 0,
    clients: 0,
    nobody: 0,
    packets: 0,
    trimmed: 0,
    overlapped: 0,
    sessions: 0,
    leftOut: 0,
    gaps: [],
    notes: 0,
    warnings: [],
  };
  const found = firstPass(files, redact, report);
  const clients = clientsOf(found, report);
  if (trimming) trim(clients);
  if (clients.length > 4096) report.warnings.push(`${clients.length} clients: a bundle has at most 4096 taps of clients`);
  const targets = nodes.map((file) => path.join(into, path.basename(file)));
  fs.mkdirSync(into, { recursive: true });
  const writer = new Writer(into, [...clients.map((_, i) => `${prefix}${i + 1}.tap`), ...targets.map((it) => path.basename(it))]);
  try {
    const tapped = secondPass(files, found, clients, { redact, prefix, writer, report });
    report.sessions = tapped.size;
    const names = new Set(clients.map((_, i) => `${prefix}${i + 1}`));
    const left = new Set();
    for (const file of nodes) passNodes(file, { names, tapped: onlyTapped ? tapped : undefined, left, redact, writer });
    report.leftOut = left.size;
    writer.end();
  } catch (error) {
    writer.abandon();
    throw error;
  }
  return report;
}

function firstPass(files, redact, report) {
  const found = [];
  const ids = new Map();
  for (const file of files) {
    const journal = new Journal(file);
    try {
      if (ids.has(journal.id)) throw new TapError("Twice", `${file} is the journal of ${ids.get(journal.id)} again`);
      if (redact && journal.redacted) throw new TapError("Redacted", `${file} is redacted already: give no --redact, here and for the nodes' taps`);
      ids.set(journal.id, file);
      const connections = new Map();
      for (let record; (record = journal.next()) !== undefined; ) look(record, journal, connections, report);
      if (!journal.ended) {
        const half = journal.lines.half ? ", in the middle of a line" : "";
        report.warnings.push(`${file} has no end${half}: its proxy was killed, or could not write`);
      }
      found.push(connections);
    } finally {
      journal.close();
    }
  }
  return found;
}

function look(record, journal, connections, report) {
  if (record.k === "conn") {
    connections.set(record.c, new Found(journal.id, record.c, record.at));
    return;
  }
  if (record.k === "note") report.notes++;
  const connection = connections.get(record.c);
  if (connection === undefined) return;
  if (record.k === "inb") connection.record(undefined);
  else if (record.k === "ack") connection.ack(record.n);
  else if (record.k === "in") {
    connection.record(record.t);
    connection.pid(connectOf(record.t)?.pid);
  } else if (record.k === "out") {
    const connect = connectOf(record.t);
    if (connect === undefined) return;
    connection.pid(connect.pid);
    if (!connection.asks.has(connect.nsp)) connection.asks.set(connect.nsp, connect.offset ?? null);
  }
}

// the clients, by their first handshakes, each a list of connections
function clientsOf(found, report) {
  const all = found.flatMap((connections) => [...connections.values()]);
  report.connections = all.length;
  all.sort((a, b) => a.at - b.at || (a.journal < b.journal ? -1 : a.journal > b.journal ? 1 : a.number - b.number));
  const parents = all.map((_, i) => i);
  const root = (i) => {
    let at = i;
    while (parents[at] !== at) at = parents[at] = parents[parents[at]];
    return at;
  };
  const owner = new Map();
  all.forEach((connection, i) => {
    for (const pid of connection.pids) {
      const other = owner.get(pid);
      if (other === undefined) owner.set(pid, i);
      else {
        const [a, b] = [root(other), root(i)];
        parents[Math.max(a, b)] = Math.min(a, b);
      }
    }
  });
  const byRoot = new Map();
  all.forEach((connection, i) => {
    if (connection.pids.length === 0) {
      report.nobody++;
      return;
    }
    const at = root(i);
    if (!byRoot.has(at)) byRoot.set(at, []);
    byRoot.get(at).push(connection);
  });
  const clients = [...byRoot.values()];
  clients.forEach((connections, client) => {
    connections.forEach((connection, place) => Object.assign(connection, { client, place }));
  });
  report.clients = clients.length;
  return clients;
}

// What isn't acknowledged goes where the client's next CONNECT in that namespace asks with an offset before it.
function trim(clients) {
  for (const connections of clients) {
    const next = new Map();
    for (const connection of [...connections].reverse()) {
      const { tail } = connection;
      const places = new Map(); // by namespace: where the asked event stands in the tail
      tail.forEach((it, i) => {
        if (it.offset === next.get(it.nsp)) places.set(it.nsp, i);
      });
      const gone = tail.filter((it, i) => typeof next.get(it.nsp) === "string" && i > (places.get(it.nsp) ?? -1));
      if (gone.length > 0) connection.leftOut = gone.map((it) => [it.from, it.to]);
      connection.tail = undefined;
      for (const [nsp, offset] of connection.asks) next.set(nsp, offset);
    }
  }
}

// The journals again, all together by the time of their lines.
function secondPass(files, found, clients, { redact, prefix, writer, report }) {
  const states = clients.map((connections, i) => ({
    name: `${prefix}${i + 1}`,
    file: `${prefix}${i + 1}.tap`,
    connections,
    place: -1, // the connection that stands
    records: 0,
    ended: false,
  }));
  for (const state of states) writer.line(state.file, `${state.name} {"k":"tap","v":1,"of":"client"}`);
  const tapped = new Set();

  const end = (state, connection, why) => {
    state.ended = true;
    report.gaps.push({ client: state.name, connection: connection.number, proxy: connection.journal, why });
  };
  const write = (state, connection, record) => {
    const line = `${state.name} ${JSON.stringify(redact ? redact.record(record) : record)}`;
    if (line.length * 3 > LIMITS.line && Buffer.byteLength(line) > LIMITS.line) return end(state, connection, `a packet is longer than a line of ${LIMITS.line} bytes`);
    if (++state.records > LIMITS.records) return end(state, connection, `a tap has at most ${LIMITS.records} records`);
    writer.line(state.file, line);
    return undefined;
  };

  const take = (record, journal, connections) => {
    const connection = connections.get(record.c);
    if (connection === undefined) return;
    if (record.k === "in" || record.k === "inb") connection.seen = (connection.seen ?? 0) + 1;
    if (connection.client === undefined) {
      if (record.k === "gap") report.gaps.push({ client: null, connection: connection.number, proxy: connection.journal, why: record.why });
      return;
    }
    const state = states[connection.client];
    if (state.ended) return;
    // what comes on a connection after its client's next handshake
    const next = state.connections[connection.place + 1];
    if (connection.place < state.place || (next !== undefined && journal.time > next.at && record.k !== "conn")) {
      if (record.k === "in" || record.k === "inb") report.overlapped++;
      return;
    }
    switch (record.k) {
      case "conn":
        state.place = connection.place;
        write(state, connection, { k: "conn", c: connection.place + 1 });
        break;
      case "in":
      case "inb": {
        if (isLeftOut(connection, record.k === "inb" || record.t.startsWith("b"))) {
          report.trimmed += connection.leftOut[connection.left][0] === connection.seen ? 1 : 0;
          return;
        }
        const made = record.k === "in" ? { k: "in", t: record.t } : { k: "inb", b: JSON.parse(record.line).b };
        report.packets++;
        write(state, connection, made);
        if (record.k === "in" && !state.ended) {
          const pid = connectOf(record.t)?.pid;
          if (pid !== undefined) tapped.add(pid);
        }
        break;
      }
      case "out":
        write(state, connection, { k: "out", t: record.t });
        break;
      case "lost":
        write(state, connection, { k: "lost" });
        break;
      case "gap":
        end(state, connection, record.why);
        break;
      default:
    }
  };

  const open = files.map((file, i) => {
    const journal = new Journal(file);
    return { journal, connections: found[i], record: journal.next() };
  });
  try {
    for (;;) {
      let first;
      for (const it of open) if (it.record !== undefined && (first === undefined || it.journal.time < first.journal.time)) first = it;
      if (first === undefined) break;
      // all that this journal has up to the time of the next one
      const others = Math.min(...open.filter((it) => it !== first && it.record !== undefined).map((it) => it.journal.time));
      do {
        take(first.record, first.journal, first.connections);
        first.record = first.journal.next();
      } while (first.record !== undefined && first.journal.time <= others);
    }
  } finally {
    for (const { journal } of open) journal.close();
  }
  return tapped;
}

// Whether the record that is just seen is of a frame that is trimmed; they come in their order. Between a frame and its
// attachments others may stand.
function isLeftOut(connection, attachment) {
  const { leftOut, seen } = connection;
  if (leftOut === undefined) return false;
  connection.left ??= 0;
  while (connection.left < leftOut.length && leftOut[connection.left][1] < seen) connection.left++;
  if (connection.left === leftOut.length) return false;
  const [from] = leftOut[connection.left];
  return seen === from || (seen > from && attachment);
}

// The taps of nodes, without the records of sessions that no client's tap has; the stream's goes through.
function passNodes(file, { names, tapped, left, redact, writer }) {
  const target = path.basename(file);
  const lines = new Lines(file);
  try {
    for (let line; (line = lines.next()) !== undefined; ) {
      if (line === "") continue;
      const blank = line.indexOf(" ");
      const name = line.slice(0, blank);
      let record;
      try {
        record = JSON.parse(line.slice(blank + 1));
      } catch {
        throw new TapError("NotJson", `${file}: line ${lines.number} is no record of a tap`);
      }
      if (blank < 1 || record === null || typeof record !== "object") throw new TapError("NotJson", `${file}: line ${lines.number} is no record of a tap`);
      if (names.has(name)) throw new TapError("Name", `${file}: the name ${name} is that of a client's tap: give another --prefix`);
      if (tapped !== undefined && typeof record.pid === "string" && !tapped.has(record.pid)) {
        left.add(record.pid);
        continue;
      }
      writer.line(target, redact ? `${name} ${JSON.stringify(redact.record(record))}` : line);
    }
  } finally {
    lines.close();
  }
}

module.exports = { join };
