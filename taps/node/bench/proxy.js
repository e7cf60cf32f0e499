"use strict";

// How many frames a second go through one proxy, beside the direct way, in one run: a node and the clients in processes of
// their own, and the proxy in a third. The node and the clients are stand-ins that do as little as they can (frames made
// ready, and counted without being read), so that it is the proxy that is measured.
//
//   node bench/proxy.js [--clients 20] [--frames 200000] [--bytes 100] [--rounds 3]
//
// Each round measures the direct way, the proxy with acknowledgements, and the proxy without.

const { fork, spawn } = require("node:child_process");
const fs = require("node:fs");
const http = require("node:http");
const net = require("node:net");
const os = require("node:os");
const path = require("node:path");
const { once } = require("node:events");
const { parseArgs } = require("node:util");
const { WebSocketServer } = require("ws");

const { values } = parseArgs({
  options: {
    role: { type: "string" },
    clients: { type: "string", default: "20" },
    frames: { type: "string", default: "200000" },
    bytes: { type: "string", default: "100" },
    rounds: { type: "string", default: "3" },
  },
});
const [clients, frames, bytes, rounds] = [values.clients, values.frames, values.bytes, values.rounds].map(Number);
const BATCH = 64; // frames that the node writes at once

// the frame of a text that a server sends, or of a client's packet (masked with zeros)
function frame(opcode, payload, masked) {
  const body = Buffer.from(payload);
  const long = body.length > 125;
  const head = Buffer.from([0x80 | opcode, (masked ? 0x80 : 0) | (long ? 126 : body.length), ...(long ? [body.length >> 8, body.length & 255] : []), ...(masked ? [0, 0, 0, 0] : [])]);
  return Buffer.concat([head, body]);
}

// sends as quickly as the socket takes it, 64 frames that were made ready at once
function node() {
  const server = http.createServer();
  const sockets = new WebSocketServer({ noServer: true, perMessageDeflate: false });
  server.listen(0, "127.0.0.1", () => process.send(server.address().port));
  const one = frame(1, `42["m","${"x".repeat(bytes)}","1700000000000-0"]`, false);
  const many = Buffer.concat(Array(BATCH).fill(one));
  server.on("upgrade", (req, socket, head) => {
    sockets.handleUpgrade(req, socket, head, (side) => {
      side.send(`0{"sid":"${Math.random()}","upgrades":[],"pingInterval":25000,"pingTimeout":20000,"maxPayload":1000000}`);
      side.on("error", () => {});
      side.on("message", (data) => {
        const message = data.toString();
        if (message.startsWith("40")) side.send('40{"sid":"s","pid":"p"}');
        const [, count] = /^42\["go",(\d+)\]/.exec(message) ?? [];
        if (count === undefined) return;
        let left = Number(count);
        const more = () => {
          while (left > 0) {
            left -= BATCH;
            if (!socket.write(many)) return socket.once("drain", more);
          }
          return undefined;
        };
        more();
      });
    });
  });
  process.on("disconnect", () => process.exit());
}

// A connection that counts the frames that come, and answers pings; as little as that takes.
class Counter {
  constructor(socket) {
    this.socket = socket;
    this.got = 0;
    this.rest = Buffer.alloc(0);
    socket.on("data", (bytes) => this.take(bytes));
    socket.on("close", () => this.lost?.(new Error("closed")));
  }

  take(bytes) {
    let all = this.rest.length === 0 ? bytes : Buffer.concat([this.rest, bytes]);
    let at = 0;
    while (all.length - at >= 2) {
      const short = all[at + 1];
      const from = short === 126 ? 4 : short === 127 ? 10 : 2;
      if (all.length - at < from) break;
      const size = short === 126 ? all.readUInt16BE(at + 2) : short === 127 ? Number(all.readBigUInt64BE(at + 2)) : short;
      if (all.length - at < from + size) break;
      if ((all[at] & 15) === 9) this.socket.write(frame(10, all.subarray(at + from, at + from + size), true));
      else if (++this.got === this.want) this.done();
      at += from + size;
    }
    this.rest = all.subarray(at);
  }

  until(count) {
    return new Promise((resolve, reject) => {
      this.want = count;
      this.done = resolve;
      this.lost = reject;
      if (this.got >= count) resolve();
    });
  }
}

async function counter(url) {
  const { hostname, port } = new URL(url);
  const socket = net.connect(port, hostname);
  socket.setNoDelay();
  socket.write(`GET /socket.io/?EIO=4&transport=websocket HTTP/1.1\r\nHost: ${hostname}\r\nConnection: Upgrade\r\nUpgrade: websocket\r\nSec-WebSocket-Version: 13\r\nSec-WebSocket-Key: AAAAAAAAAAAAAAAAAAAAAA==\r\n\r\n`);
  const head = await new Promise((resolve, reject) => {
    let all = Buffer.alloc(0);
    const more = (bytes) => {
      all = Buffer.concat([all, bytes]);
      const end = all.indexOf("\r\n\r\n");
      if (end === -1) return;
      socket.off("data", more);
      resolve(all.subarray(end + 4));
    };
    socket.on("data", more);
    socket.on("error", reject);
  });
  const made = new Counter(socket);
  made.take(head);
  await made.until(1);
  socket.write(frame(1, "40", true));
  await made.until(2);
  return made;
}

// opens the connections, lets the frames come, and tells how long that took
function client() {
  process.on("disconnect", () => process.exit());
  process.on("message", async (url) => {
    const each = Math.ceil(frames / clients / BATCH) * BATCH;
    const counters = [];
    for (let i = 0; i < clients; i++) counters.push(await counter(url));
    const begun = process.hrtime.bigint();
    await Promise.all(
      counters.map((it) => {
        it.socket.write(frame(1, `42["go",${each}]`, true));
        return it.until(2 + each);
      }),
    );
    const seconds = Number(process.hrtime.bigint() - begun) / 1e9;
    for (const it of counters) it.socket.destroy();
    process.send({ frames: each * clients, seconds });
  });
  process.send("ready");
}

// CPU seconds that a process has used
function used(pid) {
  const fields = fs.readFileSync(`/proc/${pid}/stat`, "utf8").replace(/^.*\) /, "").split(" ");
  return (Number(fields[11]) + Number(fields[12])) / 100;
}

async function main() {
  const folder = fs.mkdtempSync(path.join(os.tmpdir(), "sioaudit-bench-"));
  const own = (role) => {
    const child = fork(__filename, ["--role", role, ...process.argv.slice(2)]);
    child.on("exit", (status) => status && process.exit(1));
    return child;
  };
  const server = own("node");
  const [port] = await once(server, "message");
  const direct = `http://127.0.0.1:${port}`;
  const drive = own("client");
  await once(drive, "message");
  const proxies = {};
  for (const [name, words] of [["proxy", []], ["proxy without acknowledgements", ["--no-ack"]]]) {
    const proxy = spawn(process.execPath, [path.join(__dirname, "../bin/sioaudit-proxy.js"), "--journal", path.join(folder, `${name}.jsonl`), ...words, direct], { stdio: ["ignore", "pipe", "inherit"] });
    const [line] = await once(proxy.stdout, "data");
    proxies[name] = { proxy, url: /http:\S+/.exec(line.toString())[0] };
  }
  const ways = { direct, ...Object.fromEntries(Object.entries(proxies).map(([name, { url }]) => [name, url])) };
  const figures = Object.fromEntries(Object.keys(ways).map((name) => [name, []]));
  const costs = Object.fromEntries(Object.keys(ways).map((name) => [name, []]));
  console.log(`${clients} clients, ${frames} frames of ${bytes} bytes and more, ${rounds} rounds; ${os.cpus()[0].model}, load ${os.loadavg()[0].toFixed(1)}`);
  for (let round = 0; round < rounds; round++) {
    for (const [name, url] of Object.entries(ways)) {
      const pid = proxies[name]?.proxy.pid;
      const before = pid && used(pid);
      drive.send(url);
      const [{ frames: got, seconds }] = await once(drive, "message");
      figures[name].push(got / seconds);
      if (pid) costs[name].push(((used(pid) - before) / got) * 1e6);
    }
  }
  for (const [name, list] of Object.entries(figures)) {
    const pid = proxies[name]?.proxy.pid;
    const cost = pid === undefined ? "" : `, ${costs[name].map((it) => it.toFixed(1)).join(", ")} µs of processor time a frame`;
    const memory = pid === undefined ? "" : `, ${/VmHWM:\s+(\d+)/.exec(fs.readFileSync(`/proc/${pid}/status`, "utf8"))[1] >> 10} MiB at most`;
    console.log(`${name}: ${list.map((it) => Math.round(it)).join(", ")} frames/s${cost}${memory}`);
  }
  for (const { proxy } of Object.values(proxies)) {
    proxy.kill("SIGTERM");
    await once(proxy, "exit");
  }
  server.disconnect();
  drive.disconnect();
  fs.rmSync(folder, { recursive: true });
}

if (values.role === "node") node();
else if (values.role === "client") client();
else main();
