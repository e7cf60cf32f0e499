"use strict";

const { spawn, spawnSync } = require("node:child_process");
const { once } = require("node:events");
const fs = require("node:fs");
const os = require("node:os");
const path = require("node:path");
const { createClient } = require("redis");

const ROOT = path.join(__dirname, "../../..");

/** A directory that is gone after the test. */
function directory(t) {
  const dir = fs.mkdtempSync(path.join(os.tmpdir(), "sioaudit-taps-"));
  t.after(() => fs.rmSync(dir, { recursive: true, force: true }));
  return dir;
}

/** A redis-server of the test's own, on a Unix socket; gives a way to make clients of it. */
async function startRedis(t, { socket } = {}) {
  const at = socket ?? path.join(directory(t), "redis.sock");
  const server = spawn("redis-server", ["--port", "0", "--unixsocket", at, "--save", "", "--appendonly", "no"], { stdio: "ignore" });
  const clients = [];
  const stop = async () => {
    if (server.exitCode !== null || server.signalCode !== null) return;
    server.kill();
    await once(server, "exit");
  };
  t.after(async () => {
    for (const client of clients) if (client.isOpen) await client.disconnect();
    await stop();
  });
  await until(() => fs.existsSync(at), "redis-server");
  const connect = async () => {
    const client = createClient({ socket: { path: at } });
    client.on("error", () => {});
    clients.push(client);
    await client.connect();
    return client;
  };
  return { socket: at, connect, stop };
}

async function until(holds, what, patience = 60_000) {
  for (const end = Date.now() + patience; !(await holds()); await sleep(5)) {
    if (Date.now() > end) throw new Error(`it took too long: ${what}`);
  }
}

const sleep = (ms) => new Promise((resolve) => setTimeout(resolve, ms));

let found;

/** The path of the auditor, `SIOAUDIT` or else the one that ./sioaudit runs; undefined where there is none. */
function program() {
  if (found === undefined) {
    const tool = path.join(ROOT, "tools/program");
    found = process.env.SIOAUDIT || (fs.existsSync(tool) && spawnSync(tool, { encoding: "utf8" }).stdout.trim()) || null;
  }
  return found ?? undefined;
}

const noProgram = program() === undefined ? "there is no auditor: set SIOAUDIT to its path" : false;

/** What the auditor answers on the taps of a directory. */
function audit(dir, ...words) {
  const taps = fs.readdirSync(dir).filter((it) => it.endsWith(".tap")).sort();
  const input = Buffer.concat(taps.map((it) => fs.readFileSync(path.join(dir, it))));
  const { stdout, stderr } = spawnSync(program(), words.length > 0 ? words : ["audit"], { input, encoding: "utf8", maxBuffer: 1 << 26 });
  return (stdout + stderr).trimEnd().split("\n");
}

/** The records of a tap's file, its header first; it may be at work, so only whole lines count. */
function records(file) {
  const whole = fs.readFileSync(file, "utf8").split("\n").slice(0, -1);
  return whole.map((line) => JSON.parse(line.slice(line.indexOf(" ") + 1)));
}

module.exports = { ROOT, audit, directory, noProgram, program, records, sleep, startRedis, until };
