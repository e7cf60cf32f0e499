"use strict";

// What README.md and docs/TAPPING.md show is run as it stands there, on the stand-ins.

const assert = require("node:assert/strict");
const { spawn } = require("node:child_process");
const { once } = require("node:events");
const fs = require("node:fs");
const path = require("node:path");
const readline = require("node:readline");
const { test } = require("node:test");
const vm = require("node:vm");
const { ROOT, audit, directory, noProgram, program, records, sleep, startRedis, until } = require("./helpers");
const { createAdapter, publish } = require("./standin/adapter");
const { Manager } = require("./standin/client");
const { Server } = require("./standin/server");

const PAGES = ["taps/node/README.md", "docs/TAPPING.md"];
const blocks = (page, language) => {
  const text = fs.readFileSync(path.join(ROOT, page), "utf8");
  return [...text.matchAll(new RegExp(`^\`\`\`(\\w*)\n(.*?)^\`\`\``, "gms"))].filter(([, it]) => it === language).map(([, , block]) => block);
};

// runs a block with these names, its taps in `dir`
function run(block, dir, names) {
  const all = { require: (name) => (name === "sioaudit-taps" ? require("..") : require(name)), ...names };
  new Function(...Object.keys(all), block.replaceAll('"taps"', JSON.stringify(dir)))(...Object.values(all));
}

// a stream with its tap, and a node with its own as a page shows it; `end` ends them in their order
async function cluster(t, page, dir) {
  const [block] = blocks(page, "js");
  const server = await startRedis(t);
  const redis = await server.connect();
  const tap = spawn(process.execPath, [path.join(__dirname, "../bin/sioaudit-stream-tap.js"), "--redis", `unix:${server.socket}`, "--out", path.join(dir, "st.tap")], { stdio: "ignore" });
  t.after(() => tap.kill("SIGKILL"));
  await until(() => fs.existsSync(path.join(dir, "st.tap")), "the stream's tap");
  const io = new Server(["/"]);
  t.after(() => io.close());
  let stop;
  const ended = new Promise((resolve) => {
    const handler = { once: (signal, stops) => (stop = stops), exit: resolve };
    run(block, dir, { createAdapter: () => createAdapter(redis, { streamName: "socket.io" }), redis, io, process: handler });
  });
  const end = async () => {
    stop();
    await ended;
    tap.kill("SIGTERM");
    const [status] = await once(tap, "exit");
    assert.equal(status, 0);
  };
  const say = (i) => publish(redis, "socket.io", { data: { packet: { type: 2, data: ["hi", i], nsp: "/" }, opts: { rooms: [], except: [] } } });
  return { url: await io.url(), say, end };
}

for (const page of PAGES) {
  test(`the first bundle of ${page}`, { skip: noProgram }, async (t) => {
    const dir = directory(t);
    const { url, say, end } = await cluster(t, page, dir);
    let made;
    class Kept extends Manager {
      constructor(...words) {
        super(...words);
        made = this;
      }
    }
    run(blocks(page, "js")[1], dir, { Manager: Kept, url });
    await until(() => made.nsps["/"].id !== undefined, "a connection");
    for (let i = 0; i < 5; i++) await say(i);
    await until(() => made.nsps["/"].got.length === 5, "events");
    made.engine.close();
    await sleep(50);
    await end();
    assert.deepEqual(fs.readdirSync(dir).map((it) => it.replace(/^a\.[0-9a-z]+/, "a.boot")).sort(), ["a.boot.tap", "c1.tap", "st.tap"]);
    assert.equal(records(path.join(dir, "st.tap")).length, 6);
    assert.deepEqual(audit(dir, "audit", "--whole"), [`yes ${made.nsps["/"].pid} got=5 tail=0 turns=1`, "sessions=1 yes=1 no=0"]);
  });
}

test("the first bundle by a proxy of docs/TAPPING.md", { skip: noProgram }, async (t) => {
  const shown = blocks("docs/TAPPING.md", "");
  const [begin, end] = ["sioaudit-proxy --journal", "sioaudit-join"].map((word) => shown.find((it) => it.startsWith(word)));
  const dir = directory(t);
  for (const it of ["bin", "taps"]) fs.mkdirSync(path.join(dir, it));
  for (const it of ["sioaudit-proxy", "sioaudit-join"]) fs.symlinkSync(path.join(__dirname, `../bin/${it}.js`), path.join(dir, "bin", it));
  fs.symlinkSync(path.resolve(program()), path.join(dir, "bin/sioaudit"));
  const nodes = await cluster(t, "docs/TAPPING.md", path.join(dir, "taps"));
  const started = begin.replace("127.0.0.1:8080", "127.0.0.1:0").replaceAll(/http:\/\/127\.0\.0\.1:300\d/g, nodes.url.replace("ws", "http"));
  const script = `${started}\nread\nkill %1; wait\necho ended\nread\n${end}`;
  const shell = spawn("bash", ["-c", script], { cwd: dir, env: { ...process.env, PATH: `${dir}/bin:${process.env.PATH}` }, stdio: ["pipe", "pipe", "ignore"], detached: true });
  t.after(() => shell.exitCode ?? process.kill(-shell.pid, "SIGKILL")); // with what it started
  const lines = readline.createInterface({ input: shell.stdout })[Symbol.asyncIterator]();
  const next = async () => (await lines.next()).value;
  const [, address] = /^listening on http:(.*)$/.exec(await next());
  const manager = new Manager(`ws:${address}/socket.io/?EIO=4&transport=websocket`);
  const socket = manager.socket("/").connect();
  await until(() => socket.id !== undefined, "a connection");
  for (let i = 0; i < 5; i++) await nodes.say(i);
  await until(() => socket.got.length === 5, "events");
  manager.engine.close();
  await sleep(50);
  shell.stdin.write("\n");
  assert.equal(await next(), "ended");
  await nodes.end();
  shell.stdin.write("\n");
  assert.equal(await next(), "journals=1 connections=1 clients=1 nobody=0 sessions=1 left-out=0");
  assert.match(await next(), / gaps=0$/);
  assert.deepEqual([await next(), await next()], [`yes ${socket.pid} got=5 tail=0 turns=1`, "sessions=1 yes=1 no=0"]);
});

test("each block is one of a module system", () => {
  for (const block of PAGES.flatMap((page) => blocks(page, "js"))) {
    const module = /^import /m.test(block);
    const body = module ? block.replace(/^import .*$/gm, "") : block;
    new vm.Script(`(${module ? "async " : ""}() => {\n${body}\n})`); // throws where it can't be parsed
    for (const [, names] of block.matchAll(/\{ ([\w, ]+) \} (?:= require\(|from )"sioaudit-taps"/g)) {
      for (const name of names.split(", ")) assert.ok(name in require(".."), name);
    }
  }
});
