"use strict";

const assert = require("node:assert/strict");
const { execFile, spawn } = require("node:child_process");
const { once } = require("node:events");
const fs = require("node:fs");
const path = require("node:path");
const { test } = require("node:test");
const { promisify } = require("node:util");
const { Tap, TapError, recordOf, tapStream } = require("..");
const { directory, records, sleep, startRedis, until } = require("./helpers");
const { publish } = require("./standin/adapter");

const PROGRAM = path.join(__dirname, "../bin/sioaudit-stream-tap.js");
const ev = (word, rooms = ["r"]) => ({ data: { packet: { type: 2, data: ["hi", word], nsp: "/" }, opts: { rooms, except: [] } } });
const failsWith = (code) => (error) => error instanceof TapError && error.code === code;

// taps until it is asked to end; gives the promise, the tap's file and the way to end it
function begin(redis, key, dir, options = {}) {
  const ending = new AbortController();
  const tap = new Tap({ name: "st", of: "stream", dir, resume: options.resume });
  const done = tapStream({ redis, key, tap, signal: ending.signal, block: 50, ...options });
  done.catch(() => {});
  return { tap, done, file: tap.file, end: () => (ending.abort(), done) };
}

test("entries as the adapter writes them", async (t) => {
  const redis = await (await startRedis(t)).connect();
  const dir = directory(t);
  const tapping = begin(redis, "s", dir); // the stream isn't there yet
  await sleep(100);
  const offs = [];
  const put = async (entry) => offs.push(await publish(redis, "s", entry));
  await put(ev("é\u2028\"", ["r", 7]));
  await put({ nsp: "/chat", data: { packet: { type: 2, data: ["b", Buffer.from([0, 255]), { deep: [Buffer.from("x")], date: "d" }], nsp: "/chat" }, opts: { rooms: [], except: ["q"], flags: {} } } });
  await put({ ...ev("volatile"), data: { ...ev("v").data, opts: { rooms: [], except: [], flags: { volatile: true } } } });
  await put({ data: { packet: { type: 2, data: ["ack"], id: 3 }, opts: { rooms: [], except: [] } } });
  await put({ data: { ...ev("with ack").data, requestId: "x" } });
  await put({ type: "2" }); // a heartbeat
  offs.push(await redis.xAdd("s", "*", { uid: "u", type: "3", nsp: "/", data: "no MessagePack" }));
  offs.push(await redis.xAdd("s", "*", { other: "thing" }));
  const told = [];
  const second = begin(redis, "s", directory(t), { onUndecoded: (off) => told.push(off) });
  const { entries, last, undecoded } = await tapping.end();
  assert.deepEqual({ entries, last, undecoded }, { entries: 8, last: offs[7], undecoded: 1 });
  assert.deepEqual(records(tapping.file), [
    { k: "tap", v: 1, of: "stream" },
    { k: "ev", off: offs[0], nsp: "/", rooms: ["r", "7"], text: `2["hi","é\u2028\\"","${offs[0]}"]` },
    {
      k: "ev", off: offs[1], nsp: "/chat", except: ["q"], bin: ["AP8=", "eA=="],
      text: `52-/chat,["b",{"_placeholder":true,"num":0},{"deep":[{"_placeholder":true,"num":1}],"date":"d"},"${offs[1]}"]`,
    },
    ...offs.slice(2).map((off) => ({ k: "other", off })),
  ]);
  await second.end();
  assert.equal(fs.readFileSync(second.file, "utf8"), fs.readFileSync(tapping.file, "utf8"));
  assert.deepEqual(told, [offs[6]]);
});

test("a decoder of one's own, and a packet that is left as it was", () => {
  const packet = { type: 2, data: ["hi"] };
  const record = recordOf("1-0", { type: "3", nsp: "/", data: "!" }, (message) => ({ packet, opts: { rooms: new Set([message.data]), except: new Set() } }));
  assert.deepEqual(record, { k: "ev", off: "1-0", nsp: "/", rooms: ["!"], except: [], text: '2["hi","1-0"]', bin: [] });
  assert.deepEqual(packet, { type: 2, data: ["hi"] });
});

test("many entries, that go on being added while it ends", async (t) => {
  const redis = await (await startRedis(t)).connect();
  await Promise.all(Array.from({ length: 1000 }, (_, i) => publish(redis, "s", ev(i))));
  const tapping = begin(redis, "s", directory(t), { count: 64 });
  let adding = true;
  const adder = (async () => {
    for (let i = 0; adding; i++) await publish(redis, "s", ev(`more ${i}`));
  })();
  await until(() => tapping.tap.records >= 1100, "1,100 entries");
  const newest = (await redis.xInfoStream("s")).lastGeneratedId;
  const { entries } = await tapping.end();
  adding = false;
  await adder;
  const read = records(tapping.file).slice(1).map((it) => it.off);
  assert.equal(read.length, entries);
  assert.ok(read.includes(newest));
  assert.deepEqual(read, (await redis.xRange("s", "-", "+")).map((it) => it.id).slice(0, entries));
});

test("goes on after its last entry", async (t) => {
  const redis = await (await startRedis(t)).connect();
  const dir = directory(t);
  for (let i = 0; i < 5; i++) await publish(redis, "s", ev(i));
  const first = begin(redis, "s", dir);
  await first.end();
  first.tap.end();
  for (let i = 0; i < 5; i++) await publish(redis, "s", ev(i));
  fs.truncateSync(first.file, fs.statSync(first.file).size - 3); // as if it had been killed
  const second = begin(redis, "s", dir, { resume: true });
  assert.equal((await second.end()).entries, 6);
  assert.deepEqual(records(first.file).slice(1).map((it) => it.off), (await redis.xRange("s", "-", "+")).map((it) => it.id));
  const [, third] = await redis.xRange("s", "-", "+");
  const from = begin(redis, "s", directory(t), { from: third.id });
  assert.equal((await from.end()).entries, 8);
});

test("entries that were trimmed before they were read end the tap", async (t) => {
  const redis = await (await startRedis(t)).connect();
  const dir = directory(t);
  const offs = [];
  for (let i = 0; i < 10; i++) offs.push(await publish(redis, "s", ev(i)));
  await redis.xTrim("s", "MAXLEN", 7); // before it begins: these are none of its own
  const tapping = begin(redis, "s", dir);
  await until(() => tapping.tap.records === 7, "7 entries");
  for (let i = 10; i < 15; i++) offs.push(await publish(redis, "s", ev(i)));
  await until(() => tapping.tap.records === 12, "12 entries");
  await redis.xTrim("s", "MAXLEN", 0); // what it has read
  await sleep(120);
  for (let i = 15; i < 20; i++) offs.push(await publish(redis, "s", ev(i)));
  await until(() => tapping.tap.records === 17, "17 entries");
  await redis.multi().xAdd("s", "*", { a: "1" }).xAdd("s", "*", { a: "2" }).xAdd("s", "*", { a: "3" }).xTrim("s", "MAXLEN", 1).exec();
  await assert.rejects(tapping.done, (error) => failsWith("Trimmed")(error) && error.message.startsWith(`entries trimmed before they were read: 2, after ${offs[19]};`));
  assert.equal(tapping.tap.ended, true);
  assert.deepEqual(records(tapping.file).slice(1).map((it) => it.off), offs.slice(3));
  // and where all of them were
  const other = begin(redis, "s", directory(t));
  await until(() => other.tap.records === 1, "an entry");
  await redis.multi().xAdd("s", "*", { a: "1" }).xTrim("s", "MAXLEN", 0).exec();
  await assert.rejects(other.end(), failsWith("Trimmed"));
});

test("a tap whose last entry was trimmed can't go on, unless nothing followed", async (t) => {
  const redis = await (await startRedis(t)).connect();
  const dir = directory(t);
  for (let i = 0; i < 3; i++) await publish(redis, "s", ev(i));
  const first = begin(redis, "s", dir);
  await first.end();
  first.tap.end();
  await redis.xTrim("s", "MAXLEN", 0);
  const second = begin(redis, "s", dir, { resume: true });
  assert.equal((await second.end()).entries, 0);
  second.tap.end();
  await redis.multi().xAdd("s", "*", { a: "1" }).xAdd("s", "*", { a: "2" }).xTrim("s", "MAXLEN", 1).exec();
  const third = begin(redis, "s", dir, { resume: true });
  await assert.rejects(third.done, failsWith("Trimmed"));
});

test("a key that is no stream, and a tap that is no stream's", async (t) => {
  const redis = await (await startRedis(t)).connect();
  await redis.set("s", "text");
  await assert.rejects(begin(redis, "s", directory(t)).done, /WRONGTYPE/);
  const tap = new Tap({ name: "a", of: "node", dir: directory(t) });
  await assert.rejects(tapStream({ redis, tap }), failsWith("UnknownKind"));
});

test("what a callback throws ends it", async (t) => {
  const redis = await (await startRedis(t)).connect();
  await redis.xAdd("s", "*", { uid: "u", type: "3", nsp: "/", data: "no MessagePack" });
  const onUndecoded = () => {
    throw new RangeError("enough");
  };
  await assert.rejects(begin(redis, "s", directory(t), { onUndecoded }).done, RangeError);
});

test("goes on when Redis is back, and ends when it isn't", async (t) => {
  const server = await startRedis(t);
  const redis = await server.connect();
  await publish(redis, "s", ev(1));
  const tapping = begin(redis, "s", directory(t), { patience: 300 });
  await until(() => tapping.tap.records === 1, "an entry");
  await server.stop();
  await sleep(200);
  const again = await startRedis(t, { socket: server.socket });
  await publish(await again.connect(), "s", ev(2));
  await until(() => tapping.tap.records === 2, "another entry");
  await again.stop();
  await assert.rejects(tapping.end(), failsWith("Redis"));
});

test("the program", async (t) => {
  const server = await startRedis(t);
  const redis = await server.connect();
  const dir = directory(t);
  const out = path.join(dir, "st.tap");
  const run = (...words) => {
    const child = spawn(process.execPath, [PROGRAM, ...words], { stdio: ["ignore", "pipe", "pipe"] });
    let said = "";
    for (const stream of [child.stdout, child.stderr]) stream.on("data", (bytes) => (said += bytes));
    t.after(() => child.kill("SIGKILL"));
    return { child, said: () => said, status: once(child, "close").then(([code]) => code) };
  };
  await publish(redis, "k", ev(1));
  const first = run("--redis", `unix:${server.socket}`, "--key", "k", "--out", out);
  await until(() => fs.existsSync(out) && records(out).length === 2, "an entry");
  await publish(redis, "k", ev(2));
  first.child.kill("SIGTERM");
  assert.equal(await first.status, 0, first.said());
  assert.match(first.said(), /reading k into .*st\.tap\n.*2 entries, the last is \d+-\d+\n$/);
  assert.equal(records(out).length, 3);

  const refused = run("--redis", `unix:${server.socket}`, "--key", "k", "--out", out);
  assert.equal(await refused.status, 1);
  assert.match(refused.said(), /Exists: .*is there already/);

  await publish(redis, "k", ev(3));
  const resumed = run("--redis", `unix://${server.socket}`, "--key", "k", "--out", out, "--resume");
  await until(() => records(out).length === 4, "a third entry");
  resumed.child.kill("SIGINT");
  assert.equal(await resumed.status, 0, resumed.said());

  const key = path.join(dir, "key");
  fs.writeFileSync(key, "0123456789abcdef\n");
  const redacted = run("--redis", `unix:${server.socket}`, "--key", "k", "--out", path.join(dir, "s2.tap"), "--name", "s2", "--redact", key);
  await until(() => fs.existsSync(path.join(dir, "s2.tap")) && records(path.join(dir, "s2.tap")).length === 4, "three entries");
  await redis.multi().xAdd("k", "*", { a: "1" }).xAdd("k", "*", { a: "2" }).xTrim("k", "MAXLEN", 1).exec();
  assert.equal(await redacted.status, 1, redacted.said());
  assert.match(redacted.said(), /Trimmed: entries trimmed before they were read: 1, after/);
  assert.doesNotMatch(fs.readFileSync(path.join(dir, "s2.tap"), "utf8"), /hi|"r"/);
});

test("the program's words", async (t) => {
  const run = promisify(execFile);
  const dir = directory(t);
  const node = (...words) => run(process.execPath, [PROGRAM, ...words]).catch((error) => error);
  assert.match((await node("--help")).stdout, /^Usage: sioaudit-stream-tap --out FILE/);
  assert.equal((await node("--version")).stdout, `${require("../package.json").version}\n`);
  for (const words of [[], ["--out"], ["--no"], ["word", "--out", "f"]]) assert.equal((await node(...words)).code, 2, words.join(" "));
  const gone = await node("--redis", `unix:${dir}/none`, "--out", path.join(dir, "st.tap"));
  assert.equal(gone.code, 1);
  assert.match(gone.stderr, /Redis: .*ENOENT/);
  assert.equal(fs.existsSync(path.join(dir, "st.tap")), false);
});
