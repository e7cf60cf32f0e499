"use strict";

// Joining, on journals that are written by hand.

const assert = require("node:assert/strict");
const { spawnSync } = require("node:child_process");
const fs = require("node:fs");
const path = require("node:path");
const { test } = require("node:test");
const { join } = require("../lib/join");
const { connectOf, frameOf } = require("../lib/proxy/packets");
const { redactor } = require("../lib/redact");
const { directory } = require("./helpers");

const BIN = path.join(__dirname, "../bin/sioaudit-join.js");

// A journal: lines are records, or numbers, the time of what follows.
function journal(dir, id, lines, { end = true } = {}) {
  const file = path.join(dir, `${id}.journal`);
  const all = [{ k: "proxy", v: 1, id, started: "2026-01-01T00:00:00.000Z" }, ...lines.map((it) => (typeof it === "number" ? { k: "at", at: it } : it))];
  if (end) all.push({ k: "end" });
  fs.writeFileSync(file, all.map((it) => `${JSON.stringify(it)}\n`).join(""));
  return file;
}

const conn = (c, at) => ({ k: "conn", c, at, eio: `e${c}`, via: "websocket" });
const inn = (c, t) => ({ k: "in", c, t });
const out = (c, t) => ({ k: "out", c, t });
const ack = (c, n) => ({ k: "ack", c, n });
const lost = (c) => ({ k: "lost", c });
const asks = (c, pid, offset, nsp = "") => out(c, `40${nsp}${JSON.stringify({ pid, offset })}`);
const gives = (c, pid, nsp = "") => inn(c, `40${nsp}${JSON.stringify({ sid: `s-${pid}`, pid })}`);
const frame = (c, off, nsp = "") => inn(c, `42${nsp}["m","${off}"]`);

function joined(t, journals, options = {}) {
  const into = path.join(directory(t), "taps");
  const report = join({ journals, into, ...options });
  const taps = {};
  for (const name of fs.readdirSync(into)) {
    taps[name.replace(/\.tap$/, "")] = fs.readFileSync(path.join(into, name), "utf8").trimEnd().split("\n").map((line) => line.slice(line.indexOf(" ") + 1)).map((it) => JSON.parse(it));
  }
  return { report, taps, into };
}

const brief = (records) => records.slice(1).map((it) => (it.k === "conn" ? `conn ${it.c}` : it.k === "lost" ? "lost" : `${it.k} ${it.t ?? it.b}`));
const offsets = (records) => records.filter((it) => it.k === "in").map((it) => frameOf(it.t)?.offset).filter((it) => it !== undefined);

test("a client is the connections that any pid joins, whatever the first CONNECT says", (t) => {
  const dir = directory(t);
  const file = journal(dir, "a", [
    100,
    conn(1, 100), out(1, "40{}"), gives(1, "P"), out(1, "40/chat,{}"), gives(1, "Q", "/chat,"), lost(1),
    200,
    conn(2, 200), out(2, "40{}"), asks(2, "Q", "1-0", "/chat,"), gives(2, "R"), gives(2, "Q", "/chat,"), lost(2),
    300,
    conn(3, 300), out(3, "40{}"), gives(3, "X"), conn(4, 300), out(4, "40/no,"), inn(4, "44/no,{}"), conn(5, 301), asks(5, "R", "1-0"), lost(5),
  ]);
  const { report, taps } = joined(t, [file]);
  assert.deepEqual(Object.keys(taps).sort(), ["c1", "c2"]);
  assert.deepEqual(taps.c1[0], { k: "tap", v: 1, of: "client" });
  assert.deepEqual(brief(taps.c1).filter((it) => /^(conn|lost)/.test(it)), ["conn 1", "lost", "conn 2", "lost", "conn 3", "lost"]);
  assert.deepEqual(brief(taps.c2), ["conn 1", "out 40{}", 'in 40{"sid":"s-X","pid":"X"}']);
  assert.deepEqual([report.connections, report.clients, report.nobody, report.sessions], [5, 2, 1, 4]);
});

test("connections over several proxies stand in the order of their handshakes", (t) => {
  const dir = directory(t);
  const a = journal(dir, "a", [100, conn(1, 100), gives(1, "P"), 150, frame(1, "1-0"), 400, conn(2, 390), asks(2, "P", "2-0"), gives(2, "P"), lost(2)]);
  const b = journal(dir, "b", [200, conn(1, 190), asks(1, "P", "1-0"), gives(1, "P"), frame(1, "2-0"), 380, lost(1)]);
  for (const files of [[a, b], [b, a]]) {
    const { taps, report } = joined(t, files);
    assert.deepEqual(offsets(taps.c1), ["1-0", "2-0"]);
    assert.deepEqual(taps.c1.filter((it) => it.k === "conn").map((it) => it.c), [1, 2, 3]);
    assert.equal(report.overlapped, 0);
  }
});

test("what comes on a connection after its client's next handshake is left out", (t) => {
  const dir = directory(t);
  const a = journal(dir, "a", [100, conn(1, 100), gives(1, "P"), frame(1, "1-0"), 201, frame(1, "2-0"), lost(1)]);
  const b = journal(dir, "b", [200, conn(1, 200), asks(1, "P", "1-0"), 202, gives(1, "P"), frame(1, "2-0")]);
  const { taps, report } = joined(t, [a, b], { trimming: false });
  assert.deepEqual(offsets(taps.c1), ["1-0", "2-0"]);
  assert.equal(report.overlapped, 1);
  assert.ok(!brief(taps.c1).includes("lost"));
  // in one journal too, in the same millisecond
  const one = journal(dir, "c", [100, conn(1, 100), gives(1, "P"), frame(1, "1-0"), conn(2, 100), asks(2, "P", "1-0"), frame(1, "2-0"), frame(2, "2-0")]);
  assert.deepEqual(offsets(joined(t, [one], { trimming: false }).taps.c1), ["1-0", "2-0"]);
});

test("what isn't acknowledged, and after what the client asks with, is trimmed", (t) => {
  const dir = directory(t);
  const cases = [
    // acknowledged before the connection ended, asked with, left, trimmed
    [4, "3-0", ["1-0", "2-0", "3-0"], 2],
    [2, "3-0", ["1-0", "2-0", "3-0"], 2],
    [2, "2-0", ["1-0", "2-0"], 3],
    [5, "2-0", ["1-0", "2-0", "3-0", "4-0"], 1], // acknowledged, though the client asks from before: that has to show
    [1, "0-0", [], 5], // from an earlier connection
    [6, "5-0", ["1-0", "2-0", "3-0", "4-0", "5-0"], 0],
    [1, undefined, ["1-0", "2-0", "3-0", "4-0", "5-0"], 0],
  ];
  cases.forEach(([n, offset, left, trimmed], i) => {
    const lines = [100, conn(1, 100), gives(1, "P"), ...[1, 2, 3, 4, 5].map((it) => frame(1, `${it}-0`)), ack(1, n), lost(1), 200, conn(2, 200), asks(2, "P", offset)];
    const { taps, report } = joined(t, [journal(dir, `j${i}`, lines)]);
    assert.deepEqual([offsets(taps.c1), report.trimmed], [left, trimmed], `case ${i}`);
  });
});

test("trimming goes by namespace, takes attachments along, and leaves what is no frame", (t) => {
  const dir = directory(t);
  const file = journal(dir, "a", [
    100, conn(1, 100), gives(1, "P"), gives(1, "Q", "/chat,"), ack(1, 2),
    frame(1, "1-0"), frame(1, "2-0", "/chat,"),
    inn(1, '452-["m",{"_placeholder":true,"num":0},{"_placeholder":true,"num":1},"3-0"]'), { k: "inb", c: 1, b: "AA==" }, inn(1, "2"), inn(1, "bAQ=="),
    inn(1, '42["volatile",{"a":"b"}]'), inn(1, '427["asks","4-0"]'),
    inn(1, '451-/chat,["m",{"_placeholder":true,"num":0},"5-0"]'), { k: "inb", c: 1, b: "Ag==" },
    lost(1),
    200, conn(2, 200), lost(2), // went before it asked
    300, conn(3, 300), asks(3, "P", "1-0"), asks(3, "Q", "5-0", "/chat,"),
  ]);
  const { taps, report } = joined(t, [file]);
  assert.deepEqual(offsets(taps.c1), ["1-0", "2-0", "5-0"]);
  assert.deepEqual(taps.c1.filter((it) => it.k === "inb").map((it) => it.b), ["Ag=="]);
  assert.ok(brief(taps.c1).includes("in 2") && brief(taps.c1).includes('in 42["volatile",{"a":"b"}]') && brief(taps.c1).includes('in 427["asks","4-0"]'));
  assert.ok(!brief(taps.c1).includes("in bAQ=="));
  assert.deepEqual([report.trimmed, report.nobody], [1, 1]);
  // an event isn't taken before its last attachment is
  const half = journal(dir, "b", [100, conn(1, 100), gives(1, "P"), frame(1, "1-0"), inn(1, '451-["m",{"_placeholder":true,"num":0},"2-0"]'), ack(1, 3), { k: "inb", c: 1, b: "AA==" }, lost(1), 200, conn(2, 200), asks(2, "P", "1-0")]);
  assert.deepEqual(offsets(joined(t, [half]).taps.c1), ["1-0"]);
});

test("a gap ends its client's tap, and is told", (t) => {
  const dir = directory(t);
  const long = `42["${"\\u00e9".repeat(750_000)}","2-0"]`;
  const file = journal(dir, "a", [
    100, conn(1, 100), gives(1, "P"), frame(1, "1-0"), { k: "gap", c: 1, why: "because" }, conn(2, 110), gives(2, "L"), inn(2, long), frame(2, "3-0"),
    conn(3, 120), { k: "gap", c: 3, why: "nobody's" },
    200, conn(4, 200), asks(4, "P", "1-0"), gives(4, "P"),
  ]);
  const { taps, report } = joined(t, [file]);
  assert.deepEqual(offsets(taps.c1), ["1-0"]);
  assert.equal(brief(taps.c1).length, 3);
  assert.deepEqual(offsets(taps.c2), []);
  assert.deepEqual(report.gaps.map((it) => [it.client, it.connection, it.proxy]), [["c1", 1, "a"], ["c2", 2, "a"], [null, 3, "a"]]);
  assert.match(report.gaps[1].why, /longer than a line/);
  assert.deepEqual([report.sessions, report.nobody], [2, 1]);
});

test("nodes' taps keep the sessions that a client's tap has", (t) => {
  const dir = directory(t);
  const file = journal(dir, "a", [100, conn(1, 100), gives(1, "P")]);
  const node = path.join(dir, "n.tap");
  const records = [{ k: "tap", v: 2, of: "node" }, { k: "start", off: null }, { k: "open", pid: "P", sid: "s-P", nsp: "/" }, { k: "open", pid: "past", sid: "s", nsp: "/" }, { k: "takes", off: "1-0" }, { k: "join", pid: "past", room: "r" }, { k: "gone", pid: "P" }];
  fs.writeFileSync(node, `${records.map((it) => `n ${JSON.stringify(it)}\n`).join("")}n {"k":"ta`);
  const stream = path.join(dir, "st.tap");
  fs.writeFileSync(stream, 'st {"k":"tap","v":1,"of":"stream"}\nst {"k":"ev","off":"1-0","nsp":"/","text":"2[\\"m\\",\\"1-0\\"]"}\n');
  const all = joined(t, [file], { nodes: [node, stream] });
  assert.deepEqual([all.taps.n.length, all.report.leftOut], [7, 0]);
  const some = joined(t, [file], { nodes: [node, stream], onlyTapped: true });
  assert.deepEqual(some.taps.n.map((it) => it.pid ?? it.k), ["tap", "start", "P", "takes", "P"]);
  assert.equal(some.report.leftOut, 1);
  assert.equal(fs.readFileSync(path.join(some.into, "st.tap"), "utf8"), fs.readFileSync(stream, "utf8"));
  const key = Buffer.alloc(16, 1);
  const redact = redactor(key);
  const hidden = joined(t, [file], { nodes: [node, stream], onlyTapped: true, redact: key });
  assert.deepEqual(hidden.taps.n.map((it) => it.pid ?? it.k), ["tap", "start", redact.hash("P"), "takes", redact.hash("P")]);
  assert.equal(hidden.taps.st[1].text, `2["${redact.hash("m")}","1-0"]`);
  assert.equal(hidden.taps.c1[2].t, `40{"sid":"${redact.hash("s-P")}","pid":"${redact.hash("P")}"}`);
  const clash = path.join(dir, "other.tap");
  fs.writeFileSync(clash, 'c1 {"k":"tap","v":1,"of":"node"}\n');
  assert.throws(() => joined(t, [file], { nodes: [clash] }), /the name c1 is that of a client's tap/);
});

test("what is no journal is refused, and what has no end is told", (t) => {
  const dir = directory(t);
  const good = journal(dir, "a", [100, conn(1, 100), gives(1, "P")]);
  const refused = (files, code) => {
    const into = path.join(dir, "none");
    assert.throws(() => join({ journals: files, into }), (error) => error.code === code, code);
    assert.deepEqual(fs.existsSync(into) ? fs.readdirSync(into) : [], []);
  };
  const file = (text) => {
    const it = path.join(dir, `f${Math.random()}`);
    fs.writeFileSync(it, text);
    return it;
  };
  refused([file("")], "Header");
  refused([file("{}\n")], "Header");
  refused([file('{"k":"proxy","v":2,"id":"x"}\n')], "Version");
  refused([good, good], "Twice");
  refused([good, file('{"k":"proxy","v":1,"id":"x"}\n{"k":\n')], "NotJson");
  refused([path.join(dir, "missing")], "ENOENT");
  const killed = journal(dir, "k", [100, conn(1, 100), gives(1, "K")], { end: false });
  fs.appendFileSync(killed, '{"k":"in","c":1,"t":"42[');
  const { report, taps } = joined(t, [good, killed]);
  assert.equal(report.warnings.length, 1);
  assert.match(report.warnings[0], /no end, in the middle of a line/);
  assert.deepEqual(Object.keys(taps).length, 2);
  fs.writeFileSync(good, fs.readFileSync(good, "utf8").replace('"started"', '"redacted":true,"started"'));
  assert.throws(() => join({ journals: [good], into: path.join(dir, "x"), redact: redactor(Buffer.alloc(16)) }), /redacted already/);
});

test("memory goes by connections and not by bytes", (t) => {
  const dir = directory(t);
  const file = path.join(dir, "long.journal");
  fs.writeFileSync(file, '{"k":"proxy","v":1,"id":"long"}\n{"k":"conn","c":1,"at":1,"eio":"e","via":"websocket"}\n{"k":"in","c":1,"t":"40{\\"sid\\":\\"s\\",\\"pid\\":\\"P\\"}"}\n');
  const text = "x".repeat(2000);
  for (let i = 0; i < 15; i++) {
    let piece = "";
    for (let j = 0; j < 2000; j++) piece += `{"k":"in","c":1,"t":"42[\\"${text}\\",\\"${i}-${j}\\"]"}\n{"k":"ack","c":1,"n":${i * 2000 + j + 2}}\n`;
    fs.appendFileSync(file, piece);
  }
  fs.appendFileSync(file, '{"k":"end"}\n');
  const { stdout, status } = spawnSync(process.execPath, ["--max-old-space-size=48", BIN, file, "--into", path.join(dir, "taps"), "--json"], { encoding: "utf8" });
  assert.equal(status, 0);
  assert.equal(JSON.parse(stdout).packets, 30_001);
});

test("the program's words and its report", (t) => {
  const dir = directory(t);
  const file = journal(dir, "a", [100, conn(1, 100), gives(1, "P"), { k: "gap", c: 1, why: "because" }]);
  const node = path.join(dir, "n.tap");
  fs.writeFileSync(node, 'n {"k":"tap","v":1,"of":"node"}\n');
  const run = (...words) => {
    const { status, stdout, stderr } = spawnSync(process.execPath, [BIN, ...words], { encoding: "utf8" });
    return [status, stdout, stderr];
  };
  const into = path.join(dir, "taps");
  const [status, stdout] = run(file, "--into", into, "--nodes", node, "--only-tapped", "--prefix", "web");
  assert.equal(status, 1);
  assert.deepEqual(stdout.split("\n"), [
    "gap web1 connection 1 of a: because; its tap ends there",
    "journals=1 connections=1 clients=1 nobody=0 sessions=1 left-out=0",
    "packets=1 trimmed=0 overlapped=0 gaps=1",
    "",
  ]);
  assert.deepEqual(fs.readdirSync(into).sort(), ["n.tap", "web1.tap"]);
  for (const [words, why] of [
    [[file], /--into FOLDER is missing/],
    [["--into", into], /no JOURNAL/],
    [[file, "--into", into, "--prefix", "web"], /is there already/],
    [[file, "--into", into, "--prefix", "a b"], /--prefix/],
    [[file, "--into", into, "--only-tapped"], /needs --nodes/],
  ]) {
    const [code, , text] = run(...words);
    assert.equal(code, 2);
    assert.match(text, why);
  }
});

test("packets", () => {
  assert.deepEqual(connectOf('40/chat,{"pid":"P","offset":"1-0"}'), { nsp: "/chat", pid: "P", offset: "1-0" });
  assert.deepEqual(connectOf("40"), { nsp: "/" });
  assert.deepEqual(connectOf("40/chat,"), { nsp: "/chat" });
  assert.deepEqual(connectOf('40{"pid":7}'), { nsp: "/" });
  for (const text of ["42[]", "41", "40{", ""]) assert.equal(connectOf(text), undefined);
  const frames = {
    '42["m","1-0"]': ["/", "1-0", 0],
    '42/a-b.c,["m" , "1-0" ] ': ["/a-b.c", "1-0", 0],
    '4512-/n,["m","1-0"]': ["/n", "1-0", 12],
    '42["only"]': ["/", "only", 0],
    '42["a\\",\\"b"]': ["/", 'a","b', 0],
    '42["m","\\u0031-0"]': ["/", "1-0", 0],
    '42["m","x, "]': ["/", "x, ", 0],
  };
  for (const [text, [nsp, offset, attachments]] of Object.entries(frames)) assert.deepEqual(frameOf(text), { nsp, offset, attachments }, text);
  for (const text of ['427["m","1-0"]', '42["m",1]', '42["m",{"a":"b"}]', '43["m","1-0"]', "42", '42/n,7["m","1-0"]', '40["m","1-0"]', '42"m"', '2["m","1-0"]']) assert.equal(frameOf(text), undefined, text);
  assert.equal(frameOf(`42["${"x".repeat(2000)}","1-0"]`).offset, "1-0");
});
